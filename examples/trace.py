#!/usr/bin/env python3
"""Turns a trace of transactions into a history for `omid audit`.

    examples/trace.py [--snapshots] [--late] TRACE > HISTORY

TRACE is JSON: an array with an object for each transaction, or such objects one after another. Its members:

    id        what names the transaction in `from`, a number or a text; without it, its start
    start     the stamp below which it reads
    commit    its commit stamp; null or left out where it did not commit
    reads     [{"key": K, "from": ID, "value": V}, ..]; without `from` where nothing was found
    writes    [{"key": K, "value": V}, ..]
    does      in place of `reads` and `writes`, in the order in which they were done: [{"read": K, ..}, {"write": K, ..}, ..]
    asked, begun, done    moments by one clock: the start was asked for, was there; the commit was answered. All or none.

PostgreSQL's snapshots may stand in place of stamps:

    snapshot  what pg_current_snapshot() told, as "10:14:11,12"
    xid       the transaction's number, if it wrote; null or left out otherwise
    committed true or false
    commit    what orders commits that lie between the same two snapshots, if anything does; else it is the order of the trace
    era       a number that is greater behind each crash of the server; without it, 0

Stamps are any whole numbers: what counts is their order, and a history gets their ranks. By `--snapshots` a start sees commits
of its own number, and several transactions may start or commit at one number. By `--late` a transaction has both stamps at its
commit, as in a store that holds its locks until then; those without a commit are left out. A value that is longer than 64
bytes, or has other bytes than visible ones, gets a number in its place. What is odd is told on standard error. Python 3.10 or
later."""
import json
import sys
from bisect import bisect_left
from itertools import count

SESSIONS, KEYS, VALUE_BYTES = 16, 4096, 64


def trace_of(text):
    """The transactions: of one array, or of objects one after another."""
    text = text.strip()
    if text.startswith('['):
        return json.loads(text)
    decoder, at, found = json.JSONDecoder(), 0, []
    while at < len(text):
        txn, at = decoder.raw_decode(text, at)
        found.append(txn)
        while at < len(text) and text[at].isspace():
            at += 1
    return found


# ---- stamps

def stamp_plainly(txns):
    """Equal stamps stay equal, so that an audit finds those that must not be."""
    numbers = sorted({int(txn[name]) for txn in txns for name in ('start', 'commit') if txn.get(name) is not None})
    rank = {number: place for place, number in enumerate(numbers, 1)}
    for txn in txns:
        txn['from'] = rank[int(txn['start'])]
        txn['to'] = None if txn.get('commit') is None else rank[int(txn['commit'])]


def stamp_points(points):
    """Points in order, each (place, transaction, which stamp it gives): one rank each."""
    for rank, (_, txn, name) in enumerate(sorted(points, key=lambda it: it[0]), 1):
        txn[name] = rank


def stamp_snapshots(txns):
    points = []
    for place, txn in enumerate(txns):
        points.append(((2 * int(txn['start']) + 1, place), txn, 'from'))
        txn['to'] = None
        if txn.get('commit') is not None:
            points.append(((2 * int(txn['commit']), place), txn, 'to'))
    stamp_points(points)


def stamp_late(txns):
    stamp_points([((int(txn['commit']), place, name), txn, name) for place, txn in enumerate(txns) for name in ('from', 'to')])


class Snapshot:
    """What a snapshot of PostgreSQL sees: the transactions below `end` that are not in the list."""

    def __init__(self, text):
        _, end, running = text.split(':')
        self.end, self.running = int(end), frozenset(map(int, running.split(','))) if running else frozenset()

    def sees(self, xid):
        return xid < self.end and xid not in self.running

    def size(self):
        return self.end - len(self.running)


def stamp_by_snapshots(txns):
    """The snapshots of one era are a chain by inclusion. A commit lies before the first of them that sees it."""
    points = []
    for era in sorted({txn.get('era', 0) for txn in txns}):
        some = [(place, txn, Snapshot(txn['snapshot'])) for place, txn in enumerate(txns) if txn.get('era', 0) == era]
        chain = sorted({it[2].size(): it[2] for it in some}.items())
        sizes, chain = [size for size, _ in chain], [snapshot for _, snapshot in chain]
        for earlier, later in zip(chain, chain[1:]):
            unseen = [*later.running, *range(later.end, earlier.end)]
            if any(earlier.sees(xid) for xid in unseen):
                tell(f'two snapshots are no chain: one sees what a greater one does not ({unseen})')
        for place, txn, snapshot in some:
            points.append(((era, bisect_left(sizes, snapshot.size()), 1, 0, place), txn, 'from'))
            txn['to'] = None
            if txn.get('committed') and txn.get('xid') is not None:
                first = bisect_left(chain, True, key=lambda it: it.sees(int(txn['xid'])))
                points.append(((era, first, 0, txn.get('commit') or 0, place), txn, 'to'))
    stamp_points(points)


# ---- items

def steps_of(txn):
    if 'does' in txn:
        return [('read' if 'read' in it else 'write', it.get('read', it.get('write')), it) for it in txn['does']]
    return [('read', it['key'], it) for it in txn.get('reads', [])] + [('write', it['key'], it) for it in txn.get('writes', [])]


def told_value(value, ranks):
    text = value if isinstance(value, str) else json.dumps(value, separators=(',', ':'))
    if 0 < len(text) <= VALUE_BYTES and all('!' <= it <= '~' for it in text):
        return text
    return f'value-{ranks.setdefault(text, len(ranks))}'


class History:
    def __init__(self, txns):
        self.by_name = {str(txn.get('id', txn.get('start'))): txn for txn in txns}
        names = sorted({key for txn in txns for _, key, _ in steps_of(txn)}, key=str)
        self.keys = {name: place for place, name in enumerate(names)}
        self.strangers, self.values, self.unknown = count(3 * len(txns) + 1), {}, 0
        if len(self.keys) > KEYS:
            sys.exit(f'{len(self.keys)} keys: a history has {KEYS} at most. Leave out all but the reads and writes of some of them')
        if len(self.by_name) < len(txns):
            tell(f'{len(txns) - len(self.by_name)} transactions have the name of another one: `from` means the last of them')

    def writer(self, name):
        """The start of the transaction that wrote what was read; a number of its own where the trace has no such transaction."""
        txn = self.by_name.get(str(name))
        if txn is None:
            self.unknown += 1
            txn = self.by_name[str(name)] = {'from': next(self.strangers)}
        return txn['from']

    def items(self, txn, session):
        """The items of a transaction up to its commit."""
        start = txn['from']
        found = [{'kind': 'begin', 'session': session, 'start': start}]
        for kind, key, step in steps_of(txn):
            item = {'key': f'k{self.keys[key]}', 'kind': kind, 'session': session, 'start': start}
            if kind == 'write' or step.get('from') is not None:
                item['value'] = told_value(step['value'], self.values)
            if kind == 'read' and step.get('from') is not None:
                item['from'] = self.writer(step['from'])
            found.append(item)
        return found


def placed(txn):
    return {'commit': txn['to'], 'kind': 'placed', 'start': txn['from']}


def by_stamps(history, txns):
    """Each transaction at its start, and its commit at the commit: nothing to find for the rule `fresh`."""
    parts = []
    for place, txn in enumerate(txns):
        parts.append(((txn['from'], 0, place), history.items(txn, f's{place % SESSIONS}')))
        if txn['to'] is not None:
            parts.append(((txn['to'], 1, place), [placed(txn)]))
    return [item for _, part in sorted(parts, key=lambda it: it[0]) for item in part]


def by_moments(history, txns):
    """In the order of the clock, with the asks. A session is taken from an ask to its begin, and where others are free up to the commit
    too, so that a picture has a lane for each transaction that runs."""
    moments = [((txn['asked'], 0, place), txn) for place, txn in enumerate(txns)]
    moments += [((txn['begun'], 1, place), txn) for place, txn in enumerate(txns)]
    moments += [((txn['done'], 2, place), txn) for place, txn in enumerate(txns) if txn['to'] is not None]
    free, running, taken, kept, found, crowded = set(range(SESSIONS)), [0] * SESSIONS, {}, {}, [], 0
    for (_, which, place), txn in sorted(moments, key=lambda it: it[0]):
        if which == 2:
            found.append(placed(txn))
            if place in kept:
                running[kept.pop(place)] -= 1
        elif which == 0 and free:
            taken[place] = min(free, key=lambda it: (running[it], it))
            free.remove(taken[place])
            found.append({'kind': 'ask-begin', 'node': 'a', 'session': f's{taken[place]}'})
        elif which == 1:
            crowded += place not in taken
            session = taken.get(place, place % SESSIONS)
            found += history.items(txn, f's{session}')
            if place in taken:
                free.add(taken.pop(place))
            if txn['to'] is not None:
                kept[place] = session
                running[session] += 1
    if crowded:
        tell(f'{crowded} transactions were asked for while {SESSIONS} others were: they have no `ask-begin`')
    return found


def tell(words):
    print(f'trace.py: {words}', file=sys.stderr)


def main():
    how, paths = [it for it in sys.argv[1:] if it.startswith('--')], [it for it in sys.argv[1:] if not it.startswith('--')]
    if len(paths) != 1 or not set(how) <= {'--snapshots', '--late'}:
        sys.exit(__doc__)
    with open(paths[0], encoding='utf-8') as file:
        txns = trace_of(file.read())
    if txns and 'snapshot' in txns[0]:
        stamp_by_snapshots(txns)
    elif '--late' in how:
        txns = [txn for txn in txns if txn.get('commit') is not None]
        stamp_late(txns)
    elif '--snapshots' in how:
        stamp_snapshots(txns)
    else:
        stamp_plainly(txns)
    history = History(txns)
    items = by_moments(history, txns) if txns and all('asked' in txn for txn in txns) else by_stamps(history, txns)
    sys.stdout.writelines(json.dumps(item, separators=(',', ':'), sort_keys=True) + '\n' for item in items)
    if history.unknown:
        tell(f'values were read of {history.unknown} writers that are not in the trace: '
             'let its first transaction write what was there before')


if __name__ == '__main__':
    main()
