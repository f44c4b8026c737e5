#!/usr/bin/env python3
"""make_trace.py [OPERATIONS [KEYS [CLIENTS]]] [lists]: prints a trace for omid_check, of a store that is snapshot isolated.

Clients have one transaction at a time, of two to eight operations, each a read or a write. Of two that overlap and wrote one key the second is
refused (`fail`). The keys are chosen evenly; the same words print the same trace. With `lists` a write appends, and a read finds the
list of what was appended.
"""
import bisect
import json
import random
import sys


def seen(versions, start):
    """The value of the last of these versions that was committed by then."""
    place = bisect.bisect_right(versions, start, key=lambda version: version[0])
    return versions[place - 1][1] if place else None


def listed(versions, start):
    """The values that were appended by then."""
    return [value for _, value in versions[: bisect.bisect_right(versions, start, key=lambda version: version[0])]]


def run(operations, keys, clients, lists):
    """The transactions in the order in which they end, each with whether it committed and its operations."""
    chance = random.Random(1)
    versions = {}
    clock, value, done = 0, 0, 0
    waiting = []
    while done < operations:
        wanted = [(chance.random() < 0.5, chance.randrange(keys)) for _ in range(chance.randint(2, 8))]
        waiting.append((clock, wanted))
        done += len(wanted)
        if len(waiting) < clients:
            continue
        start, wanted = waiting.pop(chance.randrange(clients))
        own, said = {}, []
        for writes, key in wanted:
            before = versions.get(key, [])
            if writes:
                value += 1
                own.setdefault(key, []).append(value)
                said.append(["append" if lists else "w", key, value])
            elif lists:
                said.append(["r", key, listed(before, start) + own.get(key, [])])
            else:
                said.append(["r", key, own[key][-1] if key in own else seen(before, start)])
        commits = all(versions.get(key, ((0, 0),))[-1][0] <= start for key in own)
        if commits:
            clock += 1
            for key, new in own.items():
                versions.setdefault(key, []).extend((clock, each) for each in (new if lists else new[-1:]))
        yield commits, said


def main():
    lists = sys.argv[-1] == "lists"
    words = [int(word) for word in (sys.argv[1:-1] if lists else sys.argv[1:])]
    operations, keys, clients = (words + [1_000_000, 50_000, 16][len(words):])[:3]
    for number, (commits, said) in enumerate(run(operations, keys, clients, lists)):
        event = {"type": "ok" if commits else "fail", "process": number % clients, "value": said}
        print(json.dumps(event, separators=(",", ":")))


if __name__ == "__main__":
    main()
