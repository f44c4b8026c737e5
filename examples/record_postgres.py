#!/usr/bin/env python3
"""Records a run of a PostgreSQL server as a trace for trace.py: clients that read and write a few keys of one table.

    examples/record_postgres.py [--level 'repeatable read'] [--clients 4] [--transactions 12] [--keys 4] [--seed 1] > TRACE

It needs the command psql and nothing else, and reaches the server as psql does, by PGHOST, PGUSER and so on. It drops and
creates a table `kv` there. Each client has a psql of its own, and records what that answered: the snapshot of each transaction,
its number once it wrote, and every read. A value names the transaction that wrote it, so a read tells whom it read from."""
import argparse
import json
import random
import subprocess
import sys
import threading
import time


class Client:
    """One session of the server."""

    def __init__(self):
        self.psql = subprocess.Popen(['psql', '-qAtX'], stdin=subprocess.PIPE, stdout=subprocess.PIPE,
                                     stderr=subprocess.DEVNULL, text=True)

    def ask(self, statement):
        """The rows of the answer. Raises Refused where the server answered with an error."""
        self.psql.stdin.write(statement + ';\n\\echo end :SQLSTATE\n')
        self.psql.stdin.flush()
        rows = []
        for line in self.psql.stdout:
            if line.startswith('end '):
                if line.split()[1] != '00000':
                    raise Refused(line.split()[1])
                return rows
            rows.append(line.rstrip('\n'))
        raise SystemExit('psql has ended: is there a server, and do PGHOST and PGUSER lead to it?')


class Refused(Exception):
    pass


def write(client, txn, key):
    value = f'{txn["id"]}/{len(txn["does"])}'
    txn['does'].append({'write': key, 'value': value})
    rows = client.ask(f"insert into kv values ({key}, '{value}') on conflict (k) do update set v = excluded.v "
                      'returning pg_current_xact_id()')
    txn['xid'] = int(rows[0])


def read(client, txn, key):
    rows = client.ask(f'select v from kv where k = {key}')
    txn['does'].append({'read': key, 'from': rows[0].split('/')[0], 'value': rows[0]} if rows else {'read': key})


def transaction(client, name, level, work):
    """Carries out one transaction, and gives what is to be recorded of it."""
    txn = {'id': name, 'snapshot': None, 'xid': None, 'committed': False, 'does': [], 'asked': time.monotonic_ns()}
    try:
        client.ask(f'begin isolation level {level}')
        txn['snapshot'] = client.ask('select pg_current_snapshot()')[0]
        txn['begun'] = time.monotonic_ns()
        work(client, txn)
        client.ask('commit')
        txn['committed'] = True
    except Refused:
        client.ask('rollback')
    txn['done'] = time.monotonic_ns()
    return txn


def some_work(random_of, keys):
    def work(client, txn):
        for _ in range(random_of.randint(2, 4)):
            (read if random_of.random() < 0.6 else write)(client, txn, random_of.randrange(keys))
    return work


def main():
    words = argparse.ArgumentParser()
    words.add_argument('--level', default='repeatable read')
    for name, number in (('clients', 4), ('transactions', 12), ('keys', 4), ('seed', 1)):
        words.add_argument(f'--{name}', type=int, default=number)
    asked = words.parse_args()
    loader = Client()
    loader.ask('drop table if exists kv')
    loader.ask('create table kv (k int primary key, v text)')
    # what is there before the clients begin is written by a transaction of the trace
    def load(client, txn):
        for key in range(0, asked.keys, 2):
            write(client, txn, key)

    recorded = [transaction(loader, 'load', asked.level, load)]

    def run(number):
        client, random_of = Client(), random.Random(asked.seed * 1000 + number)
        for count in range(asked.transactions):
            recorded.append(transaction(client, f'{number}.{count}', asked.level, some_work(random_of, asked.keys)))

    threads = [threading.Thread(target=run, args=(number,)) for number in range(asked.clients)]
    for thread in threads:
        thread.start()
    for thread in threads:
        thread.join()
    recorded = [txn for txn in recorded if txn['snapshot']]
    for txn in recorded:
        print(json.dumps(txn))
    print(f'{sum(txn["committed"] for txn in recorded)} of {len(recorded)} transactions committed', file=sys.stderr)


if __name__ == '__main__':
    main()
