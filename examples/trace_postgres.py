#!/usr/bin/python3
"""trace_postgres.py DSN LEVEL [TRANSACTIONS [SEED]] > TRACE: clients of a PostgreSQL server, recorded as a trace for omid_check.

LEVEL is 'read committed', 'repeatable read' or 'serializable'. Four clients read and write four keys of a table of their own. Needs psycopg2.
"""
import json
import queue
import random
import sys
import threading
import time

import psycopg2

KEYS, CLIENTS = 4, 4
PUT = "insert into traced values (%s, %s) on conflict (key) do update set value = excluded.value"


def transaction(cursor, level, plan):
    """Carries out a plan, and gives what each operation answered, when the first was answered, and when the commit was asked for."""
    cursor.execute(f"begin isolation level {level}")
    done, began = [], None
    for function, key, value in plan:
        if function == "r":
            cursor.execute("select value from traced where key = %s", (key,))
            value = (cursor.fetchone() or [None])[0]
        else:
            cursor.execute(PUT, (key, value))
        began = began or time.monotonic_ns()  # the first statement takes the snapshot
        done.append([function, key, value])
    return done, began


def client(number, dsn, level, count, seed, events):
    chance = random.Random(seed * CLIENTS + number)
    connection = psycopg2.connect(dsn)
    connection.autocommit = True
    cursor = connection.cursor()
    for n in range(count):
        keys = [chance.randrange(KEYS) for _ in range(chance.randint(1, 3))]
        plan = [["r", key, None] for key in keys] + [["w", chance.choice(keys), f"{number}.{n}"]] * (chance.random() < 0.8)
        events.put((time.monotonic_ns(), {"type": "invoke", "process": number, "value": plan}))
        event = {"type": "info", "process": number, "value": plan}
        try:
            event["value"], event["began"] = transaction(cursor, level, plan)
            event["committing"] = time.monotonic_ns()
            cursor.execute("commit")
            event["type"] = "ok"
        except psycopg2.errors.OperationalError as error:  # refused: a conflict or a deadlock, unless the connection is lost
            if error.pgcode in ("40001", "40P01"):
                event["type"] = "fail"
                cursor.execute("rollback")
        events.put((time.monotonic_ns(), event))


def main():
    dsn, level = sys.argv[1:3]
    count, seed = (int(word) for word in (sys.argv[3:] + ["50", "1"][len(sys.argv) - 3:]))
    setup = psycopg2.connect(dsn)
    setup.autocommit = True
    setup.cursor().execute("drop table if exists traced; create table traced (key int primary key, value text not null)")
    events = queue.Queue()
    clients = [threading.Thread(target=client, args=(c, dsn, level, count // CLIENTS, seed, events)) for c in range(CLIENTS)]
    for thread in clients:
        thread.start()
    for thread in clients:
        thread.join()
    for moment, event in sorted((events.get() for _ in range(events.qsize())), key=lambda timed: timed[0]):
        print(json.dumps({**event, "time": moment}))


main()
