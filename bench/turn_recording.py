#!/usr/bin/env python3
"""turn_recording.py RECORDING: prints a recording of clients as a trace for omid_check.

A recording has a first line {"init": {KEY: VALUE}}, what stood before the clients came, and then an object a transaction:
"c" its client, "ops" its operations ["r", KEY, VALUE or null, time] and ["w", KEY, VALUE, time], "ask" and "got" when its begin was
asked and answered, "put" and "ack" the same of its commit, and "out": committed, aborted or unknown.
"""
import json
import sys

TYPES = {"committed": "ok", "aborted": "fail", "unknown": "info"}


def events_of(txn, zero):
    """The event that asks for the transaction, and the one that tells what became of it, each with its time."""
    asked = [[f, key, None if f == "r" else value] for f, key, value, _ in txn["ops"]]
    answered = [[f, key, value] for f, key, value, _ in txn["ops"]]
    process = txn["c"]
    yield txn["ask"], {"type": "invoke", "process": process, "time": txn["ask"] - zero, "value": asked}
    end = txn.get("ack", txn["end"])
    event = {"type": TYPES[txn["out"]], "process": process, "time": end - zero}
    if "got" in txn:
        event["began"] = txn["got"] - zero
    if "put" in txn:
        event["committing"] = txn["put"] - zero
    yield end, {**event, "value": answered}


def main():
    with open(sys.argv[1]) as recording:
        head = json.loads(recording.readline())
        txns = [json.loads(line) for line in recording]
    zero = min(txn["ask"] for txn in txns) - 1
    before = [["w", int(key), value] for key, value in head["init"].items()]
    print(json.dumps({"type": "ok", "process": "before", "time": 0, "value": before}))
    events = [event for txn in txns for event in events_of(txn, zero)]
    for _, event in sorted(events, key=lambda timed: timed[0]):
        print(json.dumps(event))


main()
