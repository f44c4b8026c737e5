#!/usr/bin/env python3
"""time_traces.py [OPERATIONS [PROGRAM]]: omid_check beside plain_check.rs, which judges by the same algorithm and is not proved.

Makes a trace of so many operations (1,000,000), builds the plain program with `rustc -O`, runs both on it at each level, and
prints a row of a table for each: user and wall seconds and the most memory of both, and whether their statuses are the same.
"""
import os
import subprocess
import sys
import tempfile
import time

ROOT = os.path.dirname(os.path.dirname(os.path.abspath(__file__)))
BENCH = os.path.join(ROOT, "bench")


def ran(words, trace):
    """The status, user seconds, wall seconds and megabytes of a run over the trace."""
    with open(trace, "rb") as given:
        begun = time.monotonic()
        child = subprocess.Popen(words, stdin=given, stdout=subprocess.DEVNULL)
        _, status, usage = os.wait4(child.pid, 0)
        wall = time.monotonic() - begun
    child.returncode = os.waitstatus_to_exitcode(status)
    return child.returncode, usage.ru_utime, wall, usage.ru_maxrss / 1000


def main():
    operations = sys.argv[1] if len(sys.argv) > 1 else "1000000"
    program = sys.argv[2] if len(sys.argv) > 2 else os.path.join(ROOT, "crates/omid_check/out/omid_check")
    with tempfile.TemporaryDirectory() as place:
        plain, trace = os.path.join(place, "plain_check"), os.path.join(place, "trace")
        subprocess.run(["rustc", "-O", os.path.join(BENCH, "plain_check.rs"), "-o", plain], check=True)
        with open(trace, "wb") as made:
            subprocess.run([sys.executable, os.path.join(BENCH, "make_trace.py"), operations], stdout=made, check=True)
        print("| Level | omid_check: user, wall, memory | plain_check: user, wall, memory | Times the user seconds | Status |")
        print("|---|---|---|---|---|")
        for level in ("snapshot", "serializable"):
            proved, bare = ran([program, level], trace), ran([plain, level], trace)
            costs = " | ".join("%.1f s, %.1f s, %.0f MB" % cost[1:] for cost in (proved, bare))
            same = f"both {bare[0]}" if proved[0] == bare[0] else f"{proved[0]} and {bare[0]}"
            print(f"| {level} | {costs} | {proved[1] / max(bare[1], 0.01):.1f} | {same} |")


if __name__ == "__main__":
    main()
