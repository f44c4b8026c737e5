#!/usr/bin/env python3
"""check_postgres.py [OMID_CHECK]: starts a PostgreSQL server of its own on the loopback, under a temporary folder, records clients at three
levels with examples/trace_postgres.py, and compares what omid_check says of them with what the levels promise.

Without a path it runs crates/omid_check/out/omid_check. Where no server is installed it says so, and how to install one, and ends with 0.
"""
import os
import pathlib
import shutil
import socket
import subprocess
import sys
import tempfile

TOP = pathlib.Path(__file__).resolve().parent.parent
INSTALL = "apt-get install postgresql python3-psycopg2"
# What each level shall be found to be: the words of omid_check, and the status.
EXPECTED = {
    "read committed": [("snapshot", 7)],
    "repeatable read": [("snapshot", 0), ("serializable", 7)],
    "serializable": [("snapshot", 0), ("serializable", 0)],
}


def tool(name):
    """The server's program of this name, as found on the path or where Debian has it."""
    beside = sorted(pathlib.Path("/usr/lib/postgresql").glob(f"*/bin/{name}"))
    return shutil.which(name) or (str(beside[-1]) if beside else None)


def as_server(words):
    """The server refuses to run as root: then its own user runs it."""
    return ["runuser", "-u", "postgres", "--", *words] if os.geteuid() == 0 else words


def python_with_client():
    for python in (sys.executable, "/usr/bin/python3"):
        if subprocess.run([python, "-c", "import psycopg2"], capture_output=True).returncode == 0:
            return python
    return None


def free_port():
    with socket.socket() as probe:
        probe.bind(("127.0.0.1", 0))
        return probe.getsockname()[1]


def record(python, dsn, level, seed):
    words = [python, str(TOP / "examples/trace_postgres.py"), dsn, level, "400", str(seed)]
    return subprocess.run(words, check=True, capture_output=True).stdout


def judged(program, trace, words):
    done = subprocess.run([program, *words.split()], input=trace, capture_output=True)
    return done.returncode, done.stdout.decode()


def check(program, python, dsn):
    """Whether the program said of each level what is expected. A level that may break a promise need not do so in one run: it has ten."""
    right = True
    for level, expected in EXPECTED.items():
        for words, status in expected:
            tries = [judged(program, record(python, dsn, level, seed), words) for seed in range(10 if status == 7 else 2)]
            found = [code for code, _ in tries]
            met = status in found if status == 7 else all(code == 0 for code in found)
            right = right and met
            said = next((text for code, text in tries if code == status), tries[0][1])
            print(f"{'ok' if met else 'WRONG'}: {level}: {words}: {said.splitlines()[0] if said else found}")
    return right


def main():
    program = sys.argv[1] if len(sys.argv) > 1 else str(TOP / "crates/omid_check/out/omid_check")
    python, initdb, pg_ctl = python_with_client(), tool("initdb"), tool("pg_ctl")
    if not (python and initdb and pg_ctl):
        print(f"no PostgreSQL server with its client for Python is installed: {INSTALL}")
        return 0
    folder = tempfile.mkdtemp(prefix="omid_check.")
    data, port = f"{folder}/data", free_port()
    if os.geteuid() == 0:
        shutil.chown(folder, "postgres")
    try:
        subprocess.run(as_server([initdb, "-D", data, "-U", "postgres", "-A", "trust", "--no-sync"]), check=True, capture_output=True)
        options = f"-p {port} -c listen_addresses=127.0.0.1 -c unix_socket_directories={folder} -c fsync=off"
        subprocess.run(as_server([pg_ctl, "-D", data, "-w", "-l", f"{folder}/log", "-o", options, "start"]), check=True, capture_output=True)
        try:
            return 0 if check(program, python, f"host=127.0.0.1 port={port} user=postgres dbname=postgres") else 1
        finally:
            subprocess.run(as_server([pg_ctl, "-D", data, "-m", "immediate", "stop"]), capture_output=True)
    finally:
        shutil.rmtree(folder)


sys.exit(main())
