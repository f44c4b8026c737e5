#!/usr/bin/env python3
"""Makes scripts at random, has `omid run` or `omid run split` carry each out over and over, and audits every history.

usage: bench/random_scripts.py [--program PATH] [--words "run split"] [--scripts N] [--runs N] [--seed N] [--pinned] [--show]
                               [FILE ..]

No script waits for ever by itself: an actor awaits what stands further up, and while a node holds a stage it waits for nobody who
needs that stage. So a run that has not ended after twenty seconds is stuck. A run is wrong, too, where it ends with another status
than 0, where the audit of its history (a strict one behind `reads strict`) ends with another than 0, where the history has not as
many ticks and notes as the script has lines of these, or where a store has more faults than are planned for it. The first such
script is kept under the name that is printed, and the status is 1.

With FILE .. these scripts are run in place of random ones. `--pinned` has a run take a single processor, `--show` prints the
scripts and runs none. The same seed makes the same scripts."""
import argparse
import os
import random
import re
import subprocess
import sys
import tempfile
from concurrent.futures import ThreadPoolExecutor

ROOT = os.path.dirname(os.path.dirname(os.path.abspath(__file__)))
STAGES = ("request", "persist", "reply")
STORES = ("cells", "table", "master")
WAIT = 20


class Maker:
    """Makes one script."""

    def __init__(self, seed):
        self.draw = random.Random(seed)
        self.lines, self.names = [], 0
        self.nodes = self.draw.choice((1, 1, 2, 3))
        self.workers = self.draw.choice((1, 2, 4))
        self.sessions = self.draw.choice((1, 2, 3, 4, 8, 16))
        self.keys = self.draw.choice((1, 3, 20))
        self.by_master = self.likely(0.3)
        self.lead = 0

    def likely(self, chance):
        return self.draw.random() < chance

    def say(self, actor, *words):
        self.lines.append(" ".join((actor, *map(str, words))))

    def name(self):
        self.names += 1
        return f"n{self.names}"

    def passes(self, earlier, later):
        """The later actor goes on only behind what the earlier one has done."""
        if earlier != later:
            name = self.name()
            self.say(earlier, "post", name)
            self.say(later, "await", name)

    def node(self):
        return "abcdefgh"[self.draw.randrange(self.nodes)]

    def master(self):
        return "abcdefgh"[self.lead]

    def session(self):
        return f"s{self.draw.randrange(self.sessions)}"

    def target(self):
        if self.by_master and self.likely(0.7):
            return "master"
        return self.node() if self.likely(0.1) else self.master()

    def key(self):
        return f"k{self.draw.randrange(self.keys)}"

    # ---- the setup

    def set_up(self):
        draw, lines = self.draw, self.lines
        lines.append(f"nodes {self.nodes}")
        lines.append(f"workers {self.workers}")
        lines.append(f"batch {draw.choice((1, 2, 8, 16))}")
        lines.append(f"lease {draw.choice((3, 100, 1000000))}")
        lines.append(f"range {draw.choice((1, 3, 100, 1000000))}")
        for word, numbers in (("buckets", ("1 1", "4 2", "64 4")), ("slots", (1, 4, 64)), ("skew", (0, 5))):
            if self.likely(0.4):
                lines.append(f"{word} {draw.choice(numbers)}")
                if lines[-1] == "skew 5":
                    lines.append(f"lead {self.node()} {draw.randrange(6)}")
        lines += [line for line in (f"cache {draw.choice((1, 8))}", "commits direct", "reads strict") if self.likely(0.3)]
        if self.likely(0.4):
            planned = {(draw.choice(STORES), draw.randrange(1, 40)) for _ in range(draw.randrange(1, 6))}
            lines += [f"fault {store} {call} {draw.choice(('unchanged', 'applied'))}" for store, call in sorted(planned)]

    # ---- what sessions do

    def quiet_line(self, session):
        """A line that waits for no stage."""
        verb = self.draw.choice(("read", "read", "write", "write", "fetch", "heal", "step", "finish"))
        key = {"read": self.key, "write": lambda: f"{self.key()} v{self.draw.randrange(100)}", "fetch": self.key}.get(verb)
        self.say(session, verb, *([key()] if key else []))

    def transaction(self, session):
        self.say(session, "begin", self.target())
        for _ in range(self.draw.randrange(5)):
            if self.likely(0.85):
                self.say(session, self.draw.choice(("read", "read", "fetch")), self.key())
            if self.likely(0.7):
                self.say(session, "write", self.key(), f"v{self.draw.randrange(100)}")
        end = self.draw.random()
        if end < 0.65:
            self.say(session, "commit", self.target())
        elif end < 0.85:
            self.say(session, "submit", self.target())
            for _ in range(self.draw.randrange(3)):
                self.quiet_line(session)
            if self.likely(0.8):
                self.say(session, "collect")
            self.say(session, "finish")
        elif end < 0.95:
            self.say(session, "abort")
        elif end < 0.97:
            self.say(session, "vanish")

    def any_line(self):
        """One line of whomever, whatever comes of it."""
        session = self.session()
        draw = self.draw.randrange(10)
        if draw < 5:
            self.quiet_line(session)
        elif draw == 5:
            self.say(session, "begin", self.target())
        elif draw == 6:
            self.say(session, self.draw.choice(("commit", "submit")), self.target())
        elif draw == 7:
            self.say(session, "collect")
        elif draw == 8:
            self.say("janitor", "sweep", self.node(), self.draw.randrange(1, 30))
        else:
            self.say(self.node(), "renew")

    # ---- what nodes and the clock do

    def takes_over(self):
        """The next node takes over, behind a crash of the one before or by its lease."""
        before = self.master()
        self.lead = (self.lead + 1) % self.nodes
        if self.likely(0.7):
            self.say(before, "crash")
        self.passes(before, "clock")
        self.say("clock", "tick", 1000000)
        self.say("clock", "tick", 10)
        self.passes("clock", self.master())
        self.say(self.master(), "take")
        for session in range(self.sessions):
            if self.likely(0.5):
                self.passes(self.master(), f"s{session}")

    def holds(self):
        """The node holds a stage, and frees it behind lines of a session that need no stage."""
        node, stage, session = self.node(), self.draw.choice(STAGES), self.session()
        self.passes(session, node)
        self.say(node, "hold", stage)
        if self.likely(0.6):
            self.passes(node, session)
            for _ in range(self.draw.randrange(4)):
                self.quiet_line(session)
            self.passes(session, node)
        elif self.likely(0.3):
            self.say(node, "crash")
        self.say(node, "free", stage)

    def orders(self):
        """One actor waits for another."""
        actors = ["clock", "janitor", self.node(), self.session(), self.session()]
        self.passes(*self.draw.sample(actors, 2))

    def script(self):
        self.set_up()
        self.say(self.master(), "take")
        for session in range(self.sessions):
            if self.likely(0.9):
                self.passes(self.master(), f"s{session}")
        for _ in range(self.draw.choice((5, 20, 60))):
            what = self.draw.random()
            if what < 0.55:
                self.transaction(self.session())
            elif what < 0.75:
                self.any_line()
            elif what < 0.83:
                self.orders()
            elif what < 0.91:
                self.holds()
            elif what < 0.95:
                self.say("clock", "tick", self.draw.choice((1, 5)))
            else:
                self.takes_over()
        return "".join(line + "\n" for line in self.lines)


def faults(lines, place):
    """How many faults each store has, which is the word at this place of a line."""
    return [sum(line.startswith("fault ") and line.split()[place] == store for line in lines) for store in STORES]


def told(script):
    """How many ticks and notes a whole run of the script tells of."""
    words = [line.split() for line in script.split("\n") if line]
    ticks = sum(it[:2] == ["clock", "tick"] for it in words)
    notes = sum(it[1] in ("post", "await", "hold", "free") for it in words)
    return ticks, notes


class Wrong(Exception):
    """What is wrong with a run, and the history if there is one."""


def judged(program, words, script, pinned):
    """Runs the script once, and raises what is wrong with it."""
    given = script.encode()
    call = (["taskset", "-c", str(random.randrange(os.cpu_count()))] if pinned else []) + [program, *words]
    try:
        ran = subprocess.run(call, input=given, capture_output=True, timeout=WAIT)
    except subprocess.TimeoutExpired:
        raise Wrong("stuck") from None
    if ran.returncode != 0:
        raise Wrong(f"status {ran.returncode}: {ran.stdout[:200]!r}")
    lines = ran.stdout.decode().split("\n")
    seen = tuple(sum(line.startswith(word + " ") for line in lines) for word in ("tick", "note"))
    if seen != told(script):
        raise Wrong(f"{seen} ticks and notes in place of {told(script)}")
    planned = faults(script.split("\n"), 1)
    if any(more > most for more, most in zip(faults(lines, 2), planned)):
        raise Wrong(f"{faults(lines, 2)} faults in place of {planned}")
    strictly = ["strict"] if re.search(r"(?m)^reads strict$", script) else []
    audit = subprocess.run([program, "audit", *strictly], input=ran.stdout, capture_output=True)
    if audit.returncode != 0:
        raise Wrong(f"audit {audit.returncode}: {audit.stdout[:200]!r}")


def main():
    words = argparse.ArgumentParser(description=__doc__, formatter_class=argparse.RawDescriptionHelpFormatter)
    words.add_argument("--program", default=os.path.join(ROOT, "crates/omid/out/omid"))
    words.add_argument("--words", default="run", help="the words behind the program's name")
    words.add_argument("--scripts", type=int, default=100)
    words.add_argument("--runs", type=int, default=10, help="of each script")
    words.add_argument("--seed", type=int, default=1, help="of the first script; the next one has the next")
    words.add_argument("--pinned", action="store_true")
    words.add_argument("--show", action="store_true")
    words.add_argument("files", nargs="*", metavar="FILE")
    said = words.parse_args()
    named = [(file, open(file, encoding="ascii").read()) for file in said.files]
    scripts = named or [(seed, Maker(seed).script()) for seed in range(said.seed, said.seed + said.scripts)]
    if said.show:
        print("\n".join(script for _, script in scripts), end="")
        return

    def all_runs(one):
        for _ in range(said.runs):
            judged(said.program, said.words.split(), one[1], said.pinned)

    lines = 0
    with ThreadPoolExecutor(max_workers=2) as pool:
        for (which, script), done in [(one, pool.submit(all_runs, one)) for one in scripts]:
            try:
                done.result()
                lines += script.count("\n")
            except Wrong as why:
                pool.shutdown(cancel_futures=True)
                with tempfile.NamedTemporaryFile("w", prefix="random-script-", suffix=".omid", delete=False) as kept:
                    kept.write(script)
                sys.exit(f"script {which}: {why}; it is {kept.name}")
    print(f"{len(scripts)} scripts of {lines} lines in all, {said.runs} runs each: all ended, and all histories are isolated")


if __name__ == "__main__":
    main()
