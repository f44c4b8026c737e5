#!/usr/bin/env python3
"""Measures the program `omid` beside `sort`, its strict reads and audits, its caches and its direct commits beside the others, and its
compactions and its threads beside its replay, and prints one table of each. Over split stores the last table tells what a committed
transaction costs, on one processor and on more.

usage: bench/bench.py [--program PATH] [--runs N] [--only WORD] [--quick] [--ordinary | --instructions | --plain]

The program is crates/omid/out/omid, which stands there behind a green gate. Every figure is a median of N runs that
take turns with the runs they are compared with, so that a loaded machine slows both. User and system time are the kernel's
own count of the child; `switches` are its voluntary context switches. Compare ratios of one run of this script, never times of two.

With `--ordinary` one other table is printed in place of these: replays and runs of the loads on threads at ordinary priority, whatever
that of this script, at rest and beside four processes that never wait, which are started and ended here. It has an eighth of the lines,
since a run beside others may take many times as long.

With `--instructions` one table of instructions an item is printed in their place, counted by valgrind's callgrind over an eighth of the
lines. It is the same on a busy machine, and from one run to the next but for some thousands in all.

With `--plain` one table is printed in their place too: replays and a storm beside those of bench/plain_replay.rs, and audits beside
those of bench/plain_audit.rs, plain programs that print the same, built by `rustc -O`. It has user time, and where valgrind is installed
instructions a line of the script, or an item of the history, over an eighth of the lines.
"""
import argparse, contextlib, filecmp, os, random, re, shutil, statistics, subprocess, sys, tempfile, time
from dataclasses import dataclass

ROOT = os.path.dirname(os.path.dirname(os.path.abspath(__file__)))
LINES = 131_072
# the most transactions that a storm has
STORM = 20_000
# the longest history that is read back, in bytes
READ_BACK = 16 * 1024 * 1024
WIDE = ["range 1000000000", "lease 1000000"]
# the causes of refusals for which a session's or the janitor's own part is enough
OF_ONE_PART = ("busy", "gone", "idle", "no-transaction")
# where the kernel is told to count calls of a program's function; only root may write there, and only where tracefs is mounted
TRACING = "/sys/kernel/tracing"
# what a stage calls once for each batch, when all entries of it are answered
GIVE_BACK = "stage_queues::queues::Queues::give_batch"
# how many processes are busy beside a run, and what each of them does: it says that it has begun, and works until this script is gone
BUSY = 4
SPINS = """import os, sys
print(flush=True)
while os.getppid() == int(sys.argv[1]):
    for _ in range(1_000_000):
        pass
"""
# how the scripts of one session or one node begin
HEAD = [*WIDE, "a take"]


@dataclass
class Cost:
    wall: float
    user: float
    system: float
    switches: int

    @property
    def processor(self):
        return self.user + self.system


def ordinarily():
    """Gives the calling process the priority of any other: no real-time one, and no nicety if that can be had."""
    os.sched_setscheduler(0, os.SCHED_OTHER, os.sched_param(0))
    with contextlib.suppress(PermissionError):
        os.setpriority(os.PRIO_PROCESS, 0, 0)


def ran(words, given, taken, first=None):
    """Runs the words with standard input from a file (None: nothing) and standard output to one, and gives what it cost. The child
    calls `first` before all else."""
    with open(given or os.devnull, "rb") as source, open(taken, "wb") as sink:
        began = time.perf_counter()
        child = subprocess.Popen(words, stdin=source, stdout=sink, env={**os.environ, "LC_ALL": "C"}, preexec_fn=first)
        _, status, used = os.wait4(child.pid, 0)
        wall = time.perf_counter() - began
        child.returncode = os.waitstatus_to_exitcode(status)
    if child.returncode not in (0, 7):
        sys.exit(f"bench: {words} ended with {child.returncode}")
    return Cost(wall, used.ru_utime, used.ru_stime, used.ru_nvcsw)


def instructions(words, given, taken):
    """How many instructions the words take, with standard input from a file (None: nothing) and standard output to one."""
    with open(given or os.devnull, "rb") as source, open(taken, "wb") as sink:
        said = subprocess.run(["valgrind", "--tool=callgrind", "--callgrind-out-file=/dev/null", *words], stdin=source, stdout=sink,
                              stderr=subprocess.PIPE, text=True)
    found = re.search(r"Collected : (\d+)", said.stderr)
    if said.returncode not in (0, 7) or not found:
        sys.exit(f"bench: {words} under valgrind ended with {said.returncode}\n{said.stderr}")
    return int(found[1])


def median(costs, field="user"):
    return statistics.median(getattr(it, field) for it in costs)


# ---- the loads: each gives the lines of a script

def whole_lines(lines):
    """One session begins, writes one of 50 keys and commits, over and over."""
    turns = (lines - len(HEAD)) // 3
    return HEAD + [line for turn in range(turns)
                                for line in ("s0 begin a", f"s0 write k{turn % 50} v{turn}", "s0 commit a")]


def hot_key(lines):
    """One session begins, reads, writes, reads again and commits, all on one key."""
    turns = (lines - len(HEAD)) // 5
    return HEAD + [line for turn in range(turns)
                                for line in ("s0 begin a", "s0 read k0", f"s0 write k0 v{turn}", "s0 read k0", "s0 commit a")]


def single_steps(lines):
    """Each event of a begin, a fetch, a write and a commit by a line of its own."""
    turn = ("s0 ask-begin a", "a accept s0", "a decide s0", "a answer s0", "s0 fetch k1", "s0 write k1 v", "s0 ask-commit a",
            "a accept s0", "a decide s0", "a put s0", "a answer s0", "s0 step", "s0 step")
    return HEAD + [line for _ in range((lines - len(HEAD)) // len(turn)) for line in turn]


def at_random(lines, sessions=16, keys=50, seed=7):
    """Sixteen sessions and 50 keys, lines drawn at random."""
    draw = random.Random(seed)
    verbs = (lambda: "begin a", lambda: f"read k{draw.randrange(keys)}", lambda: f"write k{draw.randrange(keys)} v{draw.randrange(999)}",
             lambda: "commit a")
    return HEAD + [f"s{draw.randrange(sessions)} {draw.choice(verbs)()}" for _ in range(lines - len(HEAD))]


def at_random_by_master(lines, sessions=16, keys=50, nodes=3, takeovers=9, seed=7):
    """The same, but that begins and commits name the master, and that the nodes take over from each other."""
    script = [f"nodes {nodes}", *at_random(lines - 4 * takeovers - 1, sessions, keys, seed)]
    script = [line.replace("begin a", "begin master").replace("commit a", "commit master") for line in script]
    apart = len(script) // (takeovers + 1)
    for number in range(takeovers, 0, -1):
        before, after = "abcdefgh"[(number - 1) % nodes], "abcdefgh"[number % nodes]
        script[number * apart:number * apart] = [f"{before} crash", "clock tick 1000000", "clock tick 10", f"{after} take"]
    return script


def behind_the_take(script):
    """The script for threads, on which nothing but names has the sessions wait until the first node has its term."""
    begun = script.index("a take") + 1
    sessions = sorted({line.split()[0] for line in script if re.match(r"s\d+ ", line)})
    return [*script[:begun], "a post taken", *(f"{session} await taken" for session in sessions), *script[begun:]]


def transactions(lines, sessions, nodes=1, takeovers=0, by_master=False):
    """Sessions side by side, each over and over: begin, read, write of a key of its own, commit; with takeovers by clock. Begins and
    commits name their node, or the master."""
    script = [f"nodes {max(nodes, 1)}", *HEAD]
    homes = "abcdefgh"
    chunks = takeovers + 1
    # (beside the transactions stand the setup, three lines a session for its waits and posts, and eight for each takeover)
    each = (lines - 8 - (3 * sessions + 8) * chunks) // sessions // 4
    for chunk in range(chunks):
        node = homes[chunk % max(nodes, 1)]
        if chunk:
            script += [f"clock await d{chunk}-{session}" for session in range(sessions)]
            script += ["clock tick 1000000", "clock tick 10", f"clock post c{chunk}", f"{node} await c{chunk}", f"{node} take", f"{node} post t{chunk}"]
        asked = "master" if by_master else node
        if chunk and by_master:
            before = homes[(chunk - 1) % max(nodes, 1)]
            script += [f"{before} await c{chunk}", f"{before} crash"]
        for session in range(sessions):
            if chunk:
                script.append(f"s{session} await t{chunk}")
            for turn in range(each // chunks):
                script += [f"s{session} begin {asked}", f"s{session} read k{session}", f"s{session} write k{session} v{turn}",
                           f"s{session} commit {asked}"]
            if chunk + 1 < chunks:
                script.append(f"s{session} post d{chunk + 1}-{session}")
    return behind_the_take(script)


def going_on(lines, sessions, hot=False):
    """Sessions side by side, each over and over: begin, read, write, commit, of a key of its own, or all of one key. Behind its begin each waits
    for its neighbour's commit of the turn before, so that none runs ahead of one that others wait for, and a `collect` goes on with a begin that
    was told to wait: so none is left busy for the rest of its lines."""
    script = [*HEAD]
    alone = sessions == 1
    turns = (lines - 3) // sessions // (5 if alone else 7)
    for turn in range(turns):
        for session in range(sessions):
            key = 0 if hot else session
            script.append(f"s{session} begin a")
            if turn and not alone:
                script.append(f"s{session} await t{turn - 1}-{(session + 1) % sessions}")
            script += [f"s{session} collect", f"s{session} read k{key}", f"s{session} write k{key} v{turn}", f"s{session} commit a"]
            if not alone:
                script.append(f"s{session} post t{turn}-{session}")
    return behind_the_take(script)


def held_stages(lines, sessions=16, holds=32):
    """Transactions side by side, while the node holds one of its stages and frees it again, over and over: each time a reader that has
    its transaction reads eight keys meanwhile."""
    reader = f"s{sessions - 1}"
    script = [*HEAD, f"{reader} begin a", f"{reader} post begun", "a await begun"]
    each = (lines - 20 * holds - 2 * sessions) // (sessions - 1) // 4 // holds
    for hold in range(holds):
        stage = ("request", "persist", "reply")[hold % 3]
        for session in range(sessions - 1):
            for turn in range(each):
                script += [f"s{session} begin a", f"s{session} read k{session}", f"s{session} write k{session} v{turn}", f"s{session} commit a"]
            if session == 0:
                script += [f"s0 post done{hold}", f"a await done{hold}", f"a hold {stage}", f"a post held{hold}", f"{reader} await held{hold}"]
                script += [f"{reader} read k{turn}" for turn in range(8)]
                script += [f"{reader} post read{hold}", f"a await read{hold}", f"a free {stage}"]
    return behind_the_take([*script, f"{reader} commit a"])


def hot_reader(lines):
    """Fifteen sessions commit 64 keys each and vanish before they finish, and the last one reads all these keys over and over: none
    of the cells has its shadow."""
    script = list(HEAD)
    for session in range(15):
        script += [f"s{session} begin a", *(f"s{session} write k{64 * session + key} v" for key in range(64)),
                   f"s{session} submit a", f"a put s{session}", f"a answer s{session}", f"s{session} vanish"]
    script.append("s15 begin a")
    return script + [f"s15 read k{turn % 960}" for turn in range(lines - len(script) - 1)]


def posts(lines):
    """Every second line posts a name, every other awaits it."""
    return [line for number in range(lines // 2) for line in (f"a post p{number}", f"s0 await p{number}")]


def beside_sort(program, work, runs, loads):
    print(f"{'load':28} {'items':>9} {'replay':>8} {'of sort':>8} {'audit':>8} {'of sort':>8} {'json':>8} {'of text':>8} {'json audit':>10} {'of text':>8}")
    for name, script in loads:
        given, text, json, other = (os.path.join(work, it) for it in ("script", "text", "json", "other"))
        with open(given, "w") as it:
            it.write("\n".join(script) + "\n")
        took = {key: [] for key in ("replay", "sort", "audit", "json", "json audit")}
        for _ in range(runs):
            took["replay"].append(ran([program, "replay"], given, text))
            took["sort"].append(ran(["sort", "--parallel=1"], text, other))
            took["audit"].append(ran([program, "audit"], text, other))
            took["json"].append(ran([program, "replay", "json"], given, json))
            if os.path.getsize(json) <= READ_BACK:
                took["json audit"].append(ran([program, "audit"], json, other))
        with open(text, "rb") as it:
            items = sum(1 for _ in it)
        at = {key: median(costs) or 1e-6 for key, costs in took.items() if costs}
        back = f"{at['json audit']:10.3f} {at['json audit'] / at['audit']:8.2f}" if "json audit" in at else f"{'too long':>10}"
        print(f"{name:28} {items:9} {at['replay']:8.3f} {at['replay'] / at['sort']:8.2f} {at['audit']:8.3f} {at['audit'] / at['sort']:8.2f} "
              f"{at['json']:8.3f} {at['json'] / at['replay']:8.2f} {back}", flush=True)


def counted(program, work, loads):
    """Instructions an item: of replays, of audits of what they print, and of the same in JSON."""
    print(f"{'instructions an item':28} {'items':>9} {'replay':>8} {'summary':>8} {'json':>8} {'audit':>8} {'json audit':>10}")
    for name, script in loads:
        given, text, json, other = (os.path.join(work, it) for it in ("script", "text", "json", "other"))
        with open(given, "w") as it:
            it.write("\n".join(script) + "\n")
        took = [instructions([program, *words], source, taken)
                for words, source, taken in ((["replay"], given, text), (["replay", "summary"], given, other), (["replay", "json"], given, json),
                                             (["audit"], text, other), (["audit"], json, other))]
        with open(text, "rb") as it:
            items = sum(1 for _ in it)
        print(f"{name:28} {items:9} " + " ".join(f"{it / items:{wide}.0f}" for it, wide in zip(took, (8, 8, 8, 8, 10))), flush=True)


def built_plain(work, name):
    """A plain program of this folder, built."""
    made = os.path.join(work, name)
    subprocess.run(["rustc", "-O", os.path.join(ROOT, "bench", f"{name}.rs"), "-o", made], check=True)
    return made


def row_beside_plain(programs, work, runs, load, words, given, few, count):
    """One row: what the words cost the first program, and how often as much as the second, which has to print the same. Time is over one
    file, and instructions are over another, each of so many of its lines or items."""
    taken = [os.path.join(work, it) for it in ("taken", "taken by plain")]
    costs = [[], []]
    for _ in range(runs):
        for program, to, those in zip(programs, taken, costs):
            those.append(ran([program, *words], given, to))
    if not filecmp.cmp(*taken, shallow=False):
        sys.exit(f"bench: {programs[1]} prints something else than {programs[0]} at {words} of {load}")
    time, of = median(costs[0]), median(costs[1]) or 1e-6
    line = f"{load:28} {' '.join(words):>15} {time:8.3f} {time / of:8.2f}"
    if shutil.which("valgrind"):
        most, least = (instructions([program, *words], few, to) for program, to in zip(programs, taken))
        line += f" {most / count:8.0f} {most / least:8.2f}"
    print(line, flush=True)


def beside_plain(program, work, runs, loads):
    """What replays, audits and a storm cost, and how often as much as a plain program's that prints the same."""
    replays, audits = ((program, built_plain(work, name)) for name in ("plain_replay", "plain_audit"))
    print(f"{'beside a plain program':28} {'words':>15} {'time':>8} {'of plain':>8} {'one line':>8} {'of plain':>8}")
    for name, script in loads:
        given, few = os.path.join(work, "script"), os.path.join(work, "few")
        for file, lines in ((given, script), (few, script[:len(script) // 8])):
            with open(file, "w") as it:
                it.write("\n".join(lines) + "\n")
        for form in ([], ["summary"], ["json"]):
            row_beside_plain(replays, work, runs, name, ["replay", *form], given, few, len(script) // 8)
        for form, forms in ([], (["audit"], ["audit", "strict"])), (["json"], (["audit"],)):
            whole, eighth = (os.path.join(work, it) for it in ("history", "history of few"))
            for file, history in ((given, whole), (few, eighth)):
                ran([program, "replay", *form], file, history)
            with open(eighth, "rb") as it:
                items = sum(1 for _ in it)
            timed = whole if os.path.getsize(whole) <= READ_BACK else eighth
            for words in forms:
                row_beside_plain(audits, work, runs, f"{name}, {'json' if form else 'text'}", words, timed, eighth, items)
    other = os.path.join(work, "other")
    ran([program, "storm", str(STORM)], None, other)
    with open(other) as it:
        items = int(it.read().split("items=")[1])
    row_beside_plain(replays, work, runs, "a storm, its items", ["storm", str(STORM)], None, None, items)


def compactions(program, work, runs, loads):
    print(f"{'load of compact':28} {'water':>20} {'rows':>8} {'kept':>8} {'compact':>8} {'replay':>8} {'of replay':>9}")
    for name, script in loads:
        given, text, other = (os.path.join(work, it) for it in ("script", "text", "other"))
        with open(given, "w") as it:
            it.write("\n".join(script) + "\n")
        for water in (1, 1 << 62):
            compact, replay = [], []
            for _ in range(runs):
                compact.append(ran([program, "replay", "compact", str(water)], given, text))
                replay.append(ran([program, "replay"], given, other))
            with open(text) as it:
                _, before, after, _ = it.readlines()[-1].split()
            print(f"{name:28} {water:20} {before.split('=')[1]:>8} {after.split('=')[1]:>8} {median(compact):8.3f} {median(replay):8.3f} "
                  f"{median(compact) / (median(replay) or 1e-6):9.2f}", flush=True)


def strictly(program, work, runs, loads):
    """What it costs to keep read sets, and to judge whether a history is serial: each load with its reads strict and without."""
    print(f"{'load of strict reads':28} {'replay':>8} {'strict':>8} {'of plain':>8} {'audit':>8} {'strict':>8} {'of plain':>8}")
    for name, script in loads:
        plain, strict, text, other = (os.path.join(work, it) for it in ("script", "strict", "text", "other"))
        body = script[:LINES - 1]
        for file, lines in ((plain, body), (strict, ["reads strict", *body])):
            with open(file, "w") as it:
                it.write("\n".join(lines) + "\n")
        took = {key: [] for key in ("replay", "strict replay", "audit", "strict audit")}
        for _ in range(runs):
            took["replay"].append(ran([program, "replay"], plain, other))
            took["strict replay"].append(ran([program, "replay"], strict, text))
            took["audit"].append(ran([program, "audit"], text, other))
            took["strict audit"].append(ran([program, "audit", "strict"], text, other))
        at = {key: median(costs) or 1e-6 for key, costs in took.items()}
        print(f"{name:28} {at['replay']:8.3f} {at['strict replay']:8.3f} {at['strict replay'] / at['replay']:8.2f} "
              f"{at['audit']:8.3f} {at['strict audit']:8.3f} {at['strict audit'] / at['audit']:8.2f}", flush=True)


def remembering(program, work, runs, lines):
    """What a session saves that remembers what became of others' transactions: store calls, and time."""
    print(f"{'a hot reader':28} {'store calls':>12} {'replay':>8} {'of plain':>8}")
    files, costs, sizes = {}, {}, (0, 8, 64)
    text = os.path.join(work, "text")
    for size in sizes:
        files[size], costs[size] = os.path.join(work, f"cache{size}"), []
        with open(files[size], "w") as it:
            it.write("\n".join([f"cache {size}", *hot_reader(lines)]) + "\n")
    for _ in range(runs):
        for size in sizes:
            costs[size].append(ran([program, "replay"], files[size], text))
    plain = median(costs[0]) or 1e-6
    for size in sizes:
        ran([program, "replay"], files[size], text)
        with open(text) as it:
            calls = sum(line.startswith("step s15 ") for line in it)
        print(f"{f'cache {size}':28} {calls:12} {median(costs[size]):8.3f} {median(costs[size]) / plain:8.2f}", flush=True)


def waited_for(history):
    """Of a history: the commits that were answered, the calls on the commit table that their answers waited for, the begins that
    waited for a commit, and the commits that a reader's mark refused."""
    handed, commits, calls, begins, invalid = set(), 0, 0, 0, 0
    with open(history) as it:
        for line in it:
            words = line.split()
            if words[0] == "step" and words[2] == "handed":
                handed.add(words[3])
            elif words[0] == "placed":
                calls += words[1].split("=")[1] not in handed
            elif words[0] == "committed":
                commits += 1
            elif words[0] == "refused":
                begins += words[2] == "not-yet"
                invalid += words[2] == "invalid"
    return commits, calls, begins, invalid


def directly(program, work, runs, loads):
    """What it saves under `run` that sessions place their own commits: each load with the line and without."""
    print(f"{'load of direct commits':28} {'commits':>8} {'calls before':>12} {'begins late':>11} {'invalid':>8} {'wall':>7} {'of plain':>8} {'a line':>7}")
    for name, script in loads:
        forms = {"plain": script, "direct": ["commits direct", *script]}
        files = {form: os.path.join(work, form) for form in forms}
        texts = {form: os.path.join(work, form + ".history") for form in forms}
        for form, lines in forms.items():
            with open(files[form], "w") as it:
                it.write("\n".join(lines) + "\n")
        costs = {form: [] for form in forms}
        for _ in range(runs):
            for form in forms:
                costs[form].append(ran([program, "run"], files[form], texts[form]))
        plain = median(costs["plain"], "wall")
        for form in forms:
            commits, calls, begins, invalid = waited_for(texts[form])
            wall, switches = median(costs[form], "wall"), median(costs[form], "switches")
            print(f"{f'{name}, {form}':28} {commits:8} {calls:12} {begins:11} {invalid:8} {wall:7.3f} {wall / plain:8.2f} "
                  f"{switches / len(script):7.2f}", flush=True)


def storms(program, work, runs):
    for count in (STORM // 2, STORM):
        costs = [ran([program, "storm", str(count)], None, os.path.join(work, "other")) for _ in range(runs)]
        print(f"storm {count}: {median(costs):.3f} s of user time", flush=True)


def place_in_file(program, function):
    """Where the code of a function lies in the program's file, or None where no symbol begins so or the tools are not there."""
    try:
        symbols = subprocess.check_output(["nm", program], text=True)
        segments = subprocess.check_output(["readelf", "-lW", program], text=True)
    except (OSError, subprocess.CalledProcessError):
        return None
    found = re.search(rf"^([0-9a-f]+) t {re.escape(function)}", symbols, re.M)
    for offset, start, size in re.findall(r"LOAD +0x(\w+) 0x(\w+) 0x\w+ 0x(\w+)", segments):
        inside = int(found[1], 16) - int(start, 16) if found else -1
        if 0 <= inside < int(size, 16):
            return int(offset, 16) + inside
    return None


def calls_of(place, words, given, taken):
    """Runs the words with a probe of the kernel at this place in the program's file, and gives how often it was reached, or None
    where the kernel takes no probe from us."""
    def tell(file, text):
        # (Python's own appending seeks, which these files refuse)
        file = os.open(os.path.join(TRACING, file), os.O_WRONLY | os.O_APPEND)
        try:
            os.write(file, text.encode())
        finally:
            os.close(file)

    probe = f"omid_bench/p{os.getpid()}"
    try:
        tell("uprobe_events", f"p:{probe} {os.path.realpath(words[0])}:{place:#x}\n")
    except OSError:
        return None
    try:
        tell(f"events/{probe}/enable", "1")
        ran(words, given, taken)
        with open(os.path.join(TRACING, "uprobe_profile")) as it:
            return int(re.search(rf" {os.path.basename(probe)} +(\d+)", it.read())[1])
    finally:
        tell(f"events/{probe}/enable", "0")
        tell("uprobe_events", f"-:{probe}\n")


def entries_a_batch(program, given, history):
    """How many requests a batch of the stages had in one run of the script: what was drawn, by the history, over how many batches came
    back to their pools. No item tells of a batch, so the kernel counts the calls; `-` where it does not."""
    place = place_in_file(program, GIVE_BACK)
    batches = place and calls_of(place, [program, "run"], given, history)
    if not batches:
        return "-"
    with open(history) as it:
        return f"{sum(line.startswith('draw ') for line in it) / batches:.2f}"


def threads(program, work, runs, loads):
    print(f"{'load of run':28} {'lines':>7} {'wall':>7} {'user':>7} {'system':>7} {'switches':>9} {'a line':>7} {'lines/s':>9} {'of replay':>9} "
          f"{'entries a batch':>15}")
    for name, script in loads:
        given, other = os.path.join(work, "script"), os.path.join(work, "other")
        with open(given, "w") as it:
            it.write("\n".join(script) + "\n")
        run, replay = [], []
        for _ in range(runs):
            run.append(ran([program, "run"], given, other))
            replay.append(ran([program, "replay"], given, other))
        wall, switches = median(run, "wall"), median(run, "switches")
        print(f"{name:28} {len(script):7} {wall:7.3f} {median(run):7.3f} {median(run, 'system'):7.3f} {switches:9.0f} {switches / len(script):7.2f} "
              f"{len(script) / wall:9.0f} {wall / median(replay, 'wall'):9.1f} {entries_a_batch(program, given, other):>15}", flush=True)


def locked_together(history):
    """Of a history's events, the share of those that lock two parts or more: all but ticks, notes, aborts, vanishes, and what is refused to a
    session or the janitor by its own part. An event is seen by its first item, and so not where it appended none; a read, and what a
    session is told by its own step, are items of the event before. It is of histories without crashes, faults and sweeps. With it, how many
    events were refused as busy."""
    events, together, busy, before = 0, 0, 0, ["", ""]
    with open(history) as it:
        for line in it:
            words = line.split()
            told = words[0] == "read" or words[0] in ("committed", "end") and before[:2] == ["step", words[1]]
            alone = words[0] in ("tick", "note", "vanish") or words[-1] == "aborted" or words[0] == "refused" and words[2] in OF_ONE_PART
            events += not told
            together += not told and not alone
            busy += words[0] == "refused" and words[2] == "busy"
            before = words
    return together / events, busy


def over_split_stores(program, work, runs, loads):
    print(f"{'load of run split':28} {'lines':>7} {'wall':>7} {'user':>7} {'system':>7} {'switches':>9} {'a line':>7} {'lines/s':>9} {'of run':>9} "
          f"{'of replay':>9} {'two parts':>9} {'busy':>6}")
    for name, script in loads:
        given, history, other = (os.path.join(work, it) for it in ("script", "history", "other"))
        with open(given, "w") as it:
            it.write("\n".join(script) + "\n")
        costs = {words: [] for words in ("run split", "run", "replay")}
        for _ in range(runs):
            for words, those in costs.items():
                those.append(ran([program, *words.split()], given, history if words == "run split" else other))
        split = costs["run split"]
        wall, switches = median(split, "wall"), median(split, "switches")
        together, busy = locked_together(history)
        print(f"{name:28} {len(script):7} {wall:7.3f} {median(split):7.3f} {median(split, 'system'):7.3f} {switches:9.0f} {switches / len(script):7.2f} "
              f"{len(script) / wall:9.0f} {wall / median(costs['run'], 'wall'):9.2f} {wall / median(costs['replay'], 'wall'):9.1f} "
              f"{together:9.1%} {busy / len(script):6.1%}", flush=True)


def on_processors(count):
    """Has the calling process run on so many of its processors alone."""
    os.sched_setaffinity(0, sorted(os.sched_getaffinity(0))[:count])


def committed_in(history):
    """How many of a history's transactions are committed: their records were placed."""
    with open(history) as it:
        return sum(line.startswith("placed ") for line in it)


def a_transaction(program, work, runs, loads):
    """What a committed transaction costs over split stores, on one processor and on more, beside run and replay."""
    print(f"{'load that goes on':28} {'lines':>7} {'on':>4} {'wall':>7} {'processor':>9} {'committed':>9} {'a commit, us':>12} {'of run':>9} {'of replay':>9} "
          f"{'commits/s':>9} {'of 1':>6}", flush=True)
    for name, script in loads:
        given, history = os.path.join(work, "script"), os.path.join(work, "history")
        with open(given, "w") as it:
            it.write("\n".join(script) + "\n")
        alone = None
        for count in (1, 2, 4):
            if count > len(os.sched_getaffinity(0)):
                break
            costs, each = {words: [] for words in ("run split", "run", "replay")}, {words: [] for words in ("run split", "run", "replay")}
            placed = []
            for _ in range(runs):
                for words, those in costs.items():
                    those.append(ran([program, *words.split()], given, history, lambda: on_processors(count)))
                    made = committed_in(history)
                    each[words].append(those[-1].wall / max(made, 1))
                    if words == "run split":
                        placed.append(made)
            split, one = costs["run split"], {words: statistics.median(those) for words, those in each.items()}
            alone = alone or one["run split"]
            print(f"{name:28} {len(script):7} {count:4} {median(split, 'wall'):7.3f} {median(split, 'processor'):9.3f} {statistics.median(placed):9.0f} "
                  f"{one['run split'] * 1e6:12.1f} {one['run split'] / one['run']:9.2f} {one['run split'] / one['replay']:9.2f} {1 / one['run split']:9.0f} "
                  f"{alone / one['run split']:6.2f}", flush=True)


@contextlib.contextmanager
def beside(count):
    """So many processes are busy meanwhile, at ordinary priority."""
    spinning = []
    try:
        for _ in range(count):
            spinning.append(subprocess.Popen([sys.executable, "-c", SPINS, str(os.getpid())], stdout=subprocess.PIPE, preexec_fn=ordinarily))
        for it in spinning:
            it.stdout.readline()
        yield
    finally:
        for it in spinning:
            it.kill()
        for it in spinning:
            it.wait()
            it.stdout.close()


def ordinary(program, work, runs, loads):
    """What a replay and a run cost at ordinary priority, at rest and where others want the processors too."""
    print(f"{'load, at ordinary priority':28} {'lines':>7} {'beside':>8} {'replay wall':>11} {'processor':>9} {'run wall':>8} {'processor':>9} "
          f"{'of replay':>9} {'processor':>9} {'of rest':>8}", flush=True)
    for name, script in loads:
        given, other = os.path.join(work, "script"), os.path.join(work, "other")
        with open(given, "w") as it:
            it.write("\n".join(script) + "\n")
        costs = {(busy, words): [] for busy in (0, BUSY) for words in ("replay", "run")}
        for _ in range(runs):
            for busy in (0, BUSY):
                with beside(busy):
                    for words in ("replay", "run"):
                        costs[busy, words].append(ran([program, words], given, other, ordinarily))
        at_rest = median(costs[0, "run"], "wall")
        for busy in (0, BUSY):
            replay, run = costs[busy, "replay"], costs[busy, "run"]
            wall = median(run, "wall")
            print(f"{name:28} {len(script):7} {f'{busy} busy' if busy else 'nobody':>8} {median(replay, 'wall'):11.3f} {median(replay, 'processor'):9.3f} "
                  f"{wall:8.3f} {median(run, 'processor'):9.3f} {wall / median(replay, 'wall'):9.1f} "
                  f"{median(run, 'processor') / (median(replay, 'processor') or 1e-6):9.1f} {wall / at_rest:8.2f}", flush=True)


def on_threads(lines):
    """The loads of the tables on threads."""
    return [("1 session", transactions(lines, 1)), ("4 sessions", transactions(lines, 4)), ("16 sessions", transactions(lines, 16)),
            ("16 sessions, workers 4", ["workers 4", "batch 16"] + transactions(lines, 16)),
            ("16 sessions, direct", ["commits direct"] + transactions(lines, 16)),
            ("16 sessions, held stages", held_stages(lines)),
            ("3 nodes, 9 takeovers", transactions(lines, 16, 3, 9)),
            ("9 takeovers, by master", transactions(lines, 16, 3, 9, True)), ("posts and awaits", posts(lines))]


def goes_on(lines):
    """The loads that are counted by their committed transactions."""
    return [("1 session that goes on", going_on(lines, 1)), ("4 sessions that go on", going_on(lines, 4)), ("16 sessions that go on", going_on(lines, 16)),
            ("4 of one hot key go on", going_on(lines, 4, hot=True)), ("16 of one hot key go on", going_on(lines, 16, hot=True))]


def main():
    words = argparse.ArgumentParser(description=__doc__, formatter_class=argparse.RawDescriptionHelpFormatter)
    words.add_argument("--program", default=os.path.join(ROOT, "crates/omid/out/omid"))
    words.add_argument("--runs", type=int, default=9)
    words.add_argument("--only", default="", help="loads whose name has this word")
    words.add_argument("--quick", action="store_true", help="an eighth of the lines, for a look")
    words.add_argument("--ordinary", action="store_true", help="replays and runs at ordinary priority alone, at rest and beside busy processes")
    words.add_argument("--instructions", action="store_true", help="instructions an item alone, counted by callgrind")
    words.add_argument("--plain", action="store_true", help="replays, audits and a storm beside plain programs alone")
    said = words.parse_args()
    if not os.access(said.program, os.X_OK):
        sys.exit(f"bench: {said.program} is not there: run `rt ci` first, or name one by --program")
    if said.instructions and not shutil.which("valgrind"):
        sys.exit("bench: valgrind is not installed here, and counts the instructions")
    lines = LINES // 8 if said.quick or said.instructions else LINES
    files = [("whole lines", whole_lines(lines)), ("hot key", hot_key(lines)), ("single steps", single_steps(lines)),
             ("16 sessions at random", at_random(lines)), ("at random, by master", at_random_by_master(lines))]
    runs = on_threads(lines)
    picked = [[load for load in loads if said.only in load[0]] for loads in (files, runs)]
    with tempfile.TemporaryDirectory(prefix="omid-bench-") as work:
        if said.ordinary:
            ordinary(said.program, work, max(3, said.runs // 3), [load for load in on_threads(lines // 8) if said.only in load[0]])
            return
        if said.plain:
            beside_plain(said.program, work, said.runs, [load for load in files[:3] if said.only in load[0]])
            return
        if said.instructions:
            counted(said.program, work, picked[0])
            return
        if picked[0]:
            beside_sort(said.program, work, said.runs, picked[0])
            compactions(said.program, work, said.runs, picked[0][:2])
            strictly(said.program, work, said.runs, picked[0])
        if said.only in "hot reader":
            remembering(said.program, work, said.runs, lines)
        if said.only in "direct commits":
            directly(said.program, work, max(3, said.runs // 3),
                     [("4 sessions", transactions(lines, 4)), ("16 sessions", transactions(lines, 16)),
                      ("16 at random", behind_the_take(at_random(lines - 18)))])
        if not said.only:
            storms(said.program, work, said.runs)
        if picked[1]:
            threads(said.program, work, max(3, said.runs // 3), picked[1])
            over_split_stores(said.program, work, max(3, said.runs // 3), picked[1][:3])
        going = [load for load in goes_on(lines) if said.only in load[0]]
        if going:
            a_transaction(said.program, work, max(3, said.runs // 3), going)


if __name__ == "__main__":
    main()
