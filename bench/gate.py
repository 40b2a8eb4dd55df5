"""bench/gate.sh's work: runs `rt ci` and adds up what its checks take of the processors, by crate and by kind.

Each check is a process of its own, whose words name the crate and the kind. Its seconds are read from /proc four times a second until it ends, so up to a
quarter of a second of each is not seen; the sum at the foot is what the system counted for the whole run, and what no row has stands in a row of its own.

Seconds of two machines, or of one at two times, don't compare by themselves. So a yardstick is laid beside them: what a fixed loop takes, again and again
while the checks run, and how much of the processors' time the host of a virtual machine kept for others.
"""
import collections
import os
import subprocess
import sys
import threading
import time

TICKS = os.sysconf("SC_CLK_TCK")
PAUSE = 0.25
LOOKS_BETWEEN_LOOPS = 40
LOOP = 500_000
KINDS = ("proof", "tests", "seed", "edits", "sound")


def words_of(process):
    """Returns the words that a process was started with, or none where it has ended."""
    try:
        with open(f"/proc/{process}/cmdline", "rb") as it:
            return it.read().decode(errors="replace").split("\0")
    except OSError:
        return []


def seconds_of(process):
    """Returns the processor seconds of a process, and when it was started."""
    try:
        with open(f"/proc/{process}/stat", "rb") as it:
            fields = it.read().rpartition(b")")[2].split()
    except OSError:
        return None
    return sum(int(it) for it in fields[11:13]) / TICKS, fields[19]


def below(root):
    """Returns the processes that descend from this one, each after its parent, with their parents."""
    parents = {}
    for name in os.listdir("/proc"):
        if name.isdigit():
            try:
                with open(f"/proc/{name}/stat", "rb") as it:
                    parents[int(name)] = int(it.read().rpartition(b")")[2].split()[1])
            except OSError:
                pass
    found = {root: None}
    while True:
        more = {it: parent for it, parent in parents.items() if parent in found and it not in found}
        if not more:
            return found
        found.update(more)


class Check:
    """A check, or a process that does part of its work: its words, crate, kind and seconds."""

    def __init__(self, words, kind, is_part):
        self.words, self.kind, self.is_part = words, kind, is_part
        self.crate = words[words.index("--crate-name") + 1]
        self.seconds = 0.0


class Seen:
    """What was seen of each check."""

    def __init__(self):
        self.checks = {}
        self.latest = {}
        self.seeds = set()

    def kind_of(self, words):
        """Returns the kind of a check by its words: each edit is checked over a copy of what one check, the seed, has proved, which is looked at once more at the end."""
        if "--test" in words:
            return "tests"
        if words[1] == "build" or "--empty-contracts" in words:
            return "proof"
        kept = words[words.index("--incremental") + 1] if "--incremental" in words else ""
        if os.path.basename(kept) != "seed":
            return "edits"
        if kept in self.seeds:
            return "sound"
        self.seeds.add(kept)
        return "seed"

    def added(self, words, parent):
        """Returns the check of a new process. A check that has more than one processor shares its work among processes with its own words."""
        above = self.latest.get(parent)
        if above and above.words == words:
            return Check(words, above.kind, True)
        return Check(words, self.kind_of(words), False)

    def look(self, root):
        for process, parent in below(root).items():
            taken = seconds_of(process)
            if taken is None:
                continue
            key = process, taken[1]
            if key not in self.checks:
                words = words_of(process)
                if not words or os.path.basename(words[0]) != "rattle" or "--crate-name" not in words:
                    continue
                self.checks[key] = self.latest[process] = self.added(words, parent)
            self.checks[key].seconds = taken[0]

    def table(self):
        """Returns the seconds by crate and kind, and how many edits each crate has."""
        seconds, edits = collections.defaultdict(collections.Counter), collections.Counter()
        for check in self.checks.values():
            seconds[check.crate][check.kind] += check.seconds
            edits[check.crate] += check.kind == "edits" and not check.is_part
        return seconds, edits


def stolen_and_all():
    """Returns the processors' time that the host kept so far, and all of it, in ticks."""
    with open("/proc/stat", encoding="utf-8") as it:
        ticks = [int(word) for word in it.readline().split()[1:9]]
    return ticks[7], sum(ticks)


class Yardstick:
    """What a fixed loop takes of a processor while the checks run, and what the host keeps."""

    def __init__(self):
        self.loops = []
        self.began = stolen_and_all()

    def lay(self):
        began = time.thread_time()
        sum(number * number for number in range(LOOP))
        self.loops.append(time.thread_time() - began)

    def told(self):
        stolen, all_ticks = (now - then for now, then in zip(stolen_and_all(), self.began))
        mean, least = sum(self.loops) / len(self.loops), min(self.loops)
        return f"yardstick: {mean * 1000:.0f} ms in the mean, {least * 1000:.0f} at the least; the host kept {stolen / max(all_ticks, 1):.0%} of the processors"


def run(top, words):
    seen, done, yardstick = Seen(), threading.Event(), Yardstick()
    yardstick.lay()
    began = time.time()
    child = subprocess.Popen(["rt", "ci", *words], cwd=top)

    def watch():
        looks = 0
        while not done.wait(PAUSE):
            seen.look(child.pid)
            looks += 1
            if looks % LOOKS_BETWEEN_LOOPS == 0:
                yardstick.lay()

    watcher = threading.Thread(target=watch)
    watcher.start()
    _, status, usage = os.wait4(child.pid, 0)
    done.set()
    watcher.join()
    report(seen, usage.ru_utime + usage.ru_stime, time.time() - began)
    print(yardstick.told())
    return os.waitstatus_to_exitcode(status)


def report(seen, total, elapsed):
    seconds, edits = seen.table()
    sums = collections.Counter()
    print(f"\n| crate | {' | '.join(KINDS)} | how many edits | sum | share |")
    print("|---|" + "--:|" * (len(KINDS) + 3))
    for crate, by in sorted(seconds.items(), key=lambda it: -sum(it[1].values())):
        own = sum(by.values())
        sums.update(by)
        print(f"| {crate} | {' | '.join(f'{by[kind]:.0f}' for kind in KINDS)} | {edits[crate]} | {own:.0f} | {own / total:.1%} |")
    rest = total - sum(sums.values())
    print(f"| all else: programs, tests that run, linking, what was not seen | {' | ' * len(KINDS)} | {rest:.0f} | {rest / total:.1%} |")
    print(f"| **sum** | {' | '.join(f'{sums[kind]:.0f}' for kind in KINDS)} | {sum(edits.values())} | {total:.0f} | |")
    print(f"\n{total:.0f} processor seconds in {elapsed:.0f} seconds of the clock, on {len(os.sched_getaffinity(0))} processors")


sys.exit(run(sys.argv[1], sys.argv[2:]))
