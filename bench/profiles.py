"""What bench/profiles.sh runs: PROGRAM STARTS [FOLDER]."""
import json
import os
import shutil
import statistics
import sys
import tempfile
import time

sys.dont_write_bytecode = True
from peers import running

PROFILES = ['1', '2']
# How many nodes, and how long each piece of bytes is held, in seconds.
STARTS_OF = [(count, delay) for count in (3, 5) for delay in (0.001, 0.005, 0.02, 0.04)]
# How long after the first put voters are looked at, for how long a node is down, and how long what may take longest is waited for, in seconds.
REST, DOWN_SECONDS, LONGEST = 12, 3, 120
# So often a node comes back, and so often a leader is cut off.
COMINGS, CUTS = 5, 3


def runs_of(nodes):
    """What each run of each node has written by now."""
    return [node.read(run) for node in nodes.values() for run in range(len(node.outputs))]


def voters_of(nodes):
    """How many voters each committed state has, in the order of versions."""
    lines = [line for written in runs_of(nodes) for line in written.split(b'\n')[:-1] if line.startswith(b'committed ')]
    states = {state['version']: len(state['config']) for state in (json.loads(line.partition(b' ')[2]) for line in lines)}
    return [states[version] for version in sorted(states)]


def put(nodes, value):
    """Has a setting put, by whoever leads. Gives the node that took it."""
    end = time.monotonic() + LONGEST
    while time.monotonic() < end:
        for node in nodes.values():
            try:
                reply = node.ask({'id': 0, 'put': {'key': 'k', 'value': value}}, 5) if node.is_up() else None
            except OSError:
                continue
            if reply and 'acked' in reply:
                return node.name
        time.sleep(0.01)
    raise running.Broken('no put is acknowledged')


class Started:
    """New nodes by a profile, over lines, with an empty folder."""

    def __init__(self, program, top, count, delay, profile):
        self.folder, self.begun = tempfile.mkdtemp(dir=top), time.monotonic()
        self.nodes, self.lines = running.started_over_lines(program, list('abcde'[:count]), self.folder, delay, ['--profile', profile])

    def __enter__(self):
        return self

    def __exit__(self, *_):
        running.end(self.nodes)
        for line in self.lines.values():
            line.close()
        shutil.rmtree(self.folder)


def start_of(*words):
    """What comes of a start: the seconds to the first put, the voters in the end and at the fewest, and the elections that were won."""
    with Started(*words) as it:
        put(it.nodes, 'first')
        seconds = time.monotonic() - it.begun
        time.sleep(REST)
        put(it.nodes, 'last')
        voters = voters_of(it.nodes)
        return seconds, voters[-1], min(voters), sum(written.count(b'\nwon ') for written in runs_of(it.nodes))


def comes_back(program, top, profile):
    """After how many seconds a follower that was down during a put has what was put."""
    with Started(program, top, 3, 0.001, profile) as it:
        put(it.nodes, 'first')
        time.sleep(REST)
        leader = put(it.nodes, 'second')
        gone = next(node for node in it.nodes.values() if node.name != leader)
        gone.kill()
        put(it.nodes, 'while-it-is-down')
        time.sleep(DOWN_SECONDS)
        begun = time.monotonic()
        gone.start_again()
        while b'while-it-is-down' not in gone.read(1) and time.monotonic() - begun < LONGEST:
            time.sleep(0.005)
        return time.monotonic() - begun


def leads_on(program, top, profile):
    """For how many seconds a leader of three leads whose lines to and from the others are stalled."""
    with Started(program, top, 3, 0.001, profile) as it:
        put(it.nodes, 'first')
        time.sleep(3)
        leader = put(it.nodes, 'second')
        for ends, line in it.lines.items():
            if leader in ends:
                line.stall()
        begun, mark = time.monotonic(), b'mode %s candidate' % leader.encode()
        before = it.nodes[leader].read(0).count(mark)
        while time.monotonic() - begun < LONGEST and it.nodes[leader].read(0).count(mark) == before:
            time.sleep(0.1)
        return time.monotonic() - begun


def report_starts(program, top, starts):
    print('| %d starts: nodes, ms between two | profile | fewer voters in the end | at any moment | elections won | s to the first put: median | worst |' % starts)
    print('|---|--:|--:|--:|--:|--:|--:|')
    for count, delay in STARTS_OF:
        for profile in PROFILES:
            seconds, last, fewest, won = zip(*(start_of(program, top, count, delay, profile) for _ in range(starts)))
            print('| %d, %g | %s | %d | %d | %d | %.2f | %.2f |' % (
                count, delay * 1000, profile, sum(voters < count for voters in last), sum(voters < count for voters in fewest), sum(won),
                statistics.median(seconds), max(seconds)), flush=True)


def report_spans(program, top):
    print('\n| s, median and worst | profile 1 | profile 2 |\n|---|--:|--:|')
    for what, measured, times in (('until a follower that was down has what was put meanwhile', comes_back, COMINGS), ('for which a leader whose lines are stalled leads on', leads_on, CUTS)):
        spans = [[measured(program, top, profile) for _ in range(times)] for profile in PROFILES]
        print('| %s | %s |' % (what, ' | '.join('%.2f, %.2f' % (statistics.median(of), max(of)) for of in spans)), flush=True)


def main(words):
    program, starts = words[0], int(words[1])
    top = tempfile.mkdtemp(dir=words[2] if len(words) > 2 else None)
    try:
        report_starts(program, top, starts)
        report_spans(program, top)
    except running.Broken as fault:
        sys.exit('bench/profiles: %s' % fault)
    finally:
        shutil.rmtree(top)


if __name__ == '__main__':
    main(sys.argv[1:])
