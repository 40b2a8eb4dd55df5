"""What bench/failover.sh runs: PROGRAM NODES ROUNDS [FOLDER]."""
import os
import re
import shutil
import signal
import statistics
import subprocess
import sys
import tempfile
import time

sys.dont_write_bytecode = True
from cluster import put, until_all_are_members
from peers import running

# How long each wait may take, in seconds: for the first put, for a put after the end of a leader, and until the dead are no members.
FIRST_SECONDS, GAP_SECONDS, GONE_SECONDS = 120, 120, 120
# For how long puts go on before an end and after it, and the rest between two requests.
STEADY_SECONDS, REST = 0.7, 0.01
# For how long connections are cut, and the rest between two cuts.
CUTS_SECONDS, CUTS_REST = 8, 0.5
# How long a reply may take.
REPLY_SECONDS = 5


class Writer:
    """A client that has settings put, one at a time, by whoever leads."""

    def __init__(self, nodes):
        self.nodes, self.target, self.client, self.count = nodes, None, None, 0
        # When the last put was acknowledged, the term of its state, and the longest time between two that were.
        self.last, self.term, self.gap = None, 0, 0

    def close(self):
        if self.client is not None:
            self.client.socket.close()
        self.client = None

    def go_to(self, name):
        self.close()
        self.target = name

    def ask(self, request):
        """The reply of the node that is asked now. Nothing is in it where there is none."""
        try:
            if self.client is None:
                self.client = running.Client(self.nodes[self.target].port, REPLY_SECONDS)
            return self.client.ask(request) or {}
        except OSError:
            return {}

    def move_on(self, leader):
        """Asks the leader that was named from now on, where it is up, else the node after the one that was asked."""
        names = sorted(name for name in self.nodes if self.nodes[name].is_up())
        after = [name for name in names if name > self.target] + names
        self.go_to(leader if leader in names and leader != self.target else after[0])

    def is_put(self):
        """Asks once for a put. Gives whether it is acknowledged; where it is not, another node is asked next."""
        self.count += 1
        reply = self.ask({'id': self.count, 'put': {'key': 'k', 'value': str(self.count)}})
        if 'acked' not in reply:
            self.move_on(reply.get('not_master'))
            return False
        self.term = reply['acked']['term']
        return True

    def put(self):
        """Puts a setting, however often that is tried."""
        end = time.monotonic() + GAP_SECONDS
        while not self.is_put():
            if time.monotonic() > end:
                raise running.Broken('no put is acknowledged in %d seconds' % GAP_SECONDS)
            time.sleep(REST)
        now = time.monotonic()
        if self.last is not None:
            self.gap = max(self.gap, now - self.last)
        self.last = now

    def put_for(self, seconds):
        end = time.monotonic() + seconds
        while time.monotonic() < end:
            self.put()
            time.sleep(REST)

    def put_until_gone(self, dead):
        """Puts settings until none of these is a member."""
        end = time.monotonic() + GONE_SECONDS
        while time.monotonic() < end:
            self.put()
            state = self.ask({'id': 0, 'state': {}}).get('state')
            if state and not set(dead) & set(state['value']['members']):
                return
            time.sleep(REST)
        raise running.Broken('%s are members still' % ','.join(dead))


def others(names, leader):
    return [name for name in names if name != leader]


def kinds(names):
    """What is ended at once, so that a quorum stays: its words, and a function from the leader to the names."""
    rows = [('the leader', lambda leader: [leader])]
    for count in (1, 4):
        if 2 * (1 + count) < len(names):
            rows.append(('the leader and the %d least others' % count, lambda leader, count=count: [leader] + others(names, leader)[:count]))
    return rows + [('a follower', lambda leader: others(names, leader)[-1:])]


def end_some(nodes, names, writer, choose):
    """Ends some nodes under puts, and starts them again. Gives the gap, and after how long they were no members."""
    leader = until_all_are_members(nodes, names)
    writer.go_to(leader)
    writer.put_for(STEADY_SECONDS)
    dead, writer.gap = choose(leader), 0
    start = time.monotonic()
    for name in dead:
        nodes[name].process.send_signal(signal.SIGKILL)
    for name in dead:
        nodes[name].kill()
    writer.put_until_gone(dead)
    gone = time.monotonic() - start
    writer.put_for(STEADY_SECONDS)
    writer.close()
    for name in dead:
        nodes[name].start_again()
    return writer.gap, gone


def can_cut():
    """Whether there is an `ss` that may end connections."""
    return shutil.which('ss') is not None and os.geteuid() == 0


def connections(nodes, name):
    """The connections between a node and others: the two addresses of each, and the other."""
    names = {node.process.pid: node.name for node in nodes.values() if node.is_up()}
    owners = {}
    for line in subprocess.run(['ss', '-tnpH', 'state', 'established'], capture_output=True, text=True, check=True).stdout.splitlines():
        here, there = line.split()[2:4]
        process = re.search(r'pid=(\d+)', line)
        owners[here, there] = names.get(int(process[1])) if process else None
    return [(here, there, owners.get((there, here))) for (here, there), owner in owners.items() if owner == name and owners.get((there, here))]


def cut(nodes, leader, choose):
    """Ends connections of the leader, at both ends."""
    pairs = ['( src %s and dst %s )' % (here, there) for here, there, other in connections(nodes, leader) if choose(leader, other)]
    if pairs:
        subprocess.run(['ss', '-K', '-t', ' or '.join(pairs)], stdout=subprocess.DEVNULL, check=True)


def cut_again_and_again(nodes, names, writer, choose):
    """Cuts connections of whoever leads under puts. Gives the longest gap, how many terms went by, and after how long all were members behind that."""
    writer.go_to(until_all_are_members(nodes, names))
    writer.put_for(STEADY_SECONDS)
    writer.gap, term, end = 0, writer.term, time.monotonic() + CUTS_SECONDS
    while time.monotonic() < end:
        cut(nodes, writer.target, choose)
        writer.put_for(CUTS_REST)
    start = time.monotonic()
    until_all_are_members(nodes, names)
    members = time.monotonic() - start
    writer.put()
    return writer.gap, writer.term - term, members


def cuts(nodes, names, writer):
    """What came of each kind of cuts: its words, and what was measured."""
    if not can_cut():
        return []
    one = lambda leader, other: other == others(names, leader)[-1]
    return [(words, cut_again_and_again(nodes, names, writer, choose)) for words, choose in (
        ('between the leader and one follower', one), ('all of the leader', lambda leader, other: True))]


def measure(program, names, rounds, top):
    """What came of each kind of ends, its words and its rounds, and of each kind of cuts."""
    nodes = running.started(program, names, top)
    writer = Writer(nodes)
    try:
        put(nodes, names, 'first', FIRST_SECONDS)
        ends = [(words, [end_some(nodes, names, writer, choose) for _ in range(rounds)]) for words, choose in kinds(names)]
        return ends, cuts(nodes, names, writer)
    finally:
        writer.close()
        running.end(nodes)


def report(names, rounds, ends, cuts_made):
    print('| %d nodes, %d of each | no put acknowledged, s: median | worst | the dead no members, s: median | worst |' % (len(names), rounds))
    print('|---|--:|--:|--:|--:|')
    for words, figures in ends:
        gaps, gone = zip(*figures)
        print('| SIGKILL of %s | %.2f | %.2f | %.2f | %.2f |' % (words, statistics.median(gaps), max(gaps), statistics.median(gone), max(gone)))
    if not cuts_made:
        return
    print('\n| connections cut every %.1f s for %d s | no put acknowledged, s: worst | terms | all members again, s |' % (CUTS_REST, CUTS_SECONDS))
    print('|---|--:|--:|--:|')
    for words, figures in cuts_made:
        print('| %s | %.2f | %d | %.2f |' % (words, *figures))


def give_up(number, _):
    """Ends the script by way of its `finally`s, so that no node is left."""
    raise running.Broken('it was ended')


def main(words):
    if not os.path.isfile(words[0]):
        sys.exit('bench/failover: no program %s' % words[0])
    for number in (signal.SIGTERM, signal.SIGHUP):
        signal.signal(number, give_up)
    names = ['n%02d' % (number + 1) for number in range(int(words[1]))]
    top = tempfile.mkdtemp(dir=words[3] if len(words) > 3 else None)
    try:
        report(names, int(words[2]), *measure(os.path.abspath(words[0]), names, int(words[2]), top))
        return 0
    except (running.Broken, OSError) as fault:
        print('bench/failover: FAILED: %s' % fault)
        return 1
    finally:
        shutil.rmtree(top, ignore_errors=True)


if __name__ == '__main__':
    sys.exit(main(sys.argv[1:]))
