"""What bench/cluster.sh runs: PROGRAM NODES [FOLDER]."""
import os
import random
import shutil
import signal
import sys
import tempfile
import time

sys.dont_write_bytecode = True
from peers import memory, running

# How long each wait may take, in seconds: for the first put, for all nodes as members, and for a put after the leader's end; and all of it.
FIRST_SECONDS, MEMBERS_SECONDS, GAP_SECONDS, ALL_SECONDS = 60, 60, 120, 300
# How long a reply may take, and the rest before the next question.
REPLY_SECONDS, REST = 5, 0.1
# A node that had to wait for a processor for a greater share of the time is late for that.
WAIT = 0.1


class Busy(Exception):
    """Something did not come in time, and the machine may be why."""


def answered(nodes, names, request, member, end):
    """Asks whoever of these leads until the reply has this member. Gives the leader, and what the member says."""
    target, asked, without = names[0], 0, 0
    while time.monotonic() < end:
        try:
            reply = nodes[target].ask(request, REPLY_SECONDS) or {}
        except OSError:
            reply = {}
        if member in reply:
            return target, reply[member]
        asked, without = asked + 1, without + (not reply)
        leader = reply.get('not_master')
        target = leader if leader in names else random.choice(names)
        time.sleep(REST)
    raise running.Broken('no reply has "%s" in time; of %d requests %d found no reply at all' % (member, asked, without))


def put(nodes, names, key, seconds):
    """Has a setting put by whoever of these leads. Gives how long it took."""
    start = time.monotonic()
    answered(nodes, names, {'id': 1, 'put': {'key': key, 'value': 'v'}}, 'acked', start + seconds)
    return time.monotonic() - start


def until_all_are_members(nodes, names):
    """Waits until all are members of the accepted state of whoever leads. Gives the leader."""
    end = time.monotonic() + MEMBERS_SECONDS
    while True:
        leader, state = answered(nodes, names, {'id': 2, 'state': {}}, 'state', end + REPLY_SECONDS)
        missing = sorted(set(names) - set(state['value']['members']))
        if not missing:
            return leader
        if time.monotonic() > end:
            raise running.Broken('%d of %d nodes are no members in time: %s' % (len(missing), len(names), ','.join(missing)))
        time.sleep(REST)


def descriptors(process):
    return len(os.listdir('/proc/%d/fd' % process.pid))


def waited(process):
    """For how many seconds a process could run and had no processor."""
    with open('/proc/%d/schedstat' % process.pid) as it:
        return int(it.read().split()[1]) / 1e9


def measure(program, names, top):
    """Gives a row for each thing that is measured: what it is, and its value."""
    start = time.monotonic()
    nodes = running.started(program, names, top)
    try:
        up = time.monotonic() - start
        put(nodes, names, 'first', FIRST_SECONDS)
        first = time.monotonic() - start
        leader = until_all_are_members(nodes, names)
        members = time.monotonic() - start
        megabytes = sum(memory(node.process) for node in nodes.values())
        counts = [descriptors(node.process) for node in nodes.values()]
        nodes[leader].kill()
        gap = put(nodes, [name for name in names if name != leader], 'second', GAP_SECONDS)
    except running.Broken as fault:
        share = max((waited(node.process) for node in nodes.values() if node.is_up()), default=0) / (time.monotonic() - start)
        raise Busy('%s; a node waited for a processor for %.0f %% of the time' % (fault, 100 * share)) if share > WAIT else fault
    finally:
        running.end(nodes)
    return (
        ('seconds until all listen', '%.1f' % up), ('seconds to the first acknowledged put', '%.1f' % first),
        ('seconds until all are members', '%.1f' % members), ('memory of all, MB', '%.0f' % megabytes),
        ('descriptors of all', '%d' % sum(counts)), ('descriptors of the node with most', '%d' % max(counts)),
        ('seconds without an answer after SIGKILL of the leader', '%.1f' % gap),
    )


def give_up(number, _):
    """Ends the script by way of its `finally`s, so that no node is left."""
    raise running.Broken('it had not ended after %d seconds' % ALL_SECONDS if number == signal.SIGALRM else 'it was ended')


def report(names, rows):
    print('| %d nodes | |' % len(names))
    print('|---|--:|')
    for row in rows:
        print('| %s | %s |' % row)


def main(words):
    if not os.path.isfile(words[0]):
        sys.exit('bench/cluster: no program %s' % words[0])
    for number in (signal.SIGALRM, signal.SIGTERM, signal.SIGHUP):
        signal.signal(number, give_up)
    signal.alarm(ALL_SECONDS)
    names = ['n%02d' % (number + 1) for number in range(int(words[1]))]
    top = tempfile.mkdtemp(dir=words[2] if len(words) > 2 else None)
    try:
        report(names, measure(os.path.abspath(words[0]), names, top))
        return 0
    except Busy as fault:
        print('bench/cluster: not judged: %s' % fault)
        return 2
    except (running.Broken, OSError) as fault:
        print('bench/cluster: FAILED: %s' % fault)
        return 1
    finally:
        signal.alarm(0)
        shutil.rmtree(top, ignore_errors=True)


if __name__ == '__main__':
    sys.exit(main(sys.argv[1:]))
