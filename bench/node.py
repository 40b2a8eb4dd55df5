"""What bench/node.sh runs: PROGRAM [FOLDER]."""
import os
import shutil
import socket
import struct
import sys
import tempfile
import time

sys.path.insert(0, os.path.join(os.path.dirname(os.path.abspath(__file__)), '..', 'examples'))
sys.dont_write_bytecode = True
import nodes as running

# Rounds of the node, each followed by the same device calls alone: what else the machine does changes both alike, and the middle one of
# the ratios counts.
ROUNDS = 15
PUTS = 100
JOINS = 200
# The most requests that a leader keeps unanswered.
FLIGHT = 64
HEADER = b'ZENJRNL1'
# The first byte of a body that begins a generation, of version 1 and of version 2.
GENERATION = (0x04, 0x84)


def puts(client, first, count, flight):
    """Has so many settings put, with so many requests unanswered at most. Gives the seconds of each, and of all."""
    begun, times, sent = {}, [], 0
    start = time.perf_counter()
    while len(times) < count:
        while sent < count and len(begun) < flight:
            begun[first + sent] = time.perf_counter()
            client.send({'id': first + sent, 'put': {'key': 'k%d' % (sent % 10), 'value': str(first + sent)}})
            sent += 1
        reply = client.reply()
        if not reply or 'acked' not in reply:
            sys.exit('bench/node: a put is answered with %s' % reply)
        times.append(time.perf_counter() - begun.pop(reply['id']))
    return sorted(times), time.perf_counter() - start


def bodies_of(path):
    """The bodies of one of a journal's files."""
    with open(path, 'rb') as file:
        data = file.read()
    place, bodies = len(HEADER), []
    while data[place] == 1:
        length = struct.unpack('>I', data[place + 1:place + 5])[0]
        bodies.append(data[place + 5:place + 5 + length])
        place += 5 + length
    return bodies


def generations(folder):
    """The bodies of both generations, by their epochs."""
    found = {0: bodies_of(os.path.join(folder, 'journal.0'))}
    for bodies in (found[0], bodies_of(os.path.join(folder, 'journal.1'))):
        if bodies and bodies[0][0] in GENERATION:
            found[struct.unpack('>Q', bodies[0][1:9])[0]] = bodies
    return found


def appends(folder, after):
    """The bodies written since a journal stood there, where no more than one generation began since, and where it stands: its epoch and the
    count of its bodies."""
    found, (epoch, count) = generations(folder), after
    bodies = found.get(epoch, [])[count:] + [body for begun in sorted(found) if begun > epoch for body in found[begun]]
    return bodies, (max(found), len(found[max(found)]))


def append_all(file, place, bodies):
    """The device calls of these appends, and nothing else. Gives their seconds, and the end."""
    start = time.perf_counter()
    for body in bodies:
        os.pwrite(file, struct.pack('>I', len(body)) + body + b'\0', place + 1)
        os.fdatasync(file)
        os.pwrite(file, b'\1', place)
        os.fdatasync(file)
        place += 5 + len(body)
    return time.perf_counter() - start, place


def report_acts(name, rounds):
    count, of_node, alone = (sum(column) for column in zip(*rounds))
    print('%s, of one node over a file: %d in %.2f s, %.0f acts/s' % (name, count, of_node, count / of_node))
    print('    the same device calls alone: %.2f s, %.0f acts/s; ratio of the times: %.2f' % (
        alone, count / alone, sorted(one / other for _, one, other in rounds)[len(rounds) // 2]))


def measure_rounds(node, top, give):
    """Has the node do rounds of acts, each followed by the device calls of its appends alone. Gives for each round how many acts there were, and
    both times."""
    bare = os.open(os.path.join(top, 'bare'), os.O_RDWR | os.O_CREAT)
    os.pwrite(bare, HEADER + b'\0', 0)
    try:
        journal = node.folder
        rounds, end, place = [], appends(journal, (0, 0))[1], len(HEADER)
        for number in range(ROUNDS):
            of_node = give(number)
            bodies, end = appends(journal, end)
            alone, place = append_all(bare, place, bodies)
            rounds.append((len(bodies), of_node, alone))
        return rounds
    finally:
        os.close(bare)


def measure_joins(program, top):
    """Acts alone: a node without a configuration starts joins in ever higher terms. The frames wait for it in its socket, so it waits for nobody."""
    nodes = running.started(program, ['a'], top, initial='_')
    try:
        with socket.create_connection((running.HOST, nodes['a'].port)) as peer:
            peer.settimeout(60)

            def give(number):
                joins = b''.join(frame(1, b'\1c' + struct.pack('>Q', 1 + number * JOINS + one), b'a') for one in range(JOINS))
                start = time.perf_counter()
                # The answer to the last frame, which asks for peers, comes behind all acts.
                peer.sendall(joins + frame(7, b'\0', b'a'))
                while read(peer, struct.unpack('>I', read(peer, 4))[0])[0] != 8:
                    pass
                return time.perf_counter() - start

            report_acts('acts alone, starts of joins', measure_rounds(nodes['a'], top, give))
    finally:
        running.end(nodes)


def read(peer, count):
    """So many bytes."""
    got = b''
    while len(got) < count:
        more = peer.recv(count - len(got))
        if not more:
            raise running.Broken('the node ends the connection of a peer')
        got += more
    return got


def measure_puts(program, top):
    """Acts of puts: two of four events of a put, whose lines come from a client and whose replies go there."""
    nodes = running.started(program, ['a'], top)
    try:
        running.leader_of(nodes, time.monotonic() + 60)
        with running.Client(nodes['a'].port) as client:
            # One waits while the other is published, so that the node seldom waits for its client.
            rounds = measure_rounds(nodes['a'], top, lambda number: puts(client, number * PUTS, PUTS, 2)[1])
        report_acts('acts of puts, two unanswered', rounds)
    finally:
        running.end(nodes)


def measure_requests(program, top):
    nodes = running.started(program, ['a', 'b', 'c'], top)
    try:
        leader = nodes[running.leader_of(nodes, time.monotonic() + 60)]
        # The third node becomes a member.
        time.sleep(2)
        with running.Client(leader.port) as client:
            for flight, count in ((1, 500), (FLIGHT, 5000)):
                times, seconds = puts(client, 0, count, flight)
                print('requests over three nodes, %d in flight: %d in %.2f s, %.0f requests/s, 50th percentile %.2f ms, 99th %.2f ms' % (
                    flight, count, seconds, count / seconds, 1000 * times[len(times) // 2], 1000 * times[len(times) * 99 // 100]))
    finally:
        running.end(nodes)


def text(bytes_of):
    return struct.pack('>H', len(bytes_of)) + bytes_of


def frame(kind, fields, to=b'z'):
    """A frame from b: a node to which it doesn't go decodes it and tells of it, and does nothing."""
    body = bytes([kind]) + b'\1b\1' + to + fields
    return struct.pack('>I', len(body)) + body


def measure_frames(program, top):
    settings = b''.join(text(b'key-%04d' % number) + text(b'x' * 1024) for number in range(1000))
    state = struct.pack('>QQBQQ', 1, 1, 1, 0, 0) + b'\1\1b\1\1b' + b'\0\0\0' + struct.pack('>H', 1000) + settings
    for name, sent, count in (('publish requests of 1,000 settings', frame(17, state), 200), ('leader checks', frame(14, struct.pack('>Q', 1)), 50000)):
        nodes = running.started(program, ['a'], tempfile.mkdtemp(dir=top))
        try:
            start = time.perf_counter()
            with socket.create_connection((running.HOST, nodes['a'].port)) as connection:
                # A frame of no kind comes last: the node ends the connection once it has taken all before it.
                connection.sendall(sent * count + frame(0, b''))
                connection.settimeout(600)
                wait_for_end(connection)
            seconds = time.perf_counter() - start
            print('frames decoded and told of, %s: %d of %d bytes in %.2f s, %.0f frames/s, %.2f MB/s' % (
                name, count, len(sent), seconds, count / seconds, count * len(sent) / seconds / 1e6))
        finally:
            running.end(nodes)


def wait_for_end(connection):
    try:
        connection.recv(1)
    except ConnectionResetError:
        pass


def main(words):
    top = tempfile.mkdtemp(dir=words[1] if len(words) > 1 else None)
    try:
        for measure in (measure_joins, measure_puts, measure_requests, measure_frames):
            here = os.path.join(top, measure.__name__)
            os.mkdir(here)
            measure(words[0], here)
    except (running.Broken, OSError) as fault:
        sys.exit('bench/node: %s' % fault)
    finally:
        shutil.rmtree(top, ignore_errors=True)


if __name__ == '__main__':
    main(sys.argv[1:])
