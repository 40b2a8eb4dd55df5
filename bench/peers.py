"""What bench/peers.sh runs: PROGRAM SECONDS [FOLDER]."""
import base64
import collections
import json
import os
import re
import selectors
import shutil
import signal
import socket
import subprocess
import sys
import tempfile
import time
import urllib.request

sys.path.insert(0, os.path.join(os.path.dirname(os.path.abspath(__file__)), '..', 'examples'))
sys.dont_write_bytecode = True
import nodes as running

NAMES = ['a', 'b', 'c']
# How long the members may take to find a leader, in seconds. Where no connection ends, a follower of `zen` gives its leader up after three checks of 10 s.
PATIENCE = 120
TICKS = os.sysconf('SC_CLK_TCK')


class Zen:
    """Three nodes of `zen`, and how they are asked for a put, or to be shown the state."""

    name, loads = 'zen', ((1, 1), (8, 8))

    def __init__(self, program, top):
        self.nodes = running.started(program, NAMES, top)
        self.processes = {name: node.process for name, node in self.nodes.items()}
        self.ports = {name: node.port for name, node in self.nodes.items()}

    def put(self, number, key, value):
        return b'{"id":%d,"put":{"key":"%s","value":"%s"}}\n' % (number, key, value)

    def read(self, number, key, value):
        """A request for the whole state, whatever the key."""
        return b'{"id":%d,"state":{}}\n' % number

    def take_reply(self, got):
        """Takes the first reply of what came. Gives whether it tells of something done, or None where it is not whole."""
        line, feed, rest = got.partition(b'\n')
        if not feed:
            return None
        got[:] = rest
        return b'"acked":' in line or b'"state":' in line

    def leader(self, names):
        """The first of these that acknowledges a put."""
        end = time.monotonic() + PATIENCE
        while time.monotonic() < end:
            for name in names:
                try:
                    reply = self.nodes[name].ask({'id': 0, 'put': {'key': 'q', 'value': str(time.monotonic())}}, 2)
                except OSError:
                    continue
                if reply and 'acked' in reply:
                    return name
            time.sleep(0.01)
        raise running.Broken('no node leads')

    def folder(self, name):
        return self.nodes[name].folder

    def close(self):
        running.end(self.nodes)


class Etcd:
    """Three members of etcd, and how they are asked for a put, or to be shown a key: by its gateway, HTTP and JSON."""

    # A connection has one request unanswered.
    name, loads = 'etcd', ((1, 1), (63, 1))

    def __init__(self, program, top):
        self.top = top
        ports = running.free_ports(NAMES + [name + '-peer' for name in NAMES])
        self.ports = {name: ports[name] for name in NAMES}
        url = lambda name: 'http://%s:%d' % (running.HOST, ports[name])
        cluster = ','.join('%s=%s' % (name, url(name + '-peer')) for name in NAMES)
        self.processes = {name: subprocess.Popen(
            [program, '--name', name, '--data-dir', self.folder(name), '--listen-client-urls', url(name), '--advertise-client-urls', url(name),
             '--listen-peer-urls', url(name + '-peer'), '--initial-advertise-peer-urls', url(name + '-peer'), '--initial-cluster', cluster,
             '--initial-cluster-state', 'new', '--log-level', 'error'], stdout=subprocess.DEVNULL, stderr=subprocess.DEVNULL) for name in NAMES}

    def request(self, what, value):
        body = json.dumps(value).encode()
        return b'POST /v3/kv/%s HTTP/1.1\r\nHost: x\r\nContent-Type: application/json\r\nContent-Length: %d\r\n\r\n%s' % (what, len(body), body)

    def put(self, number, key, value):
        return self.request(b'put', {'key': base64.b64encode(key).decode(), 'value': base64.b64encode(value).decode()})

    def read(self, number, key, value):
        """A request for a key alone: linearizable, as nothing else is said."""
        return self.request(b'range', {'key': base64.b64encode(key).decode()})

    def take_reply(self, got):
        head, blank, rest = got.partition(b'\r\n\r\n')
        length = re.search(rb'(?i)content-length: *(\d+)', head)
        if not blank or len(rest) < int(length[1]):
            return None
        got[:] = rest[int(length[1]):]
        return head.startswith(b'HTTP/1.1 200')

    def post(self, name, path, value):
        request = urllib.request.Request('http://%s:%d%s' % (running.HOST, self.ports[name], path), json.dumps(value).encode(), {'Content-Type': 'application/json'})
        return json.load(urllib.request.urlopen(request, timeout=2))

    def leader(self, names):
        """The leader, once one of these acknowledges a put."""
        end = time.monotonic() + PATIENCE
        while time.monotonic() < end:
            for name in names:
                try:
                    self.post(name, '/v3/kv/put', {'key': 'cQ==', 'value': 'cQ=='})
                    members = {member['ID']: member['name'] for member in self.post(name, '/v3/cluster/member/list', {})['members']}
                    leader = members.get(self.post(name, '/v3/maintenance/status', {}).get('leader'))
                except (OSError, ValueError, KeyError):
                    continue
                if leader in names:
                    return leader
            time.sleep(0.01)
        raise running.Broken('no member of etcd leads')

    def folder(self, name):
        return os.path.join(self.top, name)

    def close(self):
        for process in self.processes.values():
            process.kill()
            process.wait()


class Asker:
    """A connection of the load: what it sent, when, and what came."""

    def __init__(self, request, take_reply, port, number):
        self.request, self.take_reply, self.number, self.count = request, take_reply, number, 0
        self.socket = socket.create_connection((running.HOST, port), timeout=30)
        self.socket.setsockopt(socket.IPPROTO_TCP, socket.TCP_NODELAY, 1)
        self.begun, self.got = collections.deque(), bytearray()

    def fill(self, flight):
        """Asks until so many requests are unanswered."""
        more = []
        while len(self.begun) < flight:
            more.append(self.request(self.count, b'k%d-%d' % (self.number, self.count % 8), b'v%d' % self.count))
            self.begun.append(time.perf_counter())
            self.count += 1
        self.socket.sendall(b''.join(more))

    def take(self):
        """Takes what came. Gives the seconds of each request that is done, and how many were refused."""
        more = self.socket.recv(65536)
        if not more:
            raise running.Broken('a connection of the load has ended')
        self.got += more
        times, refused = [], 0
        while (done := self.take_reply(self.got)) is not None:
            seconds = time.perf_counter() - self.begun.popleft()
            if done:
                times.append(seconds)
            else:
                refused += 1
        return times, refused


def load(kind, request, port, connections, flight, seconds):
    """Asks over so many connections, with so many requests unanswered on each. Gives the seconds of each, sorted, and of all."""
    askers = [Asker(request, kind.take_reply, port, number) for number in range(connections)]
    times, refused, start = [], 0, time.perf_counter()
    with selectors.DefaultSelector() as waiting:
        for asker in askers:
            waiting.register(asker.socket, selectors.EVENT_READ, asker)
            asker.fill(flight)
        while any(asker.begun for asker in askers):
            for key, _ in waiting.select(30):
                done, failed = key.data.take()
                times += done
                refused += failed
                if time.perf_counter() - start < seconds:
                    key.data.fill(flight)
    elapsed = time.perf_counter() - start
    for asker in askers:
        asker.socket.close()
    if refused:
        raise running.Broken('%s refuses %d requests' % (kind.name, refused))
    return sorted(times), elapsed


def processor(process):
    """The seconds of the processor that a process has taken: in its own code, and in the system's."""
    with open('/proc/%d/stat' % process.pid) as it:
        fields = it.read().rpartition(')')[2].split()
    return int(fields[11]) / TICKS, int(fields[12]) / TICKS


def memory(process):
    with open('/proc/%d/status' % process.pid) as it:
        return int(re.search(r'VmRSS:\s+(\d+)', it.read())[1]) / 1024


def size(folder):
    return sum(os.path.getsize(os.path.join(at, name)) for at, _, names in os.walk(folder) for name in names) / 1000


def measure(kind, seconds):
    """Measures three members. Gives the figures by their names."""
    leader = kind.leader(NAMES)
    # All three are members by then.
    time.sleep(2)
    figures = {}
    one, many = kind.loads
    for what, request, (connections, flight) in zip(LOADS, (kind.put, kind.put, kind.read, kind.read), (one, many, one, many)):
        before = processor(kind.processes[leader])
        times, elapsed = load(kind, request, kind.ports[leader], connections, flight, seconds)
        user, system = (now - was for now, was in zip(processor(kind.processes[leader]), before))
        figures.update({what + ' rate': len(times) / elapsed, what + ' p50': 1e6 * times[len(times) // 2], what + ' p99': 1e6 * times[len(times) * 99 // 100],
                        what + ' user': 1e6 * user / len(times), what + ' system': 1e6 * system / len(times)})
    figures['memory'] = sum(memory(process) for process in kind.processes.values())
    figures['disk'] = max(size(kind.folder(name)) for name in NAMES)
    before, start = sum(sum(processor(process)) for process in kind.processes.values()), time.monotonic()
    time.sleep(seconds)
    figures['idle'] = 100 * (sum(sum(processor(process)) for process in kind.processes.values()) - before) / (time.monotonic() - start)
    leader = kind.leader(NAMES)
    kind.processes[leader].send_signal(signal.SIGKILL)
    start = time.monotonic()
    kind.leader([name for name in NAMES if name != leader])
    figures['gap'] = time.monotonic() - start
    return figures


LOADS = {
    'one put': 'one put at a time, acknowledged a second', 'puts': '64 puts unanswered (63 for etcd), acknowledged a second',
    'one read': 'one read at a time, answered a second', 'reads': '64 reads unanswered (63 for etcd), answered a second',
}
OF_LOAD = (
    ('50th percentile, us', 'p50', '%.0f'), ('99th percentile, us', 'p99', '%.0f'), ("the leader's own processor time for each, us", 'user', '%.1f'),
    ("the system's for it, us", 'system', '%.1f'),
)
OF_ALL = (
    ('memory of the three, MB', 'memory', '%.0f'), ('the three idle, % of a processor', 'idle', '%.2f'),
    ('disk of one after all that, KB', 'disk', '%.0f'), ('seconds without an answer after SIGKILL of the leader', 'gap', '%.1f'),
)


def rows():
    """What is printed: the words of each row, its figure and how that is written."""
    for load_of, title in LOADS.items():
        yield title, load_of + ' rate', '%.0f'
        for what, key, form in OF_LOAD:
            yield what, '%s %s' % (load_of, key), form
    yield from OF_ALL


def main(words):
    program, seconds = os.path.abspath(words[0]), float(words[1])
    top = tempfile.mkdtemp(dir=words[2] if len(words) > 2 else None)
    etcd, columns = shutil.which('etcd'), []
    try:
        for kind, binary in ((Zen, program), (Etcd, etcd)):
            if binary:
                here = os.path.join(top, kind.name)
                os.mkdir(here)
                members = kind(binary, here)
                try:
                    columns.append((kind.name, measure(members, seconds)))
                finally:
                    members.close()
    except (running.Broken, OSError) as fault:
        sys.exit('bench/peers: %s' % fault)
    finally:
        shutil.rmtree(top, ignore_errors=True)
    print('| | %s |' % ' | '.join(name for name, _ in columns + ([('zen / etcd', None)] if etcd else [])))
    print('|---|' + '--:|' * (len(columns) + bool(etcd)))
    for what, key, form in rows():
        cells = [form % figures[key] for _, figures in columns]
        if etcd:
            cells.append('%.2f' % (columns[0][1][key] / columns[1][1][key]) if columns[1][1][key] else '')
        print('| %s | %s |' % (what, ' | '.join(cells)))


if __name__ == '__main__':
    main(sys.argv[1:])
