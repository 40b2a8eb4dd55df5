"""Nodes on this machine, each a process of its own over loopback sockets and a folder, and clients of them. For examples/cluster and bench/node."""
import json
import os
import queue
import random
import re
import signal
import socket
import subprocess
import sys
import threading
import time

HOST = '127.0.0.1'

# So many inputs a run takes at most: one that nobody ends any more ends by itself within a day.
TURNS = 1000000


class Broken(Exception):
    """Something that cannot go on, with the words that say why."""


class Node:
    """A node that may be started again and again over one folder. What each of its runs writes lies in a file of its own, since a pipe that nobody
    empties would hold the node up."""

    def __init__(self, program, name, top):
        self.program, self.name = program, name
        self.folder = os.path.join(top, name)
        self.outputs, self.process, self.words = [], None, []
        # Once it is over it is not started any more, not by another thread either.
        self.lock, self.is_over = threading.Lock(), False

    def settle(self, ports, initial=None, voting_only=None, history=None):
        """Says where it and the others listen, who the first voters are: all of them, if nothing else is said, who is voting-only, and how much of its
        life it writes: all, if nothing else is said."""
        self.port = ports[self.name]
        peers = ','.join('%s=%s:%d' % (name, HOST, port) for name, port in sorted(ports.items()) if name != self.name)
        self.words = ['node', '--id', self.name, '--dir', self.folder, '--listen', '%s:%d' % (HOST, self.port), '--peers', peers or '_',
                      '--initial', initial or ','.join(sorted(ports)), '--turns', str(TURNS)]
        if voting_only:
            self.words += ['--voting-only', voting_only]
        if history:
            self.words += ['--history', history]

    def start(self):
        """Starts a run. It is up once it has begun to write. Gives whether it is: where its port was taken meanwhile it has ended."""
        self.outputs.append('%s.%d' % (self.folder, len(self.outputs) + 1))
        with self.lock:
            if self.is_over:
                raise Broken('%s is over' % self.name)
            self.open(self.outputs[-1])
        end = time.monotonic() + 30
        while time.monotonic() < end and self.process.poll() is None:
            if b'\n' in self.read(len(self.outputs) - 1):
                return True
            time.sleep(0.01)
        if self.process.poll() is None:
            raise Broken('%s runs and writes nothing' % self.name)
        self.outputs.pop()
        return False

    def open(self, output):
        with open(output, 'wb') as out, open(output + '.error', 'wb') as error:
            self.process = subprocess.Popen([self.program] + self.words, stdin=subprocess.DEVNULL, stdout=out, stderr=error)

    def start_again(self):
        """Starts a run on the port that it had."""
        for _ in range(20):
            if self.start():
                return
            time.sleep(0.5)
        raise Broken('%s does not start again: its last status was %d' % (self.name, self.process.returncode))

    def read(self, run):
        """The bytes that a run has written by now."""
        with open(self.outputs[run], 'rb') as output:
            return output.read()

    def is_up(self):
        return self.process is not None and self.process.poll() is None

    def kill(self):
        """Ends the run at once."""
        if self.process is not None:
            if self.process.poll() is None:
                self.process.send_signal(signal.SIGKILL)
            self.process.wait()

    def close(self):
        """Ends the run, and has no other one begin."""
        with self.lock:
            self.is_over = True
            self.kill()

    def stop(self, seconds=10):
        """Ends the run as a node is to be ended, and gives its status."""
        with socket.create_connection((HOST, self.port), timeout=seconds) as connection:
            connection.sendall(b'stop\n')
            try:
                return self.process.wait(seconds)
            except subprocess.TimeoutExpired:
                raise Broken('%s goes on %d seconds behind a stop' % (self.name, seconds))

    def ask(self, request, seconds=15):
        """The reply to a request over a connection of its own, or None where that ends before it. OSError where there is no connection, or no reply in
        time."""
        with Client(self.port, seconds) as client:
            return client.ask(request)


class Client:
    """A connection to a node."""

    def __init__(self, port, seconds=15):
        self.socket = socket.create_connection((HOST, port), timeout=seconds)
        self.socket.setsockopt(socket.IPPROTO_TCP, socket.TCP_NODELAY, 1)
        self.rest = b''

    def __enter__(self):
        return self

    def __exit__(self, *_):
        self.socket.close()

    def send(self, request):
        self.socket.sendall(json.dumps(request).encode() + b'\n')

    def reply(self):
        """The next reply, or None where the connection has ended."""
        while b'\n' not in self.rest:
            more = self.socket.recv(65536)
            if not more:
                return None
            self.rest += more
        line, self.rest = self.rest.split(b'\n', 1)
        return json.loads(line)

    def ask(self, request):
        self.send(request)
        return self.reply()


class Line:
    """A port by which a node is reached a little later, in both directions. It can be stalled: then nothing comes through, and nothing ends."""

    def __init__(self, port, delay):
        self.port, self.delay, self.connections = port, delay, []
        self.goes = threading.Event()
        self.goes.set()
        self.listener = socket.socket()
        self.listener.bind((HOST, 0))
        self.listener.listen(64)
        self.own_port = self.listener.getsockname()[1]
        threading.Thread(target=self.accept, daemon=True).start()

    def accept(self):
        while True:
            try:
                near = self.listener.accept()[0]
            except OSError:
                return
            try:
                far = socket.create_connection((HOST, self.port), timeout=5)
            except OSError:
                near.close()
                continue
            for end in near, far:
                end.settimeout(None)
                end.setsockopt(socket.IPPROTO_TCP, socket.TCP_NODELAY, 1)
            self.connections.append((near, far))
            threading.Thread(target=self.hand_on, args=(near, far), daemon=True).start()
            threading.Thread(target=self.hand_on, args=(far, near), daemon=True).start()

    def hand_on(self, source, target):
        """Hands on what comes from one end to the other, each piece `delay` seconds after it came, and at last the end."""
        pieces = queue.Queue()
        threading.Thread(target=self.send, args=(pieces, target), daemon=True).start()
        piece = b'.'
        while piece:
            try:
                piece = source.recv(65536)
            except OSError:
                piece = b''
            pieces.put((time.monotonic() + self.delay, piece))

    def send(self, pieces, target):
        while True:
            due, piece = pieces.get()
            time.sleep(max(0, due - time.monotonic()))
            self.goes.wait()
            try:
                if not piece:
                    target.shutdown(socket.SHUT_RDWR)
                    return
                target.sendall(piece)
            except OSError:
                return

    def stall(self):
        self.goes.clear()

    def break_off(self, is_near):
        """Stalls, and ends what it holds for the node that dialled, or for the one that it leads to. The other one sees nothing before the line goes on."""
        self.stall()
        for near, far in self.connections:
            try:
                (near if is_near else far).shutdown(socket.SHUT_RDWR)
            except OSError:
                pass
        self.connections = []

    def go_on(self):
        self.goes.set()

    def close(self):
        self.go_on()
        self.listener.close()


def started_over_lines(program, names, top, delay, words=()):
    """New nodes that reach each other over lines, with these words more. Gives the nodes, and the lines, each by the node that dials and the one that it
    leads to."""
    ports = free_ports(names)
    lines = {(name, other): Line(ports[other], delay) for name in names for other in names if other != name}
    nodes = {name: Node(program, name, top) for name in names}
    try:
        for name, node in nodes.items():
            node.settle({other: ports[name] if other == name else lines[name, other].own_port for other in names})
            node.words += list(words)
        threads = [threading.Thread(target=node.start) for node in nodes.values()]
        for thread in threads:
            thread.start()
        for thread in threads:
            thread.join()
        if not all(node.is_up() for node in nodes.values()):
            raise Broken('a node does not start')
    except BaseException:
        end(nodes)
        raise
    return nodes, lines


def free_ports(names):
    """A port for each name that nobody listens at now. They lie below those that the system gives to outgoing connections."""
    ports = {}
    while len(ports) < len(names):
        port = random.randrange(10000, 32000)
        with socket.socket() as probe:
            try:
                probe.bind((HOST, port))
            except OSError:
                continue
        if port not in ports.values():
            ports[names[len(ports)]] = port
    return ports


def started(program, names, top, initial=None, voting_only=None, histories=None):
    """New nodes, all of them up. Where one finds its port taken, all begin anew. `histories` says of a node that it writes less of its life."""
    for attempt in range(10):
        here = os.path.join(top, str(attempt))
        os.mkdir(here)
        nodes = {name: Node(program, name, here) for name in names}
        ports = free_ports(names)
        for node in nodes.values():
            node.settle(ports, initial, voting_only, (histories or {}).get(node.name))
        try:
            if all(node.start() for node in nodes.values()):
                return nodes
        except BaseException:
            end(nodes)
            raise
        end(nodes)
    raise Broken('no node starts: the last status was %s' % [node.process.returncode for node in nodes.values() if node.process])


def end(nodes):
    """Ends all runs for good, whatever they do."""
    for node in nodes.values():
        node.close()


def leader_of(nodes, end):
    """The node that leads: the first that takes a request for the state as one."""
    while time.monotonic() < end:
        for node in nodes.values():
            try:
                reply = node.ask({'id': 0, 'state': {}}, 5)
            except OSError:
                continue
            if reply and 'state' in reply:
                return node.name
        time.sleep(0.1)
    raise Broken('no node leads')


def audited(nodes, top):
    """Puts what all runs of the nodes wrote into one order (examples/merge), left in the folder as one recording, and has `zen audit` judge it. Gives the
    winners that it finds, as its lines say it, and what it has against it, with the line that it names."""
    merge = os.path.join(os.path.dirname(os.path.abspath(__file__)), 'merge')
    recording = os.path.join(top, 'recording')
    outputs = [output for node in nodes.values() for output in node.outputs]
    with open(recording, 'wb') as out:
        merged = subprocess.run([sys.executable, merge, ','.join(sorted(nodes)), *outputs], stdout=out, stderr=subprocess.PIPE, timeout=20)
    if merged.returncode not in (0, 1):
        return [], merged.stderr.decode('utf-8', 'replace')
    program = next(iter(nodes.values())).program
    with open(recording, 'rb') as lines:
        done = subprocess.run([program, 'audit'], stdin=lines, stdout=subprocess.PIPE, timeout=20)
    found = done.stdout.decode()
    if done.returncode == 0:
        return found.splitlines()[3:], None
    named = re.search(' line ([0-9]+)', found)
    return [], 'status %d, %s%s' % (done.returncode, found.strip(), ': ' + line_of(recording, int(named[1])) if named else '')


def line_of(recording, number):
    with open(recording, encoding='utf-8', errors='replace', newline='\n') as lines:
        return lines.read().split('\n')[number - 1]
