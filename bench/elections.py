"""What bench/elections.sh runs: [NAME=VALUE ..]. Elections among so many nodes, simulated: the rules are those of docs/policy.md as far as elections go.

Simulated are ticks, discovery, pre-votes, elections, publications, checks, and what a node does where a connection ends. A frame takes some time on its way,
and its receiver some time of one of four processors that all nodes share; an act that is written takes a sync more. Left out is what a value holds but members
and voters, and clients, exclusions, restarts, full rooms and the faults of a disk. Nothing of it is proved, and no node runs: it is a drawing board.
"""
import collections
import heapq
import random
import sys

# What may be given, and what it is by default. Times are in ms, but for the cost of a frame, in us, and the seconds of a run.
DEFAULTS = {
    'nodes': 5, 'runs': 100, 'seconds': 10, 'seed': 1,
    # So many end at once: the leader, and those of the least ids.
    'dead': 1,
    # Or connections of the leader are cut so often within 8 s: one of them, or all.
    'cuts': 0, 'all': 0,
    'frame': 0.1, 'cost': 100, 'sync': 0.5,
    # Who stands before a node that lost its leader: `free`, voters of lesser ids that are free whenever the deadline is looked at, as by the rules;
    # `voters`, all of lesser ids, by places that are given as the leader is lost; `none`, nobody, and it does not yield either.
    'before': 'free',
    # How long discovery is held back then.
    'grace': 100,
    # Whether a leader without a quorum asks for votes at once.
    'again': 1,
}
PROCESSORS, ROUND, DISCOVERY, CHECK, FAILURES, ATTEMPTS = 4, 500, 1000, 1000, 3, 99
# A node sees the end of a connection so much later at most, a dial that was refused is repeated after so long, and ticks are quick for so long.
SEEN, DIAL, QUICK = 3, 500, 1000
CUTS_MS = 8000


def is_quorum(ids, config):
    return 2 * len(ids & config) > len(config)


class Check:
    """The checks of one node by another."""

    def __init__(self, moment):
        self.since, self.asked, self.failed = moment, False, 0

    def is_to_ask(self, moment):
        if self.asked or moment < self.since + CHECK:
            return False
        self.since, self.asked = moment, True
        return True

    def answer(self, good, moment):
        if self.asked:
            self.since, self.asked, self.failed = moment, False, 0 if good else self.failed + 1


# A state: its term and version, its members and its voters.
State = collections.namedtuple('State', 'id members config')


class Node:
    """A node by the rules. What it sends stands in `out`, and whether it wrote in `wrote`, until the machine takes it."""

    def __init__(self, plan, me, leader, state):
        self.plan, self.me, self.everybody = plan, me, state.members
        self.term, self.accepted, self.committed, self.votes, self.won = state.id[0], state, state.config, state.members, me == leader
        self.moment, self.place = 0, 0
        self.out, self.wrote = [], False
        self.become_candidate()
        self.leader = leader
        self.leader_check = Check(-random.randrange(CHECK))
        if me == leader:
            self.checks = {other: Check(-random.randrange(CHECK)) for other in state.members - {me}}

    def send(self, to, kind, *words):
        self.out.append((to, kind, words))

    def send_all(self, to, kind, *words):
        for node in sorted(to):
            self.send(node, kind, *words)

    def leads(self):
        return self.leader == self.me

    def elects(self, ids):
        return is_quorum(ids, self.committed) and is_quorum(ids, self.accepted.config)

    def become_candidate(self):
        self.leader, self.answers, self.due, self.deadline, self.attempt = None, {}, self.moment, None, 0
        # The round: the greatest term, and who counts. The publication: its state, who responded, and whether it is finished.
        self.round, self.publication, self.checks, self.joined, self.dropped = None, None, {}, set(), set()

    def start_join(self, candidate, term):
        if term <= self.term:
            return
        self.term, self.votes, self.won, self.wrote = term, frozenset(), False, True
        self.send(candidate, 'join', term, self.accepted.id)
        if self.leader is not None:
            self.become_candidate()
        if self.place and candidate != self.me:
            self.place, self.deadline, self.round = min(self.place + 1, ATTEMPTS), None, None

    def follow(self, leader):
        if self.leader != leader:
            if self.leads():
                self.become_candidate()
            self.leader, self.leader_check = leader, Check(self.moment)

    def stand(self, term):
        self.round = None
        self.send_all(self.everybody, 'start_join', self.me, term)

    def target(self, live):
        """The voters of the next state: the leader, live voters of today, other live ones, voters of today that are not live."""
        config = self.accepted.config
        order = sorted(live | config | {self.me}, key=lambda id: (id != self.me, id not in live, id not in config, id))
        odd = len(live) - 1 if live and len(live) % 2 == 0 else len(live)
        chosen = frozenset(order[:max(odd, 1 if len(config) < 3 else 3)])
        return chosen if is_quorum(live, chosen) else config

    def go_on(self):
        if not self.leads() or self.publication and not self.publication[2]:
            return
        members = self.accepted.members - (self.dropped - {self.me}) | self.joined
        config = self.target(members & self.votes) if self.committed == self.accepted.config else self.accepted.config
        self.joined, self.dropped = set(), set()
        if (self.accepted.id[0], self.accepted.members, self.accepted.config) == (self.term, members, config):
            return
        state = State((self.term, self.accepted.id[1] + 1), members, config)
        self.publication = [state, set(), False]
        self.checks = {other: self.checks.get(other) or Check(self.moment) for other in members - {self.me}}
        self.send_all(members, 'publish', state)

    def free(self):
        return {self.me} | {peer for peer, master in self.answers.items() if master is None}

    def tick(self, now):
        self.moment = max(self.moment, int(now))
        if self.leader is None:
            if self.moment >= self.due:
                self.send_all(self.everybody - {self.me}, 'peers_ask')
                self.due = self.moment + DISCOVERY
            self.wait_for_election()
        elif not self.leads():
            if self.leader_check.failed >= FAILURES:
                self.become_candidate()
            elif self.leader_check.is_to_ask(self.moment):
                self.send(self.leader, 'leader_check', self.term)
        else:
            for other, check in list(self.checks.items()):
                if check.failed >= FAILURES:
                    self.drop(other)
                elif check.is_to_ask(self.moment):
                    self.send(other, 'follower_check', self.term)
            self.go_on()

    def wait_for_election(self):
        free = self.free()
        delay = lambda attempt: 1 + random.randrange(min(10000, 100 + 100 * attempt))
        if self.me not in self.accepted.config or not self.elects(free):
            self.deadline = None
        elif self.deadline is None:
            self.attempt, self.deadline = 0, self.moment + delay(0) + (ROUND * max(self.place - 1, 0) if self.plan.before == 'voters' else 0)
        elif self.moment - ROUND * self.free_before(free) >= self.deadline:
            self.attempt = min(self.attempt + 1, ATTEMPTS)
            self.deadline = self.moment + delay(self.attempt) + ROUND
            self.round = (self.term, {self.me}, self.accepted.id)
            self.send_all(free - {self.me}, 'pre_vote_ask')

    def free_before(self, free):
        """How many of those that come before the node are free now."""
        return sum(1 for id in self.accepted.config & free if id < self.me) if self.place and self.plan.before == 'free' else 0

    def drop(self, peer):
        del self.checks[peer]
        self.dropped.add(peer)

    def take_end(self, peer):
        """The connection to a peer has ended."""
        if self.leader is None and peer in self.answers:
            del self.answers[peer]
            self.due = self.moment
        elif self.leads() and peer in self.checks:
            self.drop(peer)
            if self.elects({self.me} | set(self.checks)):
                self.go_on()
            else:
                self.become_candidate()
                if self.plan.again:
                    self.stand(self.term + 1)
        elif self.leader == peer:
            self.become_candidate()
            self.due = self.moment + self.plan.grace
            self.place = 0 if self.plan.before == 'none' else 1 + sum(1 for id in self.accepted.config - {peer} if id < self.me)

    def take_peers_ask(self, peer):
        self.send(peer, 'peers_answer', self.leader, self.term)

    def take_peers_answer(self, peer, master, term):
        if self.leader is not None:
            return
        self.answers[peer] = master
        if master == peer and term > self.term:
            self.start_join(peer, term)
        elif master == peer:
            self.send(peer, 'join_ask', self.term)

    def take_pre_vote_ask(self, peer):
        if self.leader in (None, peer):
            self.send(peer, 'pre_vote_answer', self.term, self.accepted.id)

    def take_pre_vote_answer(self, peer, term, last):
        if self.leader is not None or self.round is None:
            return
        greatest, counted, mine = self.round
        self.round = (max(greatest, term), counted | {peer} if last <= mine else counted - {peer}, mine)
        if last <= mine and self.elects(self.round[1]):
            self.stand(self.round[0] + 1)

    def take_start_join(self, peer, candidate, term):
        self.start_join(candidate, term)

    def take_join(self, peer, term, last):
        self.start_join(self.me, term)
        if term != self.term or last > self.accepted.id:
            return
        self.votes |= {peer}
        if self.leads():
            self.joined.add(peer)
        elif not self.won and self.elects(self.votes):
            self.won, self.leader, self.deadline, self.round, self.joined = True, self.me, None, None, set(self.votes | {self.me})
        self.go_on()

    def take_join_ask(self, peer, term):
        if self.leads() and term > self.term:
            self.start_join(self.me, term)
        elif self.leads():
            self.joined.add(peer)
            self.go_on()

    def take_publish(self, peer, state):
        self.start_join(peer, state.id[0])
        if state.id[0] == self.term and state.id > self.accepted.id:
            self.accepted, self.wrote = state, True
            self.send(peer, 'response', state.id)
            if peer != self.me:
                self.follow(peer)

    def take_response(self, peer, id):
        if not self.publication or self.publication[0].id != id:
            return
        state, responded, _ = self.publication
        was_committed = is_quorum(responded, self.committed) and is_quorum(responded, state.config)
        responded.add(peer)
        if was_committed:
            self.send(peer, 'commit', id)
        elif is_quorum(responded, self.committed) and is_quorum(responded, state.config):
            self.send_all(responded, 'commit', id)

    def take_commit(self, peer, id):
        if id == self.accepted.id and id[0] == self.term:
            self.committed, self.wrote, self.place = self.accepted.config, True, 0
            if self.publication:
                self.publication[2] = True
                self.go_on()

    def take_follower_check(self, peer, term):
        self.start_join(peer, term)
        good = term == self.term and not self.leads()
        if good:
            self.follow(peer)
        self.send(peer, 'follower_answer', good)

    def take_follower_answer(self, peer, good):
        if peer in self.checks:
            self.checks[peer].answer(good, self.moment)

    def take_leader_check(self, peer, term):
        self.send(peer, 'leader_answer', self.leads() and term == self.term and peer in self.accepted.members)

    def take_leader_answer(self, peer, good):
        if self.leader == peer:
            self.leader_check.answer(good, self.moment)


class Machine:
    """The nodes, and the time: what is on its way, who waits for a processor, and which connections have ended unseen."""

    def __init__(self, plan):
        self.plan, self.now, self.count, self.events = plan, 0.0, 0, []
        everybody = frozenset(range(plan.nodes))
        self.leader = 0 if plan.dead > 1 else random.randrange(plan.nodes)
        state = State((1, 1), everybody, everybody if plan.nodes % 2 else everybody - {plan.nodes - 1 if self.leader == 0 else 0})
        self.nodes = {me: Node(plan, me, self.leader, state) for me in everybody}
        self.inputs = {me: collections.deque() for me in everybody}
        self.idle, self.waiting, self.busy, self.due_ticks = PROCESSORS, collections.deque(), set(), set()
        self.ticked, self.heard, self.quick = {me: -random.uniform(0, 50) for me in everybody}, dict.fromkeys(everybody, -100), dict.fromkeys(everybody, -1)
        self.arrived, self.line, self.unseen, self.dialled = {}, collections.Counter(), set(), {}
        self.stands, self.frames, self.served, self.gap, self.is_measured = set(), 0, 0, 0, False
        for me in everybody:
            self.at(1, self.look_for_tick, me)

    def at(self, time, action, *words):
        self.count += 1
        heapq.heappush(self.events, (time, self.count, action, words))

    def run(self, end):
        while self.events and self.events[0][0] <= end:
            self.now, _, action, words = heapq.heappop(self.events)
            action(*words)

    def look_for_tick(self, me):
        if me not in self.nodes:
            return
        span = 10 if self.now < self.quick[me] else 50
        due = min(max(self.heard[me], self.ticked[me]) + span, self.ticked[me] + 2 * span)
        if self.now >= due and me not in self.due_ticks:
            self.due_ticks.add(me)
            self.put(me, me, 'tick', ())
        self.at(self.now + 1, self.look_for_tick, me)

    def put(self, me, sender, kind, words):
        self.inputs[me].append((sender, kind, words))
        self.want(me)

    def want(self, me):
        if me in self.nodes and self.inputs[me] and me not in self.busy:
            self.busy.add(me)
            self.waiting.append(me)
        self.hand_out()

    def hand_out(self):
        while self.idle and self.waiting:
            self.idle -= 1
            self.at(self.now + self.plan.cost / 1000, self.take, self.waiting.popleft())

    def take(self, me):
        self.idle += 1
        if me in self.nodes:
            node, (sender, kind, words) = self.nodes[me], self.inputs[me].popleft()
            if kind == 'tick':
                self.ticked[me] = self.now
                self.due_ticks.discard(me)
                node.tick(self.now)
            else:
                self.heard[me] = self.now
                getattr(node, 'take_' + kind)(sender, *words)
            out, node.out = node.out, []
            self.at(self.now + (self.plan.sync * random.uniform(0.5, 1.5) if node.wrote else 0), self.finish, me, out)
            node.wrote = False
        self.hand_out()

    def finish(self, me, out):
        self.busy.discard(me)
        if me in self.nodes:
            for to, kind, words in out:
                self.frames += 1
                if kind == 'start_join':
                    self.stands.add((me, words[1]))
                self.send(me, to, kind, words)
        self.look_who_serves()
        self.want(me)

    def send(self, me, to, kind, words):
        if to == me:
            self.put(me, me, kind, words)
        elif to not in self.nodes:
            if (me, to) not in self.unseen and self.dialled.get((me, to), -DIAL) <= self.now:
                self.dialled[me, to] = max(self.now, self.dialled.get((me, to), -DIAL) + DIAL)
                self.at(self.dialled[me, to] + 2 * self.plan.frame, self.end_of, me, to, False)
        else:
            time = max(self.now + self.plan.frame * random.uniform(0.8, 1.2), self.arrived.get((me, to), 0))
            self.arrived[me, to] = time
            self.at(time, self.arrive, me, to, kind, words, self.line[frozenset((me, to))])

    def arrive(self, me, to, kind, words, line):
        # What was on its way over a connection that ended is lost; what comes over a new one hides the end of the old one.
        if to in self.nodes and line == self.line[frozenset((me, to))]:
            self.unseen.discard((to, me))
            self.put(to, me, kind, words)

    def end_of(self, me, peer, is_seen=True):
        if me not in self.nodes or is_seen and (me, peer) not in self.unseen:
            return
        if is_seen:
            self.unseen.discard((me, peer))
            self.quick[me] = self.now + QUICK
        self.put(me, peer, 'end', ())

    def cut(self, one, other):
        self.line[frozenset((one, other))] += 1
        for me, peer in ((one, other), (other, one)):
            self.unseen.add((me, peer))
            self.at(self.now + self.plan.frame + random.uniform(0, SEEN), self.end_of, me, peer)

    def kill(self, dead):
        for one in dead:
            del self.nodes[one]
        for one in dead:
            for me in self.nodes:
                self.cut(me, one)

    def cut_leader(self):
        for leader in [me for me, node in self.nodes.items() if node.leads()]:
            others = sorted(set(self.nodes) - {leader})
            for other in others if self.plan.all else [random.choice(others)]:
                self.cut(leader, other)

    def look_who_serves(self):
        """A leader serves whose state in its term a quorum has taken, and nobody of it has joined another since."""
        for me, node in self.nodes.items():
            if node.leads() and node.accepted.id[0] == node.term:
                taken = {id for id, other in self.nodes.items() if other.term == other.accepted.id[0] == node.term and other.leader in (me, None)}
                if node.elects(taken):
                    self.served = self.now
        if self.is_measured:
            self.gap = max(self.gap, self.now - self.served)


def run(plan):
    """One run: for how long nobody served, in seconds, how often a node stood for election, and how many frames were sent."""
    machine = Machine(plan)
    start = random.uniform(200, 1000)
    machine.run(start)
    machine.served, machine.is_measured = machine.now, True
    if plan.cuts:
        for _ in range(plan.cuts):
            machine.at(start + random.uniform(0, CUTS_MS), machine.cut_leader)
    else:
        least = [id for id in sorted(machine.nodes) if id != machine.leader]
        machine.kill([machine.leader] + least[:plan.dead - 1])
    machine.run(start + 1000 * plan.seconds)
    machine.look_who_serves()
    return machine.gap / 1000, len(machine.stands), machine.frames


def main(words):
    plan = type('Plan', (), dict(DEFAULTS))
    for word in words:
        name, _, value = word.partition('=')
        if name not in DEFAULTS:
            sys.exit('bench/elections: no %s' % name)
        setattr(plan, name, type(DEFAULTS[name])(value))
    random.seed(plan.seed)
    gaps, stands, frames = zip(*(run(plan) for _ in range(plan.runs)))
    gaps, mean = sorted(gaps), lambda counts: sum(counts) / plan.runs
    print('| %s | %.2f | %.2f | %.2f | %.2f | %d |' % (
        ' '.join(words), gaps[plan.runs // 2], gaps[plan.runs * 99 // 100], gaps[-1], mean(stands), mean(frames)), flush=True)


if __name__ == '__main__':
    main(sys.argv[1:])
