"""Judges whether operations on registers are linearizable: whether each may be given one moment between its call and its reply, such that each read
gives what was put last before it, and nothing where nothing was. For examples/linearizable. Of the nodes it knows nothing.

The search is that of Wing and Gong (1993), event after event: which of the operations under way have had their moment, and the value that they left; each such
pair is kept once, as Lowe (2017) does it. Registers are judged one by one, since operations on several are linearizable exactly where those on each of
them are (Herlihy and Wing, 1990)."""
import json
import time
from collections import namedtuple

# A put of a value, or a read that gave it (None where nothing was there). `reply` is None where none came that says that it was done: it may have had
# its moment at any time after its call, or never.
Operation = namedtuple('Operation', 'key is_put value call reply')

# What may be of an operation at a moment, in the order in which it is looked at: it is called, it must have had its moment, it may be left out.
CALL, REPLY, LEAVE = range(3)


class TooLong(Exception):
    """A search that takes longer than it may."""


def told(operation):
    """How an operation stands in a file."""
    line = {'key': operation.key, 'put' if operation.is_put else 'read': operation.value, 'call': operation.call}
    if operation.reply is not None:
        line['reply'] = operation.reply
    return json.dumps(line)


def read(lines):
    """The operations of a file, one a line. ValueError or KeyError where a line is none."""
    operations = []
    for line in filter(str.strip, lines):
        member = json.loads(line)
        kind = 'put' if 'put' in member else 'read'
        operations.append(Operation(member['key'], kind == 'put', member[kind], member['call'], member.get('reply')))
    return operations


def events_of(operations):
    """What is to be looked at, in order of time. Operations of one moment are beside each other.

    A put without a reply that no read gave may be left out: without it all reads are the same. So it may be from the last reply of a read that gave its
    value on. A read without a reply says nothing."""
    given = {}
    for operation in operations:
        if not operation.is_put and operation.reply is not None:
            given[operation.value] = max(operation.reply, given.get(operation.value, operation.reply))
    events = []
    for number, operation in enumerate(operations):
        if operation.reply is not None:
            events += [(operation.call, CALL, number), (operation.reply, REPLY, number)]
        elif operation.is_put and operation.call <= given.get(operation.value, -1):
            events += [(operation.call, CALL, number), (given[operation.value], LEAVE, number)]
    return sorted(events)


def with_moment(number, pairs, under_way, operations):
    """The pairs that come of these where operations under way have their moments, one after the other, until this one has had it."""
    seen, waiting, found = set(pairs), list(pairs), set()
    while waiting:
        had, value = waiting.pop()
        if number in had:
            found.add((had, value))
            continue
        for other in under_way - had:
            operation = operations[other]
            if operation.is_put or operation.value == value:
                pair = had | {other}, operation.value
                if pair not in seen:
                    seen.add(pair)
                    waiting.append(pair)
    return found


def first_misfit(operations, end):
    """The first operation on a register that has no moment, in order of replies, and the values that the register may have had; or None."""
    under_way, pairs = set(), {(frozenset(), None)}
    for _, kind, number in events_of(operations):
        if time.monotonic() > end:
            raise TooLong
        if kind == CALL:
            under_way.add(number)
            continue
        found = with_moment(number, pairs, under_way, operations) if kind == REPLY else pairs
        if not found:
            return operations[number], {value for _, value in pairs}
        pairs = {(had - {number}, value) for had, value in found}
        under_way.remove(number)
    return None


def fault_of(operations, seconds):
    """Why the operations are not linearizable, or None where they are. TooLong where that is not known after so many seconds."""
    end = time.monotonic() + seconds
    for key in sorted({operation.key for operation in operations}):
        misfit = first_misfit([operation for operation in operations if operation.key == key], end)
        if misfit:
            operation, values = misfit
            return '%s: %s %s, from %.3f to %.3f s, has no moment: it was %s' % (
                key, 'a put of' if operation.is_put else 'a read that gave', operation.value, operation.call, operation.reply,
                ' or '.join(sorted(map(str, values))))
    return None


# Histories of one register whose verdict is known: its words, whether it is linearizable, and its operations.
PUT, READ = True, False
KNOWN = (
    ('a read beside a put gives the value of before', True, ((PUT, 'one', 0, 4), (READ, None, 1, 2))),
    ('a read beside a put gives what is put', True, ((PUT, 'one', 0, 4), (READ, 'one', 1, 2))),
    ('a read behind a put gives the value of before', False, ((PUT, 'one', 0, 1), (READ, None, 2, 3))),
    ('of two reads beside a put the second gives the value of before', False, ((PUT, 'one', 0, 9), (READ, 'one', 1, 2), (READ, None, 3, 4))),
    ('a put without a reply has its moment late', True, ((PUT, 'one', 0, None), (PUT, 'two', 1, 2), (READ, 'two', 3, 4), (READ, 'one', 5, 6))),
    ('a put without a reply has its moment twice', False,
     ((PUT, 'one', 0, None), (READ, 'one', 1, 2), (PUT, 'two', 3, 4), (READ, 'two', 5, 6), (READ, 'one', 7, 8))),
    ('a read gives what nobody has put', False, ((PUT, 'one', 0, 1), (READ, 'two', 2, 3))),
    ('a read gives what is put behind it', False, ((READ, 'one', 0, 1), (PUT, 'one', 2, 3))),
    ('reads agree on the order of two puts', True, ((PUT, 'one', 0, 9), (PUT, 'two', 0, 9), (READ, 'two', 1, 2), (READ, 'one', 3, 4))),
    ('reads do not agree on the order of two puts', False,
     ((PUT, 'one', 0, 9), (PUT, 'two', 0, 9), (READ, 'two', 1, 2), (READ, 'one', 3, 4), (READ, 'two', 5, 6))),
    ('a put at an old leader is acknowledged, and is nowhere', False, ((PUT, 'one', 0, 1), (PUT, 'two', 2, 3), (PUT, 'one', 4, 5), (READ, 'two', 6, 7))),
    ('a put at an old leader has no reply', True, ((PUT, 'one', 0, 1), (PUT, 'two', 2, 3), (PUT, 'one', 4, None), (READ, 'two', 6, 7))),
    ('an old leader is read from', False, ((PUT, 'one', 0, 1), (PUT, 'two', 2, 3), (READ, 'one', 4, 5))),
)


def misjudged():
    """The words of the first history above that is judged otherwise, or None."""
    for words, is_linearizable, rows in KNOWN:
        if (fault_of([Operation('k', *row) for row in rows], 10) is None) != is_linearizable:
            return words
    return None
