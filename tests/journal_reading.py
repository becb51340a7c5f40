"""Journals by the other reading of the rules: whether each entry may follow those before it, how a run ends that has
this journal, and what is printed of it.

The folder of the other reading has to be among those that Python imports from.
"""
import re
import types
from collections import deque

from base import Entry, weight_of
from client import Client
from machine import Code
from plain import committed, replay
from report import j_entry, report
from server import Server
from sim import check_follows, load

# the head of an entry's line: its clock, its node, what it did, and the first word of what that was done to
HEAD = re.compile(r'(\d{1,18}) (s|c\d{1,3}) (act|took|flush|lose|break|rejoin) ([^ ]+)')
FINISHED, BUDGET, STUCK, OPEN = 'finished', 'budget', 'stuck', 'open'


class Triggers:
    """What is due of a client: its loss, or a break of its connection."""

    def __init__(self, program, client):
        self.losses = [after for c, after in program.losses if c == client]
        self.breaks = [after for c, after in program.breaks if c == client]

    def loss_due(self, taken, lost):
        return not lost and any(after <= taken for after in self.losses)

    def break_due(self, taken, lost, broken):
        if lost or self.loss_due(taken, lost):
            return False
        return sum(after <= taken for after in self.breaks) > broken


class Unlawful(Exception):
    """An entry that may not follow those before it."""


class Judge:
    """Whether each line of a journal may follow those before it: each entry is made again by its node from what it
    took in, and has to be what it was."""

    def __init__(self, program, stage):
        code = Code(program)
        self.program, self.code = program, code
        self.numbers = range(1, program.clients + 1)
        self.clients = {c: Client(code, c, program.resident, stage) for c in self.numbers}
        self.server = Server(code, program.clients)
        self.triggers = {c: Triggers(program, c) for c in self.numbers}
        self.up, self.down = ({c: deque() for c in self.numbers} for _ in range(2))
        self.clocks = [0] * (program.clients + 1)
        self.taken, self.broken, self.own_rejoins, self.rejoins = (dict.fromkeys(self.numbers, 0) for _ in range(4))
        self.apart = set()      # the clients whose connection is broken
        self.entries, self.weight = [], 0

    def demand(self, may, why):
        if not may:
            raise Unlawful(why)

    def line(self, line):
        node, kind, what = self.head(line)
        try:
            made = getattr(self, ('client_' if node else 'server_') + kind)(node, what)
        except AssertionError as why:
            raise Unlawful('its node can do no such thing: %s' % why) from None
        heard, taken, sent, event = made
        now = max(self.clocks[node], heard) + 1
        self.clocks[node] = now
        for to, message in sent:
            (self.up[node] if node else self.down[to]).append((message, now))
        entry = Entry(now, node, taken, sent, event)
        self.entries.append(entry)
        self.weight += 1 + weight_of(sent)
        wanted = j_entry(entry)
        self.demand(line == wanted, 'it should be %s' % wanted)

    def head(self, line):
        """(node, what it did, to what) of a line."""
        found = HEAD.match(line)
        self.demand(found, 'it is no entry')
        node = 0 if found.group(2) == 's' else int(found.group(2)[1:])
        self.demand(node == 0 or node in self.clients, 'there is no such client')
        does = ('client_' if node else 'server_') + found.group(3)
        self.demand(hasattr(self, does), 'such a node does no such thing')
        return node, found.group(3), found.group(4)

    def client_of(self, name):
        """The client of a word with its number."""
        found = re.fullmatch(r'c?(\d{1,3})', name)
        self.demand(found and int(found.group(1)) in self.clients, 'there is no such client')
        return int(found.group(1))

    def client_act(self, c, thread):
        found = re.fullmatch(r'(\d{1,3})\.(\d{1,3})', thread)
        self.demand(found, 'there is no such thread')
        index = int(found.group(2))
        self.demand(index in self.clients[c].threads and self.clients[c].enabled(index), 'the thread has no act')
        event, messages = self.clients[c].act(index)
        return 0, ('act', index), [(0, m) for m in messages], event

    def client_took(self, c, _):
        self.demand(self.down[c], 'no message is on the way')
        message, heard = self.down[c].popleft()
        self.demand(self.clients[c].fits(message), 'the message does not fit')
        return heard, ('took', message), [(0, m) for m in self.clients[c].take(message)], None

    def client_flush(self, c, _):
        self.demand(self.clients[c].table.victim() is not None, 'nothing is to be flushed')
        gone = self.clients[c].flush()
        return 0, ('flush', gone), [(0, ('flushed', gone))], None

    def client_rejoin(self, c, _):
        self.own_rejoins[c] += 1
        return 0, ('rejoin', c), [], None

    def due(self, c):
        lost = self.server.is_lost(c)
        triggers = self.triggers[c]
        return triggers.loss_due(self.taken[c], lost), triggers.break_due(self.taken[c], lost, self.broken[c])

    def server_took(self, _, name):
        c = self.client_of(name)
        self.demand(self.up[c], 'no message is on the way')
        self.demand(not any(self.due(c)), 'a loss or a break is due')
        self.demand(c not in self.apart, 'the connection is broken')
        message, heard = self.up[c].popleft()
        self.demand(self.server.is_lost(c) or self.server.fits(c, message), 'the message does not fit')
        self.taken[c] += 1
        _, messages = self.server.take(c, message)
        return heard, ('took', c, message), messages, None

    def server_lose(self, _, name):
        c = self.client_of(name)
        self.demand(self.due(c)[0], 'no loss is due')
        return 0, ('lose', c), self.server.lose(c), None

    def server_break(self, _, name):
        c = self.client_of(name)
        self.demand(self.due(c)[1], 'no break is due')
        self.broken[c] += 1
        self.apart.add(c)
        return 0, ('break', c), [], None

    def server_rejoin(self, _, name):
        c = self.client_of(name)
        self.demand(c in self.apart, 'the connection is not broken')
        self.rejoins[c] += 1
        self.apart.discard(c)
        return 0, ('rejoin', c), [], None

    def end(self):
        for c in self.numbers:
            self.demand(self.own_rejoins[c] <= self.broken[c] and self.rejoins[c] <= self.own_rejoins[c],
                        'client %d has %d rejoins, and the server %d breaks and %d rejoins'
                        % (c, self.own_rejoins[c], self.broken[c], self.rejoins[c]))

    def kept(self):
        return [c for c in self.numbers if not self.server.is_lost(c)]

    def is_finished(self):
        """Whether every thread of a client that is not lost has ended, nothing is on the way, and nothing is due."""
        kept = self.kept()
        return (not any(any(self.due(c)) for c in self.numbers)
                and not any(self.up[c] or self.down[c] for c in kept)
                and all(t.machine.over for c in kept for t in self.clients[c].threads.values()))

    def is_open(self, c):
        """Whether client c, or the server with it, could take a step."""
        client, due = self.clients[c], any(self.due(c))
        if due or client.table.victim() is not None or any(client.enabled(index) for index in client.threads):
            return True
        if c in self.apart:
            # the client has to hear of the break first, and then the server of the client
            return True
        return bool(self.up[c] or self.down[c])

    def way(self, steps):
        """How a run with this journal ends, where it may weigh so much."""
        if self.is_finished():
            return FINISHED
        if self.weight >= steps:
            return BUDGET
        return OPEN if any(self.is_open(c) for c in self.numbers) else STUCK

    def history(self, way):
        """The last plain state of the history that the journal commits, which has to be legal."""
        try:
            history = committed(self.entries)
            plain = replay(self.program.shape, history)
            world = types.SimpleNamespace(server=self.server)
            check_follows(self.code, types.SimpleNamespace(history=history, entries=self.entries, end=way,
                                                           program=self.program, world=world))
        except AssertionError as why:
            raise Unlawful('the history is not legal: %s' % why) from None
        return plain

    def is_faulty(self, plain):
        """Whether a thread of a client that is not lost ended by a fault."""
        return any(plain.ended.get(thread) for thread in self.program.threads if thread[0] in self.kept())


class Reading:
    """What is read off a lawful journal: how its run ends and with which status, and what is printed."""

    def __init__(self, judge, steps):
        self.way = judge.way(steps)
        plain = judge.history(self.way)
        self.report = report(judge.program, plain)
        self.status = {FINISHED: 9 if judge.is_faulty(plain) else 0, BUDGET: 7, STUCK: 6, OPEN: None}[self.way]
        self.weight = judge.weight


def lawful(config, program, lines, stage, merged=False):
    """The judge of a journal of these texts after its last line, or Unlawful with the number of the line. Where it is
    merged, the lines are by clock and then by node, the server first."""
    judge = Judge(load(config, program, stage), stage)
    for number, line in enumerate(lines, 1):
        try:
            judge.line(line)
            if merged and number > 1:
                before, last = judge.entries[-2:]
                judge.demand((before.clock, before.node) < (last.clock, last.node), 'it stands behind a later entry')
        except Unlawful as why:
            raise Unlawful('line %d: %s' % (number, why)) from None
    judge.end()
    return judge


def judged(config, program, lines, stage):
    """(None or what is wrong, whether the run is finished) of a journal of these texts."""
    try:
        return None, lawful(config, program, lines, stage).is_finished()
    except Unlawful as why:
        return str(why), False
