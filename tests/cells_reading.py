"""The cells of a cluster by the other reading of the rules: its clients, its server and its sessions, with rings
between them; and the rows of cells of `crates/cluster_cases` over these.

The folder of the other reading has to be among those that Python imports from.
"""
import re
from collections import deque

from base import Entry
from client import Client
from machine import Code
from report import j_entry
from server import Server
from session import Session
from sim import Refusal, load

from journal_reading import Triggers

# how many places a ring has
PLACES = 64
# after so many rounds without an entry none comes any more
QUIET = 100
# the highest index of a thread
MOST_THREADS = 16


class Connection:
    """Both ends of a client's connection, with the ring up and the ring down."""

    def __init__(self, program, client):
        self.at_client, self.at_server = Session(False), Session(True)
        self.up, self.down = deque(), deque()
        self.triggers = Triggers(program, client)

    @staticmethod
    def give(session, ring):
        """Frames go to the ring while it has places."""
        while len(ring) < PLACES:
            frame = session.next_frame()
            if frame is None:
                return
            ring.append(frame)

    @staticmethod
    def take(session, ring):
        """What comes of one frame: None where there is none, or where it is dropped."""
        if not ring:
            return None
        answer = session.accept(ring.popleft())
        assert answer[0] != 'gap', answer
        return answer if answer[0] in ('up', 'rejoined') else None


class Cells:
    """All cells of a run."""

    def __init__(self, program, stage):
        self.code = Code(program)
        self.numbers = range(1, program.clients + 1)
        self.clients = {c: Client(self.code, c, program.resident, stage) for c in self.numbers}
        self.server = Server(self.code, program.clients)
        self.connections = {c: Connection(program, c) for c in self.numbers}
        self.logs = {node: [] for node in range(program.clients + 1)}
        self.next = 1

    def add(self, node, heard, taken, sent, event):
        log = self.logs[node]
        clock = max(log[-1].clock if log else 0, heard) + 1
        log.append(Entry(clock, node, taken, sent, event))
        for to, message in sent:
            link = self.connections[node or to]
            (link.at_client if node else link.at_server).send(message, clock)
        return True

    def client_turn(self, c, worker):
        """Whether the turn of client c's thread of this index, or with 0 of its pump, adds an entry."""
        if c not in self.clients:
            return False
        return self.act(c, worker) if worker else self.pump(c)

    def act(self, c, worker):
        client = self.clients[c]
        if worker not in client.threads or not client.enabled(worker):
            return False
        event, messages = client.act(worker)
        return self.add(c, 0, ('act', worker), [(0, m) for m in messages], event)

    def pump(self, c):
        client, link = self.clients[c], self.connections[c]
        answer = link.take(link.at_client, link.down)
        if answer is None:
            added = self.flush(c)
        elif answer[0] == 'rejoined':
            added = self.add(c, 0, ('rejoin', c), [], None)
        else:
            assert client.fits(answer[1]), (c, answer)
            added = self.add(c, answer[2], ('took', answer[1]), [(0, m) for m in client.take(answer[1])], None)
        link.give(link.at_client, link.up)
        return added

    def flush(self, c):
        if self.clients[c].table.victim() is None:
            return False
        gone = self.clients[c].flush()
        return self.add(c, 0, ('flush', gone), [(0, ('flushed', gone))], None)

    def server_turn(self):
        """Whether the server's turn adds an entry."""
        added = self.suffer() or self.listen()
        for link in self.connections.values():
            link.give(link.at_server, link.down)
        return added

    def suffer(self):
        """Makes the first trigger that is due, by rising client."""
        for c, link in self.connections.items():
            taken, lost = link.at_server.accepted, self.server.is_lost(c)
            if link.triggers.loss_due(taken, lost):
                return self.add(0, 0, ('lose', c), self.server.lose(c), None)
            if link.triggers.break_due(taken, lost, link.at_server.epoch):
                link.at_server.break_now()
                return self.add(0, 0, ('break', c), [], None)
        return False

    def listen(self):
        """Takes one frame from each client in turn, until one makes an entry."""
        order = [c for c in self.numbers if c >= self.next] + [c for c in self.numbers if c < self.next]
        for c in order:
            link = self.connections[c]
            answer = link.take(link.at_server, link.up)
            if answer is not None:
                self.next = c + 1
                return self.hear(c, answer)
        return False

    def hear(self, c, answer):
        if answer[0] == 'rejoined':
            return self.add(0, 0, ('rejoin', c), [], None)
        assert self.server.is_lost(c) or self.server.fits(c, answer[1]), (c, answer)
        _, messages = self.server.take(c, answer[1])
        return self.add(0, answer[2], ('took', c, answer[1]), messages, None)

    def round(self):
        count = 0
        for c in self.numbers:
            count += sum(self.client_turn(c, worker) for worker in range(MOST_THREADS + 1))
        return count + self.server_turn()

    def rounds(self, most):
        """How many entries so many rounds at most add, and whether none came at last."""
        entries = quiet = 0
        for _ in range(most):
            count = self.round()
            entries, quiet = entries + count, 0 if count else quiet + 1
            if quiet == QUIET:
                break
        return entries, quiet == QUIET

    def journal(self):
        return sorted((entry for log in self.logs.values() for entry in log), key=lambda e: (e.clock, e.node))


class Rows:
    """The lines of cells that `crates/cluster_cases` reads, answered by the other reading."""

    def __init__(self, stage):
        self.stage = stage
        self.program = self.config = ''
        self.cells = None

    def line(self, line):
        word, _, rest = line.partition(' ')
        if word == 'program':
            self.program, self.config = rest, ''
        elif word == 'config':
            self.config = rest
        elif word == 'cells':
            self.open()
            return [rest]
        else:
            return self.row(line)
        return []

    def open(self):
        try:
            self.cells = Cells(load(unescaped(self.config), unescaped(self.program), self.stage), self.stage)
        except Refusal:
            self.cells = None

    def row(self, line):
        name, colon, command = line.partition(': ')
        if not colon:
            return [line]
        answer = 'no cells' if self.cells is None else self.answer(command.split(' '))
        return (name + ': ' + answer).split('\n')

    def answer(self, words):
        cells, numbers = self.cells, [int(word) for word in words[1:]]
        if words[0] == 'client':
            return told(cells.client_turn(*numbers))
        if words[0] == 'server':
            return told(cells.server_turn())
        if words[0] == 'many':
            return str(sum(cells.client_turn(*numbers[:2]) for _ in range(numbers[2])))
        if words[0] == 'served':
            return str(sum(cells.server_turn() for _ in range(numbers[0])))
        if words[0] == 'turns':
            made = [(cells.client_turn(numbers[0], 0), cells.server_turn()) for _ in range(numbers[1])]
            return '%d of the pump, %d of the server' % (sum(a for a, _ in made), sum(b for _, b in made))
        if words[0] == 'rounds':
            entries, ended = cells.rounds(numbers[0])
            return '%d entries, %s, 0 spent' % (entries, 'ended' if ended else 'not ended')
        self.cells = None
        return '\n'.join(['%d entries' % len(cells.journal())] + [j_entry(entry) for entry in cells.journal()])


def told(added):
    return 'true' if added else 'false'


def unescaped(text):
    return re.sub('~(..)', lambda m: chr(int(m.group(1), 16)), text).encode('latin-1')


def escaped(text):
    """The text of these bytes as it is written in a row."""
    return ''.join(chr(b) if 32 <= b < 127 and chr(b) not in '~`' else '~%02x' % b for b in text)
