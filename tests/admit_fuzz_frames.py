"""Makes cases for `admit_fuzz`, each from a seed: what up to four clients send a fresh server, lawful or not.

A case keeps a server and its ends of the connections by the other reading of the rules, so that it knows which frame
is lawful next. Most frames of most cases are; the others are lawful ones that were changed, or bytes of no sense.
"""
import random

CLIENTS = (1, 2, 3, 4)
THREADS = tuple((client, index) for client in CLIENTS for index in (1, 2))
# how often a frame isn't lawful, by case
SHARES = (0, 0.05, 0.1, 0.2, 0.4, 0.7, 1)
# how many frames a case has at most
MOST_FRAMES = 40
BYTES = (0, 1, 2, 3, 4, 5, 6, 7, 12, 13, 15, 16, 17, 127, 128, 255)
BOUNDS = {4: (0, 1, 2, 3, 255, 256, 2**31, 2**32 - 1),
          8: (0, 1, 2, 255, 256, 257, 512, 513, 2**32 - 1, 2**32, 2**54, 2**63 - 1, 2**63, 2**64 - 2, 2**64 - 1)}
LONGS = (0, 1, -1, 7, 2**31, 2**63 - 1, -2**63)
SEQ, THREAD, NEWS, SETS, OUTS, NOTES, ENDING = range(7)


class Reading:
    """The parts of the other reading of the rules."""

    def __init__(self):
        import admit, base, parts, server, session, wire
        self.admit, self.base, self.parts = admit, base, parts
        self.server, self.session, self.wire = server, session, wire

    def new_server(self):
        """The server of the code in crates/server_cases/src/code.rt."""
        shape = self.base.Shape([[('long', None), ('ref', 1)]], roots=1, names=2, texts=1)
        return self.server.Server(Code(shape), len(CLIENTS))


class Code:
    def __init__(self, shape):
        self.shape, self.program, self.threads = shape, self, THREADS


class Case:
    """A server with its ends of the connections of four clients, and what was sent so far."""

    def __init__(self, reading, seed):
        self.reading, self.random = reading, random.Random(seed)
        self.server = reading.new_server()
        self.ends = {client: reading.session.Session(True) for client in CLIENTS}
        self.clients = CLIENTS[:self.random.choice((1, 2, 2, 3, 4, 4))]
        self.share = self.random.choice(SHARES)
        self.length = self.random.randint(1, MOST_FRAMES)
        self.clock = 1
        self.earlier = []

    def chance(self, share):
        return self.random.random() < share

    def pick(self, things):
        return self.random.choice(things)

    def near(self, number, size=8):
        """Another number, often one close by or one at a bound, that has room in so many bytes."""
        ways = (number + 1, number - 1, number + 2, number ^ 1 << self.random.randrange(8 * size),
                self.pick(BOUNDS[size]), self.random.randrange(600), self.random.getrandbits(8 * size))
        return self.pick(ways) % (1 << 8 * size)

    # what happens next: the client, and ('break',), ('posts', first id) or ('bytes', bytes)

    def steps(self):
        """What happens, one after the other; whoever asks for the next does this one first."""
        left = self.length
        if left > 10 and self.chance(0.5):
            client = self.pick(self.clients)
            for message in Sender(self, client).opening():
                yield client, ('bytes', self.encoded(self.carried(client, message)))
                left -= 1
        while left > 0:
            client = self.next_client()
            end = self.ends[client]
            if self.chance(0.03) or (not end.ready and self.chance(0.05)):
                yield client, ('break',)
            if self.chance(0.1):
                yield client, ('posts', self.random.choice((1, 257, 2**64 - 1)))
            yield client, ('bytes', self.next_bytes(client))
            left -= 1
            if all(map(self.server.is_lost, self.clients)):
                left = min(left, 2)

    def next_client(self):
        going = [client for client in self.clients if not self.server.is_lost(client)]
        return self.pick(going) if going and self.chance(0.97) else self.pick(self.clients)

    def next_bytes(self, client):
        data = self.unlawful(client) if self.chance(self.share) else self.encoded(self.frame(client))
        self.earlier.append(data)
        return data

    def encoded(self, frame):
        return self.reading.wire.encode_up(frame)

    # frames

    def frame(self, client):
        """A lawful frame of the client."""
        end = self.ends[client]
        if end.ready:
            return self.carried(client)
        return 'hello', end.epoch, self.random.randint(end.peer_seen, max(end.peer_seen, end.sent)), self.next_clock()

    def carried(self, client, message=None):
        """The next frame with this message or one that fits, which is lawful where the client's Hello isn't due."""
        end = self.ends[client]
        seen, message = self.random.randint(0, end.sent), message or Sender(self, client).message()
        return 'carry', end.epoch, end.accepted + 1, seen, self.next_clock(), message

    def next_clock(self):
        self.clock += self.random.randint(1, 3)
        return self.clock if self.chance(0.9) else self.pick(BOUNDS[8])

    def unlawful(self, client):
        """Bytes that are mostly unlawful, of one change or two."""
        way = self.random.random()
        frame = self.frame(client)
        if frame[0] == 'hello' and self.chance(0.3):
            return self.encoded(self.carried(client))
        if way < 0.2:
            return self.encoded(self.with_other_head(frame, client))
        if way < 0.6 and frame[0] == 'carry':
            return self.encoded(frame[:5] + (Changer(self, client).message(frame[5]),))
        if way < 0.88:
            data = self.encoded(frame)
            for _ in range(self.pick((1, 1, 1, 2, 3))):
                data = self.with_other_bytes(data)
            return data
        if way < 0.95 and self.earlier:
            return self.pick(self.earlier)
        head = self.encoded(frame)[:self.pick((0, 0, 1, 29, 30))]
        return head + self.random.randbytes(self.random.choice((0, 1, 4, 16, 40, 120)))

    def with_other_head(self, frame, client):
        """The frame with another epoch, number, seen or clock, or as a Hello."""
        end = self.ends[client]
        if self.chance(0.2):
            frame = ('hello', frame[1], frame[-2] if frame[0] == 'hello' else frame[3], self.clock)
            if self.chance(0.5):
                return frame
        frame, at = list(frame), self.random.randrange(1, 4 if frame[0] == 'hello' else 5)
        near = (end.accepted, end.accepted + 2, end.sent, end.sent + 1, end.peer_seen - 1)
        if at > 1 and self.chance(0.3):
            frame[at] = self.pick(near) % 2**64
        else:
            frame[at] = self.near(frame[at], 4 if at == 1 else 8)
        return tuple(frame)

    def with_other_bytes(self, data):
        """The bytes with a bit turned, some replaced, cut, added, doubled or moved, or with a number at its bound."""
        at = self.random.randrange(len(data) + 1)
        upto = min(len(data), at + self.pick((1, 1, 2, 4, 8, 9, 30)))
        way = self.random.randrange(9)
        if way == 0 and at < len(data):
            return data[:at] + bytes([data[at] ^ 1 << self.random.randrange(8)]) + data[at + 1:]
        if way == 1:
            return data[:at] + bytes([self.pick(BYTES)]) + data[at + 1:]
        if way == 2:
            return data[:at] if self.chance(0.5) else data[:-self.pick((1, 2, 2, 4, 8, 9))]
        if way == 3:
            return data[:at] + data[upto:]
        if way == 4:
            return data[:at] + self.random.randbytes(self.pick((1, 1, 2, 4, 8))) + data[at:]
        if way == 5:
            return data[:upto] + data[at:]
        if way == 6:
            return data[upto:] + data[:at] if self.chance(0.2) else data[:at] + data[upto:] + data[at:upto]
        if way == 7 and self.earlier:
            return data[:at] + self.pick(self.earlier)[at:]
        size = self.pick((4, 8))
        return data[:at] + self.pick(BOUNDS[size]).to_bytes(size, 'big') + data[at + size:]


class Drawn:
    """Parts of messages that are drawn without regard to what fits, a few out of the range that their bytes have."""

    def __init__(self, case):
        self.case, self.random, self.pick, self.chance = case, case.random, case.pick, case.chance

    def object(self):
        given = self.case.server.ids.next
        known = list(self.case.server.store.bodies)
        return self.pick((self.pick(known), self.random.randrange(given + 1), given - 1, given, 0, 257,
                          self.pick(BOUNDS[8])))

    def lock(self):
        if self.chance(0.4):
            return 1, self.pick((0, 1, 1, 2, 2**32 - 1))
        held = sorted(self.case.server.locks.leases)
        return self.pick(held) if held and self.chance(0.5) else (0, self.object())

    def thread(self):
        return self.pick(THREADS) if self.chance(0.7) else (self.random.randint(0, 17), self.random.randint(0, 17))

    def value(self):
        return self.pick((('n',), ('l', self.pick(LONGS)), ('b', self.chance(0.5)), ('r', self.object()),
                          ('t', self.pick((0, 0, 1, 2**32 - 1)))))

    def class_of(self):
        kind = self.pick(self.case.reading.base.KINDS)
        return self.pick((('k', 0), ('k', 0), ('k', self.pick((1, 2**32 - 1))), ('a', kind), ('roots',)))

    def body(self):
        values = [self.value() for _ in range(self.pick((0, 1, 2, 2, 3)))]
        return self.object(), self.class_of(), values * self.pick((1, 1, 1, 1, 128))

    def set(self):
        return self.object(), self.pick((0, 0, 1, 2, 255, 256, 2**32 - 1)), self.value()

    def note(self):
        return self.lock(), self.pick((('here', self.thread()), ('there',), ('all',)))

    def ending(self):
        if self.chance(0.3):
            return 'end', self.random.randint(0, 13)
        return self.pick(('exit', 'wait', 'timeout')), self.lock()

    def listed(self, item):
        return [item() for _ in range(self.pick((0, 0, 0, 1, 1, 2)))]

    def record(self):
        lists = map(self.listed, (self.body, self.set, self.value, self.note))
        return self.case.reading.base.Txn(self.random.randrange(4), self.thread(), *lists, self.ending())

    def message(self):
        return self.pick((lambda: ('idask',), lambda: ('fault', self.object()), lambda: ('flushed', self.object()),
                          lambda: ('request', self.lock(), self.random.randrange(2)),
                          lambda: ('return', self.lock(), self.listed(self.thread)),
                          lambda: ('commit', self.record())))()


class Changer(Drawn):
    """Changes one part of a client's message."""

    def __init__(self, case, client):
        super().__init__(case)
        self.client = client

    def message(self, message):
        if self.chance(0.1):
            return Drawn.message(self)
        kind, rest = message[0], list(message[1:])
        if kind in ('fault', 'flushed'):
            return kind, self.number(rest[0])
        if kind == 'request':
            return (kind, rest[0], 1 - rest[1]) if self.chance(0.3) else (kind, self.other_lock(rest[0]), rest[1])
        if kind == 'return':
            if self.chance(0.4):
                return kind, self.other_lock(rest[0]), rest[1]
            return kind, rest[0], self.items(rest[1], self.thread, lambda _: self.thread())
        if kind == 'commit':
            return kind, self.changed_record(rest[0])
        return Drawn.message(self)

    def number(self, number):
        return self.object() if self.chance(0.6) else self.case.near(number)

    def other_lock(self, lock):
        if self.chance(0.6):
            return self.lock()
        return lock[0], self.case.near(lock[1], 8 if lock[0] == 0 else 4)

    def changed_record(self, record):
        parts = list(record)
        full = [at for at in (NEWS, NEWS, SETS, SETS, SETS, OUTS, NOTES) if parts[at]]
        at = self.pick(full if full and self.chance(0.7) else range(len(parts)))
        if at == SEQ:
            parts[SEQ] = self.case.near(parts[SEQ])
        elif at == THREAD:
            parts[THREAD] = self.thread()
        elif at == ENDING:
            parts[ENDING] = self.ending()
        elif at == SETS and self.chance(0.3):
            parts[SETS] = self.lone_set()
        elif at == NEWS and self.chance(0.3):
            parts[NEWS], parts[SETS] = self.lone_body(), []
        else:
            new, other = {NEWS: (self.body, self.other_body), SETS: (self.set, self.other_set),
                          OUTS: (self.value, lambda _: self.value()), NOTES: (self.note, self.other_note)}[at]
            parts[at] = self.items(parts[at], new, other)
        return self.case.reading.base.Txn(*parts)

    def items(self, items, new, other):
        """The items with one added, dropped, doubled, moved or changed."""
        items, way = list(items), self.random.randrange(6)
        at = self.random.randrange(len(items)) if items else 0
        if way == 0 or not items:
            items.insert(self.random.randint(0, len(items)), new())
        elif way == 1:
            del items[at]
        elif way == 2:
            items.insert(at, items[at])
        elif way == 3:
            items.append(items.pop(at))
        else:
            items[at] = other(items[at])
        return items

    def other_body(self, body):
        number, cls, values = body
        way = self.random.randrange(7)
        if way == 0:
            return self.number(number), cls, values
        if way == 1:
            return self.given_to_another(number), cls, values
        if way == 2:
            return number, self.class_of(), values
        if way == 3:
            return number, cls, (values * 257)[:self.pick((1, 3, 256, 257))]
        if way == 4:
            return number, *self.array_at_its_bound()
        kinds = self.kinds(cls, len(values))
        if way == 5 and kinds:
            at = self.random.randrange(len(values))
            return number, cls, [*values[:at], self.almost(kinds[at]), *values[at + 1:]]
        return number, cls, self.items(values, self.value, lambda _: self.value())

    def given_to_another(self, number):
        """An id that was given to another client than this one, where there is such a one."""
        firsts = [first for batches in self.case.server.ids_of.values() for first in batches
                  if not first <= number < first + 256]
        return self.pick(firsts) + self.random.randrange(256) if firsts else number

    def array_at_its_bound(self):
        """An array of the greatest size, or one more, whose values fit; or one of a single text, often no literal."""
        if self.chance(0.3):
            return ('a', 'text'), [self.almost('text')]
        kind = self.pick(self.case.reading.base.KINDS)
        return ('a', kind), [self.case.reading.base.opening(kind)] * self.pick((256, 257, 257))

    def kinds(self, cls, size):
        """The kinds of the fields of an object, where it has the class and so many values."""
        shape = self.case.server.shape
        return [shape.kind(cls, field) for field in range(size)] if shape.class_ok(cls, size) else []

    def almost(self, kind):
        """A value that a field of this kind just has, or just hasn't."""
        if kind == 'text':
            return 't', self.pick((0, 1, 1, 2**32 - 1))
        if kind == 'ref':
            return 'r', self.pick((0, self.object()))
        return self.value()

    def other_set(self, it):
        number, field, value = it
        way = self.random.randrange(4)
        if way == 0:
            return self.number(number), field, value
        if way == 1:
            return number, self.case.near(field, 4), value
        body = self.case.server.store.bodies.get(number)
        kinds = self.kinds(body[0], len(body[1])) if body else []
        if way == 2 and field < len(kinds):
            return number, field, self.almost(kinds[field])
        return number, field, self.value()

    def lone_set(self):
        """A set of an object that isn't held, or without its guard, and fitting otherwise; none where there is none."""
        sender, shape = Sender(self.case, self.client), self.case.server.shape
        bodies, held, locks = self.case.server.store.bodies, sender.held(), sender.at_write()
        unheld, unguarded = [], []
        for o, (cls, values) in bodies.items():
            for f in range(min(len(values), 4)):
                is_guarded = shape.guard(cls, o, f) in locks
                if (o in held) != is_guarded:
                    (unheld if is_guarded else unguarded).append((o, f, shape.kind(cls, f)))
        fields = (unheld or unguarded) if self.chance(0.5) else (unguarded or unheld)
        if not fields:
            return []
        number, field, kind = self.pick(fields)
        return [(number, field, sender.value(kind, [o for o in bodies if o > 0]))]

    def lone_body(self):
        """A new object of an id of another client, or at the bound of what an array has; none where there is no id."""
        server = self.case.server
        own = server.ids_of.get(self.client, ())
        ids = [first + at for first in own for at in (7, 100, 254) if first + at not in server.store.bodies]
        others = [first + 254 for batches in server.ids_of.values() for first in batches if first not in own]
        if others and self.chance(0.4):
            return [(self.pick(others), ('k', 0), [('l', 1), ('n',)])]
        return [(self.pick(ids), *self.array_at_its_bound())] if ids else []

    def other_note(self, note):
        return (self.lock(), note[1]) if self.chance(0.5) else (note[0], self.note()[1])


class Sender:
    """Makes messages that fit, from what the server holds."""

    def __init__(self, case, client):
        self.case, self.client, self.server = case, client, case.server
        self.random, self.pick, self.chance = case.random, case.pick, case.chance

    def opening(self):
        """Messages of a server's first client, which may then set fields of the roots and of an object of its own."""
        base = self.case.reading.base
        yield ('idask',)
        for lock in ((1, 0), (1, 1)):
            yield 'request', lock, base.WRITE
        yield 'fault', 0
        first = self.server.ids_of[self.client][0]
        news, sets = [(first, ('k', 0), [('l', 7), ('n',)])], [(0, 0, ('r', first))]
        yield 'commit', base.Txn(1, (self.client, 1), news, sets, [], [], ('exit', (1, 0)))
        yield 'request', (0, first), base.WRITE

    def message(self):
        """A message that fits."""
        ways = [self.ids, self.object, self.flush, self.lease, self.lease, self.give_back] + 6 * [self.record]
        if any(lock in self.server.locks.queue for lock, _ in self.leases()):
            ways += 5 * [self.give_back]
        if self.to_be_set():
            ways += 4 * [self.object]
        return self.pick(ways)() or self.object() or self.lease() or ('idask',)

    def ids(self):
        few = len(self.server.ids_of.get(self.client, ())) < 2
        return ('idask',) if few or self.chance(0.1) else None

    def not_held(self):
        return [o for o in self.server.store.bodies if not self.server.store.holds(self.client, o)]

    def to_be_set(self):
        """The objects that the client has a lock to set a field of, but doesn't hold."""
        locks = self.at_write()
        return [o for o in self.not_held() if (0, o) in locks or (1, 1 if o else 0) in locks]

    def object(self):
        there = self.to_be_set() or self.not_held()
        return ('fault', self.pick(there)) if there else None

    def held(self):
        return sorted(self.server.store.held.get(self.client, ()))

    def flush(self):
        held = self.held()
        return ('flushed', self.pick(held)) if held and self.chance(0.4) else None

    def leases(self):
        """The locks that the client has, with their levels."""
        locks = self.server.locks.leases
        return [(lock, locks[lock][self.client][0]) for lock in sorted(locks) if self.client in locks[lock]]

    def at_write(self):
        return [lock for lock, level in self.leases() if level == self.case.reading.base.WRITE]

    def lease(self):
        last, table = self.server.ids.next - 1, self.server.locks
        monitors = [o for o in self.server.store.bodies if o > 0][:2] + ([self.pick((1, last))] if last else [])
        locks = [(1, 0), (1, 1)] + [(0, o) for o in monitors]
        free = [it for it in locks if table.lease(self.client, it) is None and not table.waits(self.client, it)]
        return ('request', self.pick(free), self.pick((0, 1, 1))) if free else None

    def give_back(self):
        leases = self.leases()
        if not leases:
            return None
        wanted = [it for it in leases if it[0] in self.server.locks.queue]
        lock, level = self.pick(wanted or leases)
        waiting = []
        if level == self.case.reading.base.WRITE and self.chance(0.6):
            there = self.server.waiters[lock].all() if lock in self.server.waiters else []
            own = [it for it in THREADS if it[0] == self.client and it not in there]
            waiting = self.random.sample(own, self.random.randint(0, len(own)))
        return 'return', lock, waiting

    # records

    def record(self):
        threads = [it for it in THREADS if it[0] == self.client and it not in self.server.ended]
        if not threads:
            return None
        thread = self.pick(threads)
        news = self.news()
        named = [o for o in self.server.store.bodies if o > 0] + [body[0] for body in news]
        news = [(o, cls, [self.value(kind, named) for kind in kinds]) for o, cls, kinds in news]
        seq = self.server.store.last.get(self.client, 0) + 1
        outs = [self.printed() for _ in range(self.pick((0, 0, 1, 3)))]
        made = self.case.reading.base.Txn(seq, thread, news, self.sets(named), outs, self.notes(), self.ending(thread))
        return 'commit', made

    def news(self):
        """New objects, each with its class and the kinds of its fields."""
        free = [o for first in self.server.ids_of.get(self.client, ()) for o in (*range(first, first + 6), first + 255)
                if o not in self.server.store.bodies]
        chosen = sorted(self.random.sample(free, min(len(free), self.pick((0, 0, 1, 1, 2, 3)))))
        return [(o, *self.new_class()) for o in chosen]

    def new_class(self):
        if self.chance(0.6):
            return ('k', 0), ('long', 'ref')
        kind = self.pick(self.case.reading.base.KINDS)
        size = self.pick((0, 1, 2, 3)) if self.chance(0.97) else self.pick((255, 256))
        return ('a', kind), (kind,) * size

    def value(self, kind, named):
        if kind == 'long':
            return 'l', self.pick(LONGS)
        if kind == 'boolean':
            return 'b', self.chance(0.5)
        if self.chance(0.3):
            return ('n',)
        if kind == 'text':
            return 't', 0
        return ('r', self.pick(named)) if named else ('n',)

    def sets(self, named):
        shape, locks = self.server.shape, set(self.at_write())
        fields = []
        for o in self.held():
            cls, values = self.server.store.bodies[o]
            few = range(min(len(values), 4))
            fields += [(o, f, shape.kind(cls, f)) for f in few if shape.guard(cls, o, f) in locks]
        chosen = sorted(self.random.sample(fields, min(len(fields), self.pick((0, 1, 1, 2, 4)))))
        return [(o, f, self.value(kind, named)) for o, f, kind in chosen]

    def printed(self):
        last = self.server.ids.next - 1
        given = ('r', self.random.randint(1, last)) if last else ('n',)
        return self.pick((('n',), ('l', self.pick(LONGS)), ('b', True), ('t', 0), given))

    def notes(self):
        locks = self.at_write()
        if not locks or self.chance(0.6):
            return []
        own = [it for it in THREADS if it[0] == self.client]
        waited = [lock for lock in locks if lock in self.server.waiters and self.server.waiters[lock].all()]
        return [(self.pick(waited or locks), self.pick((('here', self.pick(own)), ('there',), ('all',))))
                for _ in range(self.pick((1, 1, 2)))]

    def ending(self, thread):
        last = self.server.last_ending.get(thread)
        if last and last[0] == 'wait' and self.chance(0.5):
            return 'timeout', last[1]
        locks, leases = self.at_write(), self.leases()
        if locks and self.chance(0.4):
            return 'wait', self.pick(locks)
        if leases and self.chance(0.9):
            return 'exit', self.pick(leases)[0]
        return 'end', self.random.randint(0, 12)
