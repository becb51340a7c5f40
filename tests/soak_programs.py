"""Makes configurations and programs for `soak`, each from the seed of the generator and its own number.

Most of them run to their end: locks are taken in one order, takes match puts, and who waits without a limit is
notified. A few do what they shouldn't: fault, stall, run out of steps, or are no program at all.
"""
import random

HEAD = '''class Cell {
  long v; boolean flag; text note; ref link; long hits;
  synchronized add(k) { this.v = this.v + k; %(in_add)s }
  synchronized get() { return this.v; }
  synchronized look() { %(in_look)s return this.v; }
  synchronized mark(t) { this.note = t; this.flag = !this.flag; }
  synchronized push(k) { var n = new Cell(); n.v = k; n.link = this.link; this.link = n; }
  synchronized pop() { var n = this.link; if (n != null) { this.link = n.next(); } return n; }
  synchronized next() { return this.link; }
  synchronized swap(o) { var old = this.link; this.link = o; return old; }
  synchronized nap(n) { wait(this, n); this.v = this.v + 1; }
  synchronized ping() { notify(this); }
  synchronized pingAll() { notifyAll(this); }
  peek() { return this.v; }
  hit() { this.hits = this.hits + 1; }
  hitTwice() { this.hit(); this.add(1); this.hit(); }
  sum(most) {
    var s = 0; var i = 0; var p = this.next();
    while (p != null && i < most) { s = s + p.get(); p = p.next(); i = i + 1; }
    return s;
  }
  down(n) { if (n <= 0) { return this.get(); } return this.down(n - 1) + 1; }
}
class Box {
  boolean full; long v;
  synchronized put(x) { while (this.full) { %(wait)s } this.v = x; this.full = true; %(wake)s }
  synchronized take() { while (!this.full) { %(wait)s } this.full = false; %(wake)s return this.v; }
}
class Gate {
  long arrived; long round;
  synchronized pass(n) {
    var r = this.round; this.arrived = this.arrived + 1;
    if (this.arrived == n) { this.arrived = 0; this.round = r + 1; notifyAll(this); }
    else { while (this.round == r) { wait(this); } }
  }
}
'''

TEXTS = ['"a"', '"two words"', '""', '"say \\"so\\""', '"back\\\\slash"']
LEVELS = ['read', 'write', 'synchronous-write']
WRITES = ['write', 'write', 'synchronous-write']


class Maker:
    """One program with its configuration."""

    def __init__(self, seed, number):
        self.random = random.Random('%d/%d' % (seed, number))
        self.clients = self.random.choice([1, 2, 2, 2, 3, 3, 4]) if self.chance(0.96) else self.random.randint(5, 16)
        self.cells = self.random.randint(1, 3)
        self.arrays = self.random.randint(0, 1)
        self.boxes = self.random.randint(0, 2)
        self.threads = [self.random.randint(1, self.clients)
                        for _ in range(self.random.randint(1, self.clients + 2))]
        self.gates = 1 if len(self.threads) > 1 and self.chance(0.25) else 0
        self.names = self.chance(0.5)
        self.faulty = self.chance(0.1)
        self.steps = [20000] * 12 + [self.random.randint(1, 400)]

    def chance(self, share):
        return self.random.random() < share

    def pick(self, things):
        return self.random.choice(things)

    # the configuration

    def entry(self, section, **keys):
        lines = ['[[%s]]' % section]
        lines += ['%s = %s' % (k.rstrip('_'), v if isinstance(v, int) else '"%s"' % v)
                  for k, v in keys.items()]
        return '\n'.join(lines) + '\n'

    def config(self):
        out = []
        if self.clients > 1 or self.chance(0.3):
            out.append('clients = %d\n' % self.clients)
        if self.chance(0.3):
            out.append('resident = %d\n' % self.pick([1, 1, 2, 3, 5, 8, 100]))
        if self.chance(0.2):
            out += [self.entry('root', field='Main.' + r) for r in self.roots()]
        out += self.locks()
        out += self.troubles()
        return ''.join(out)

    def locks(self):
        out = []
        if self.names or self.chance(0.5):
            out.append(self.entry('autolock', method='*.*', level=self.pick(WRITES)))
            for method in ('get', 'look', 'next'):
                if self.chance(0.5):
                    out.append(self.entry('autolock', method='Cell.' + method, level='read'))
            for method in ('Cell.add', 'Box.*', 'Thread.run', 'Cell.mark', 'Gate.pass'):
                if self.chance(0.2):
                    out.append(self.entry('autolock', method=method, level=self.pick(WRITES)))
        if self.names:
            name = self.pick(['statistics', 'other'])
            out.append(self.entry('named_lock', name=name, method='Cell.hit', level='write'))
            out.append(self.entry('guard', field='Cell.hits', lock=name))
            if self.chance(0.3):
                out.append(self.entry('named_lock', name='readers', method='Cell.peek', level='read'))
        return out

    def troubles(self):
        out = []
        if self.chance(0.15):
            for c in self.random.sample(range(1, self.clients + 1), self.pick([1, 1, min(2, self.clients)])):
                out.append(self.entry('lose', client=c, after=self.after()))
        if self.chance(0.25):
            pairs = {(self.random.randint(1, self.clients), self.after())
                     for _ in range(self.random.randint(1, 4))}
            out += [self.entry('break', client=c, after=a) for c, a in sorted(pairs)]
        return out

    def after(self):
        return self.pick([0, self.random.randint(1, 20), self.random.randint(1, 60),
                          self.random.randint(20, 200)])

    # the program

    def roots(self):
        return (['c%d' % i for i in range(self.cells)] + ['a%d' % i for i in range(self.arrays)]
                + ['b%d' % i for i in range(self.boxes)] + ['g%d' % i for i in range(self.gates)])

    def made(self, root):
        if root[0] == 'a':
            return 'new %s[%d]' % (self.array_kind, self.array_size)
        return 'new %s()' % {'c': 'Cell', 'b': 'Box', 'g': 'Gate'}[root[0]]

    def program(self):
        self.array_kind = self.pick(['long', 'long', 'long', 'ref', 'text', 'boolean'])
        self.array_size = self.random.randint(1, 6)
        wait = self.pick(['wait(this);', 'wait(this);', 'wait(this, %d);' % self.random.randint(0, 9)])
        out = [HEAD % {'in_add': self.pick(['', '', 'print(this.v);', 'this.v = this.v + 0;']),
                       'in_look': self.pick(['', '', 'var x = this.v;']) if not self.chance(0.06)
                       else self.pick(['this.v = 3;', 'this.add(1);', 'wait(this, 2);']),
                       'wait': wait, 'wake': self.pick(['notifyAll(this);', 'notifyAll(this);', 'notify(this);'])}]
        out.append('class Main { %s }\n' % ' '.join('static ref %s;' % r for r in self.roots()))
        tasks = self.box_tasks()
        for i, client in enumerate(self.threads):
            out.append('thread %d {\n%s}\n' % (client, self.thread(tasks[i])))
        return ''.join(out)

    def box_tasks(self):
        """For each thread what it does with boxes: as many takes as puts, in two threads, in one order of boxes."""
        tasks = [[] for _ in self.threads]
        for box in range(self.boxes if len(self.threads) > 1 else 0):
            giver, taker = self.random.sample(range(len(self.threads)), 2)
            times = self.random.randint(1, 4)
            tasks[giver].append(self.times('b%d.put(%d);' % (box, self.random.randint(-9, 99)), times, 'p%d' % box))
            tasks[taker].append(self.times('print(b%d.take());' % box, times, 'q%d' % box))
        return tasks

    def times(self, statement, count, name):
        return 'var %s = 0; while (%s < %d) { %s %s = %s + 1; }' % (name, name, count, statement, name, name)

    def thread(self, tasks):
        self.longs = ['x', 'y']
        self.fresh = 0
        out = []
        for root in self.roots():
            out.append('var %s = %s;' % (root, self.made(root)))
            if root[0] == 'c' and self.chance(0.3):
                out.append('%s.v = %d;' % (root, self.random.randint(0, 9)))
            out.append('Main.%s = %s;' % (root, root))
            out.append('%s = Main.%s;' % (root, root))
        out.append('var x = %d; var y = %d;' % (self.random.randint(0, 9), self.random.randint(-3, 3)))
        steps = [self.loop(self.random.randint(1, 4)) for _ in range(self.random.randint(0, 2))]
        steps += [self.act(-1) for _ in range(self.random.randint(1, 5))]
        if self.chance(0.03):
            steps.append('y = 0; while (y < %d) { y = y + 1; }' % self.pick([999, 1000, 1001, 2500]))
        if self.faulty and self.chance(0.5):
            steps.append(self.mischief())
        self.random.shuffle(steps)
        places = sorted(self.random.randint(0, len(steps)) for _ in tasks)
        for place, task in reversed(list(zip(places, tasks))):
            steps.insert(place, task)
        # behind the boxes in every thread
        steps += ['g%d.pass(%d);' % (gate, len(self.threads)) for gate in range(self.gates)]
        steps += [self.act(-1) for _ in range(2 * self.gates)]
        return '  ' + '\n  '.join(out + steps) + '\n'

    def loop(self, times):
        name = self.new_name('i')
        body = ' '.join(self.act(-1) for _ in range(self.random.randint(1, 3)))
        return 'var %s = 0; while (%s < %d) { %s %s = %s + 1; }' % (name, name, times, body, name, name)

    def new_name(self, kind):
        self.fresh += 1
        return '%s%d' % (kind, self.fresh)

    def number(self):
        return self.pick(['x', 'y', '1', '2', str(self.random.randint(0, 100)), '(x + y)', '(x * 3 - y)', '(x % 7)',
                          '(y / 2)', '-x'])

    def act(self, held):
        """A statement of a thread that holds the monitors of cells up to `held`; it takes only later ones."""
        free = [i for i in range(self.cells) if i > held or i == held]
        cell = 'c%d' % self.pick(free) if free else None
        choices = ['x = %s;' % self.number(), 'print(%s);' % self.number(),
                   'if (x < y) { x = x + 1; } else { y = y + 1; }']
        if cell:
            choices += [self.call(cell) for _ in range(6)]
            choices += ['x = %s.%s;' % (cell, self.pick(['v', 'hits'])), 'print(%s.flag);' % cell,
                        self.block(cell, held), self.block(cell, held)]
        if self.arrays and held < self.cells:
            choices += [self.on_array(), self.on_array()]
        return self.pick(choices)

    def call(self, cell):
        return self.pick([
            '%s.add(%s);' % (cell, self.number()), 'x = %s.get();' % cell, 'y = %s.look();' % cell,
            'print(%s.get());' % cell, '%s.mark(%s);' % (cell, self.pick(TEXTS)),
            '%s.push(%s);' % (cell, self.number()), '%s.pop();' % cell, '%s.swap(new Cell());' % cell,
            'x = %s.sum(%d);' % (cell, self.random.randint(1, 4)), '%s.nap(%d);' % (cell, self.random.randint(1, 6)),
            '%s.ping();' % cell, '%s.pingAll();' % cell, 'x = %s.peek();' % cell,
            ('%s.%s();' % (cell, self.pick(['hit', 'hitTwice']))) if self.names else '%s.add(1);' % cell,
            'y = %s.down(%d);' % (cell, self.random.randint(0, 5))])

    def block(self, cell, held):
        rank = int(cell[1:])
        inner = [self.pick(['%s.v = %s.v + 1;' % (cell, cell), 'x = %s.v;' % cell, '%s.flag = x < y;' % cell,
                            '%s.note = %s;' % (cell, self.pick(TEXTS + ['null'])), 'print(%s.note);' % cell,
                            'notify(%s);' % cell, 'notifyAll(%s);' % cell,
                            'wait(%s, %d);' % (cell, self.random.randint(1, 5)) if held < 0 else 'x = x + 1;',
                            '%s.link = new Cell();' % cell])
                 for _ in range(self.random.randint(1, 3))]
        if held < 0 and self.chance(0.4):
            inner.append(self.act(rank))
        return 'synchronized (%s) { %s }' % (cell, ' '.join(inner))

    def on_array(self):
        last = self.array_size - 1
        index = self.pick([str(self.random.randint(0, last)), '(x %% 100) * (x %% 100) %% %d' % self.array_size])
        value = self.pick({'long': ['a0[%d] + 1' % self.random.randint(0, last), self.number()],
                           'ref': ['c0', 'new Cell()', 'null', 'a0', 'a0[%d]' % self.random.randint(0, last)],
                           'text': TEXTS + ['null'],
                           'boolean': ['x < y', '!a0[%d]' % self.random.randint(0, last)]}[self.array_kind])
        return 'synchronized (a0) { a0[%s] = %s; }' % (index, value)

    def mischief(self):
        if self.chance(0.05):
            self.steps = [self.random.randint(50, 300)]
            return 'while (true) { }'
        last = 'c%d' % (self.cells - 1)
        return self.pick([
            'c0.v = 1;', 'synchronized (%s) { c0.v = 1; }' % last, 'synchronized (%s) { c0.add(1); }' % last,
            'c0.hits = 1;', 'c0.link = c0;', 'synchronized (c0) { c0.link = 5; }', 'print(1 / (x - x));',
            'x = null; print(x.v);', 'print(c0.nothing());', 'print(x + c0);', 'print(c0.length);', 'c0.down(70);',
            'var big = new long[257];', 'var far = new long[3]; print(far[x + 300]);', 'return;', 'wait(c0);',
            'wait(c0, -1);', 'notify(c0);', 'synchronized (c0) { wait(c0); }', 'while (true) { x = c0.peek(); }',
            'var o = new Cell(); synchronized (o) { wait(o); }'])


def spoiled(maker, text):
    """The text with one byte gone, put in or changed."""
    if not text:
        return text
    at = maker.random.randrange(len(text))
    byte = chr(maker.pick([maker.random.randint(32, 126), ord('{'), ord('"'), ord(';'), 10, 1]))
    return maker.pick([text[:at] + text[at + 1:], text[:at] + byte + text[at:], text[:at] + byte + text[at + 1:]])


def made(seed, number):
    """(configuration, program, options) of this number, as bytes, bytes and words."""
    maker = Maker(seed, number)
    program = maker.program()
    config = maker.config()
    if maker.chance(0.02):
        program = spoiled(maker, program)
    if maker.chance(0.02):
        config = spoiled(maker, config)
    options = ['--steps', str(maker.pick(maker.steps))]
    if maker.chance(0.6):
        seed = maker.pick([0, (1 << 64) - 1, maker.random.getrandbits(64), maker.random.randint(1, 99)])
        options += ['--seed', str(seed)]
    return config.encode('latin-1'), program.encode('latin-1'), options
