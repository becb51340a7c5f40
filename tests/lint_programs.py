"""Makes configurations and programs for `lint_soak`, each from the seed of the generator and its own number.

About half of them keep to their locks, which takes care: objects are read out of roots and fields into variables, and
locked there. In the others one place or one level is changed. All end by themselves but for a few that stall.
"""
import random
import re

WRITES = ['write', 'write', 'synchronous-write']
# the fields of a class that hold numbers
NUMBERS = {'A': ['v', 'count'], 'B': ['w', 'count']}
ROOTS = [('a', 'new A()'), ('b', 'new B()'), ('xs', 'new long[4]'), ('m', 'new DsoMap()')]


class Names:
    """Names for new variables of a body."""

    def __init__(self):
        self.made = 0

    def new(self):
        self.made += 1
        return 'x%d' % self.made


class Maker:
    """One program with its configuration."""

    def __init__(self, seed, number):
        self.random = random.Random('lint %d/%d' % (seed, number))
        self.clients = self.random.choice([1, 2, 2, 3, 3, 4])
        self.readers, self.writers, self.named = [], [], []
        self.levels = {}
        self.grades = {}
        self.has_guard = self.chance(0.5)
        self.thread_level = self.pick(['write', 'write', 'write', 'synchronous-write', None])

    def chance(self, share):
        return self.random.random() < share

    def pick(self, things):
        return self.random.choice(things)

    def some(self, least, most, make):
        return ' '.join(make() for _ in range(self.random.randint(least, most)))

    # what stands under a hold

    def number(self, held, kind):
        """A number, maybe read of what is held."""
        return self.pick(['1', str(self.random.randint(0, 9)), '%s.%s' % (held, self.pick(NUMBERS[kind])), '(2 + 3)'])

    def read(self, names, held, kind):
        """A statement that reads an object that is held."""
        name = names.new()
        return self.pick(['print(%s);' % self.number(held, kind), 'var %s = %s;' % (name, self.number(held, kind)),
                          'if (%s.%s < 5) { print(%s.flag); }' % (held, self.pick(NUMBERS[kind]), held)])

    def write(self, held, kind):
        field = self.pick(NUMBERS[kind])
        return self.pick(['%s.%s = %s;' % (held, field, self.number(held, kind)), '%s.flag = !%s.flag;' % (held, held),
                          '%s.%s = %s.%s + 1;' % (held, field, held, field),
                          'while (%s.%s < 3) { %s.%s = %s.%s + 1; }' % (held, field, held, field, held, field)])

    def link(self, held):
        """A statement that puts an object into a clean one that is held at write."""
        return self.pick(['%s.next = new A();' % held, '%s.next = Main.a;' % held, '%s.next = null;' % held])

    def under(self, names, held, kind):
        """A statement under a hold at write on a clean variable."""
        choices = [self.read(names, held, kind)] + [self.write(held, kind) for _ in range(3)] + [self.link(held)]
        if self.chance(0.3):
            choices += ['wait(%s, %d);' % (held, self.random.randint(1, 4)), 'notifyAll(%s);' % held]
        if self.chance(0.4):
            choices += [self.map_call(names), self.pick([self.call(held), self.array(names)])]
        return self.pick(choices)

    # what stands anywhere

    def call(self, held=None):
        """A call of a method on what is clean."""
        name, params, kind = self.pick(self.readers + self.writers + self.named + [self.writers[0]])
        there = held if held is not None and self.chance(0.7) else 'Main.%s' % kind.lower()
        call = '%s.%s(%s)' % (there, name, ', '.join(self.pick(['1', '2', 'Main.a']) for _ in range(params)))
        return self.pick(['%s;' % call, 'print(%s);' % call])

    def map_call(self, names):
        name = names.new()
        key = self.random.randint(0, 3)
        return self.pick(['var %s = Main.m; print(%s.size());' % (name, name), 'Main.m.put(%d, Main.a);' % key,
                          'Main.m.remove(%d);' % key, 'print(Main.m.has(%d));' % key, 'Main.m.get(%d);' % key])

    def array(self, names):
        name = names.new()
        body = self.pick(['%s[%d] = %s[1] + 1;', 'print(%s[%d]); print(%s[2]);'])
        return 'var %s = Main.xs; synchronized (%s) { %s print(%s.length); }' \
            % (name, name, body % (name, self.random.randint(0, 3), name), name)

    def site(self, names, depth):
        """A block under the monitor of what a root has."""
        root, kind = self.pick([('a', 'A'), ('b', 'B')])
        name = names.new()
        body = self.some(1, 3, lambda: self.under(names, name, kind))
        if depth < 2 and self.chance(0.3):
            body += ' ' + self.statement(names, depth + 1)
        return 'var %s = Main.%s; synchronized (%s) { %s }' % (name, root, name, body)

    def peek(self, names):
        """A block that only reads, but for one in some that calls what writes."""
        name = names.new()
        body = self.some(1, 2, lambda: self.read(names, name, 'A'))
        if self.chance(0.4):
            some = self.readers if self.readers and self.chance(0.8) else self.writers
            body += self.call_of(self.pick(some))
        calls = ['', '', ' print(Main.m.size());', ' print(Main.m.has(1));']
        body += self.pick(calls + [' Main.m.put(1, %s);' % name] * self.chance(0.2))
        return 'var %s = Main.a; synchronized (%s) { %s }' % (name, name, body)

    def next_site(self, names):
        """Goes on to the object that the first one has."""
        first, then = names.new(), names.new()
        body = self.some(1, 2, lambda: self.under(names, then, 'A'))
        step = 'var %s = Main.a; var %s = null; synchronized (%s) { %s = %s.next; } '
        step %= (first, then, first, then, first)
        return step + 'if (%s != null) { synchronized (%s) { %s } }' % (then, then, body)

    def private(self, names):
        """A new object, which is touched in blocks that publish nothing, and maybe published behind them."""
        name = names.new()
        body = self.some(1, 3, lambda: self.pick([self.write(name, 'A'), self.read(names, name, 'A')]))
        behind = self.pick(['', 'Main.a = %s;' % name, 'Main.m.put(1, %s);' % name, 'Main.b.keep(%s);' % name])
        again = ' synchronized (%s) { %s }' % (name, self.write(name, 'A')) if self.chance(0.4) else ''
        return 'var %s = new A(); synchronized (%s) { %s } %s%s' % (name, name, body, behind, again)

    def loop(self, names, depth):
        name = names.new()
        return 'var %s = 0; while (%s < %d) { %s = %s + 1; %s }' \
            % (name, name, self.random.randint(1, 3), name, name, self.statement(names, depth + 1))

    def choice(self, names, depth):
        return 'if (Main.b == null || %d < 3) { %s } else { %s }' \
            % (self.random.randint(0, 5), self.statement(names, depth + 1), self.statement(names, depth + 1))

    def statement(self, names, depth):
        choices = [self.call, self.call, lambda: self.map_call(names)]
        if depth < 3:
            choices += [lambda: self.site(names, depth)] * 3
            choices += [lambda: self.next_site(names), lambda: self.private(names), lambda: self.array(names)]
            choices += [lambda: self.loop(names, depth), lambda: self.choice(names, depth)]
        return self.pick(choices)()

    # methods

    def method(self, kind, number):
        """A method, which is added to those that may be called; it calls only those before it."""
        names, params, name = Names(), self.pick([0, 0, 1]), 'f%d' % number
        what = self.pick(['reader', 'writer', 'writer', 'plain', 'named', 'quiet', 'peeker'])
        if what == 'named' and not self.has_guard or not self.writers:
            what = 'writer'
        full = '%s.%s' % (kind, name)
        if what == 'named':
            kind = 'A'
        make = {'reader': self.reader, 'writer': self.writer, 'plain': self.plain, 'named': self.named_one,
                'quiet': self.quiet, 'peeker': self.peeker}[what]
        added, head, body = make(names, kind, full)
        if self.chance(0.3):
            body += ' return %d;' % self.random.randint(0, 9)
        added.append((name, params, kind))
        return '  %s%s(%s) { %s }\n' % (head, name, ', '.join('p%d' % p for p in range(params)), body)

    # each gives where it is added, what stands in front of it, and its body

    def reader(self, names, kind, full):
        self.levels[full] = self.pick(['read', 'read', 'write'])
        body = self.some(1, 2, lambda: self.read(names, 'this', kind))
        if self.readers and self.chance(0.4):
            body += self.call_of(self.pick(self.readers if self.chance(0.9) else self.writers))
        return self.readers, 'synchronized ', body

    def writer(self, names, kind, full):
        has_some = bool(self.writers)
        body = self.some(1, 3, lambda: self.under(names, 'this', kind) if has_some else self.write('this', kind))
        return self.writers, 'synchronized ', body

    def peeker(self, names, kind, full):
        self.levels[full] = 'read'
        return self.readers, '', self.peek(names)

    def quiet(self, names, kind, full):
        return self.writers, 'synchronized ', self.some(1, 3, lambda: self.write('this', kind))

    def plain(self, names, kind, full):
        return self.writers, '', self.some(1, 2, lambda: self.statement(names, 1))

    def named_one(self, names, kind, full):
        grade = self.pick(['read', 'write', 'write', 'synchronous-write'])
        self.grades[full] = grade
        what = self.pick(['this', 'Main.a'])
        body, held = ('', 'this') if what == 'this' else ('var h = Main.a; ', 'h')
        body += 'print(%s.hits);' % held if grade == 'read' else '%s.hits = %s.hits + 1;' % (held, held)
        if self.named and self.chance(0.2):
            body += self.call_of(self.named[0], 'a')
        return self.named, '', body

    def call_of(self, method, root=None):
        """A call of this method on what a root has."""
        name, params, kind = method
        return ' Main.%s.%s(%s);' % (root or kind.lower(), name, ', '.join(['1'] * params))

    def classes(self):
        out, number = [], 0
        for kind, fields in (('A', 'long v; long count; boolean flag; ref next; long hits;'),
                             ('B', 'long w; long count; boolean flag; ref next; ref kept;')):
            methods = []
            for _ in range(self.random.randint(1, 4)):
                methods.append(self.method(kind, number))
                number += 1
            if kind == 'B':
                methods.append('  synchronized keep(k) { this.kept = k; }\n')
            out.append('class %s {\n  %s\n%s}\n' % (kind, fields, ''.join(methods)))
        return ''.join(out)

    def thread(self, client):
        names = Names()
        made = ''.join('  Main.%s = %s;\n' % root for root in ROOTS)
        return 'thread %d {\n%s  %s\n}\n' % (client, made, self.some(1, 5, lambda: self.statement(names, 0)))

    def program(self):
        classes = self.classes()
        threads = ''.join(self.thread(self.random.randint(1, self.clients))
                          for _ in range(self.random.randint(1, self.clients + 2)))
        return classes + 'class Main { %s }\n' % ' '.join('static ref %s;' % name for name, _ in ROOTS) + threads

    # the configuration

    def entry(self, section, **keys):
        lines = ['%s = %s\n' % (key, value if isinstance(value, int) else '"%s"' % value)
                 for key, value in keys.items()]
        return '[[%s]]\n' % section + ''.join(lines)

    def config(self):
        out = ['clients = %d\n' % self.clients]
        if self.chance(0.2):
            out.append('resident = %d\n' % self.pick([1, 2, 4]))
        out.append(self.entry('autolock', method='*.*', level=self.pick(WRITES)))
        if self.thread_level:
            out.append(self.entry('autolock', method='Thread.run', level=self.thread_level))
        out += [self.entry('autolock', method=method, level=level) for method, level in self.levels.items()]
        if self.has_guard:
            out.append(self.entry('guard', field='A.hits', lock='s'))
            out += [self.entry('named_lock', name='s', method=method, level=level)
                    for method, level in self.grades.items()]
        return ''.join(out) + self.troubles()

    def troubles(self):
        out = []
        if self.chance(0.25):
            client = self.random.randint(1, self.clients)
            out.append(self.entry('lose', client=client, after=self.random.randint(0, 60)))
        if self.chance(0.35):
            pairs = {(self.random.randint(1, self.clients), self.random.randint(0, 60))
                     for _ in range(self.random.randint(1, 3))}
            out += [self.entry('break', client=client, after=after) for client, after in sorted(pairs)]
        return ''.join(out)


# What is changed at one place of a text: a pattern, and what may stand there in its place.
CHANGES = [
    (r'synchronized (?=\w+\()', ['']),
    (r'synchronized \((\w+)\)', ['synchronized (this)', 'synchronized (Main.a)', 'if (1 == 1)']),
    (r'Main\.(a|b)\b(?=;)', ['new A()', 'null', 'Main.b', 'Main.a.f0()']),
    (r'(?<=\{ )(?=x\d+\.)', ['x1 = Main.a; ', 'Main.a = x1; ', 'x1.v = 2; ']),
    (r'x(\d+)(?=\.(v|w|count|flag|next|hits)\b)', ['Main.a', 'this', 'x1', 'x2']),
    (r'this(?=\.\w+ =)', ['Main.a', 'this.next', 'p0']),
    (r'(?<=\) \{ )', ['print(this.v); ', 'var y = this.next; ', 'Main.m.put(2, Main.a); ', 'print(1); ', 'this.f1(); ',
                      'var z = new A(); z.f0(); ', 'x1 = new A(); ', 'Main.b.keep(null); ', 'Main.a.f0(); ']),
    (r'print\(x(\d+)\.', ['print(Main.b.']),
    (r'(?<=; )(?=Main\.\w\.f)', ['new A().f0(); ', 'new B().f1(1); ', 'print(Main.a.v); ', 'print(Main.xs.length); '])]
LEVELS = [
    (r'level = "[a-z-]+"', ['level = "read"', 'level = "read"', 'level = "write"']),
    (r'lock = "s"', ['lock = "t"']),
    (r'name = "s"', ['name = "t"']),
    (r'field = "A.hits"', ['field = "A.*"', 'field = "B.count"', 'field = "A.count"'])]


def changed(maker, text, changes):
    """The text with one place changed, where there is one."""
    pattern, instead = maker.pick(changes)
    places = list(re.finditer(pattern, text))
    if not places:
        return text
    place = maker.pick(places)
    return text[:place.start()] + maker.pick(instead) + text[place.end():]


def made(seed, number):
    """(configuration, program) of this number, as bytes."""
    maker = Maker(seed, number)
    program = maker.program()
    config = maker.config()
    while maker.chance(0.5):
        if maker.chance(0.6):
            program = changed(maker, program, CHANGES)
        else:
            config = changed(maker, config, LEVELS)
    return config.encode(), program.encode()
