"""Measures the lock checker over large programs, and prints a table in Markdown.

Beside the time of `dsorun lint` stands that of a run of the same files which is cut off after its first step: that is
what it takes to read and to judge the texts, so the difference is the checker's. Each time is the processor's, the
least of all runs. Each program is one to which the checker says yes; where another answer comes the status is 1, and
without the program it is 2.
"""
import argparse
import datetime
import os
import resource
import subprocess
import sys
import tempfile

from run_speed_runs import Wrong, built, tell

HEADS = ['Program', 'Bytes', 'Methods', 'Reading', '`lint`']
WRITE = '[[autolock]]\nmethod = "*.*"\nlevel = "write"\n'
READ = '[[autolock]]\nmethod = "*.*"\nlevel = "read"\n'
ROOT = 'class Main { static ref a; }\n'
# how many methods a class has at most, and how many classes a program has beside `Main`
METHODS, CLASSES = 64, 63
# how long a text may be
MOST = 1 << 20


def arguments():
    parser = argparse.ArgumentParser(prog='tests/lint_figures', description=__doc__.split('\n')[0],
                                     formatter_class=argparse.ArgumentDefaultsHelpFormatter)
    parser.add_argument('--program', help='the program in place of the one that ./dsorun builds')
    parser.add_argument('--repeats', type=int, default=3, help='how many timed runs')
    parser.add_argument('--seconds', type=int, default=600, help='how long a run may take')
    parser.add_argument('--only', default='', help='only programs whose name has this text')
    return parser.parse_args()


def classes(methods):
    """Classes with these methods."""
    return ''.join('class C%d { long v; ref r;\n%s\n}\n' % (at // METHODS, '\n'.join(methods[at:at + METHODS]))
                   for at in range(0, len(methods), METHODS))


def method_of(number):
    """A method of many sorts of statements."""
    return ('synchronized m%d(k) { this.v = this.v + k; if (this.v < 9) { print(this.v); } this.r = Main.a; '
            'var x = Main.a; synchronized (x) { var y = x.r; x.v = x.v + this.v; } return this.v; }' % number)


def thread_of(number):
    """A thread that calls it."""
    return ('thread 1 { var x = Main.a; var i = 0; '
            'while (i < 3) { x.m%d(i); synchronized (x) { x.r = x; } i = i + 1; } }\n' % number)


def text(size):
    """Methods and threads that keep to their locks; so many bytes, or a few less."""
    methods, threads, length = [], [], len(ROOT)
    while len(methods) < METHODS * CLASSES:
        number = len(methods)
        if length + len(method_of(number)) + 50 > size:
            break
        methods.append(method_of(number))
        length += len(methods[-1]) + 1 + 30 * (number % METHODS == 0)
        if len(threads) < 16:
            threads.append(thread_of(number))
            length += len(threads[-1])
    if size - length > 100:         # there are no more methods: a long body fills the rest
        filler = 'x.m1(1); synchronized (x) { x.v = x.v + 1; } '
        threads[0] = 'thread 1 { var x = Main.a; %s}\n' % (filler * ((size - length - 100) // len(filler)))
    return WRITE, classes(methods) + ROOT + ''.join(threads), len(methods)


def nest(depth, count):
    """So many nests of blocks, each so deep."""
    inside = ''.join('synchronized (x) { x.v = x.v + 1; ' for _ in range(depth)) + '}' * depth
    thread = 'thread 1 { var x = Main.a;\n%s\n}\n' % '\n'.join([inside] * count)
    return WRITE, 'class A { long v; }\n' + ROOT + thread, 0


def chain(count, head='', level=WRITE, first='Main.a'):
    """Methods of which each calls the next one."""
    methods = ['%sf%d() { this.f%d(); }' % (head, n, n + 1) for n in range(count - 1)]
    methods.append('%sf%d() { print(1); }' % (head, count - 1))
    return level, classes(methods) + ROOT + 'thread 1 { %s.f0(); }\n' % first, count


def alike(methods):
    """Classes that all have these methods, and a thread that calls the first of them."""
    whole = ''.join('class C%d {\n%s\n}\n' % (number, '\n'.join(methods)) for number in range(CLASSES))
    return whole + ROOT + 'thread 1 { Main.a.f0(); }\n'


def clique(names, head='', level=WRITE):
    """Methods that all call each other: so many names, each in each class."""
    body = ' '.join('this.f%d();' % n for n in range(names))
    return level, alike(['%sf%d() { %s }' % (head, n, body) for n in range(names)]), names * CLASSES


def tangle(count):
    """Methods that all call each other: each the next one on `this`, and the others on a root.

    The first is called on a new object: so one method after the other loses its clean `this`.
    """
    methods = []
    for n in range(count):
        called = ['%s.f%d();' % ('this' if m == n + 1 else 'x', m) for m in range(count)]
        methods.append('f%d() { var x = Main.a; %s }' % (n, ' '.join(called)))
    return WRITE, classes(methods) + ROOT + 'thread 1 { new C0().f0(); }\n', count


def sites(names, each):
    """Such methods, each with so many blocks at level read with a call in each."""
    methods = []
    for n in range(names):
        called = ((n + k + 1) % names for k in range(each))
        methods.append('f%d() { %s }' % (n, ' '.join('synchronized (this) { this.f%d(); }' % m for m in called)))
    return READ, alike(methods), names * CLASSES


PROGRAMS = [
    ('methods of all sorts, 64 KiB', lambda: text(1 << 16)),
    ('methods of all sorts, 256 KiB', lambda: text(1 << 18)),
    ('methods of all sorts, 1 MiB', lambda: text(MOST)),
    ('nests 55 deep, 64 KiB', lambda: nest(55, 33)),
    ('nests 55 deep, 1 MiB', lambda: nest(55, 530)),
    ('a chain of calls', lambda: chain(1000)),
    ('a chain of calls', lambda: chain(4000)),
    ('a chain from a new object', lambda: chain(1000, first='new C0()')),
    ('a chain from a new object', lambda: chain(4000, first='new C0()')),
    ('a chain, each at level read', lambda: chain(1000, 'synchronized ', READ)),
    ('a chain, each at level read', lambda: chain(4000, 'synchronized ', READ)),
    ('all call each other', lambda: clique(16)),
    ('a chain among methods that all call each other', lambda: tangle(100)),
    ('a chain among methods that all call each other', lambda: tangle(200)),
    ('a chain among methods that all call each other', lambda: tangle(300)),
    ('all call each other, at level read', lambda: clique(4, 'synchronized ', READ)),
    ('all call each other, at level read', lambda: clique(8, 'synchronized ', READ)),
    ('all call each other, at level read', lambda: clique(16, 'synchronized ', READ)),
    ('four blocks at level read in each method', lambda: sites(4, 4)),
    ('eight blocks at level read in each method', lambda: sites(8, 8)),
]


def spent():
    """The seconds of the processor that all calls took so far."""
    used = resource.getrusage(resource.RUSAGE_CHILDREN)
    return used.ru_utime + used.ru_stime


class Place:
    """A folder with the program's texts, in which it runs."""

    def __init__(self, said, folder):
        self.said, self.folder = said, folder

    def put(self, name, content):
        with open(os.path.join(self.folder, name), 'w', encoding='ascii') as file:
            file.write(content)

    def timed(self, *words):
        """(seconds of the processor, what was printed) of a call."""
        began = spent()
        words = [self.said.program, words[0], 'c', 'p', *words[1:]]
        ran = subprocess.run(words, cwd=self.folder, stdin=subprocess.DEVNULL, stdout=subprocess.PIPE,
                             timeout=self.said.seconds, check=False)
        return spent() - began, ran.stdout.decode('latin-1').strip()

    def row(self, name, config, program, methods):
        """The row of a program."""
        if len(program) > MOST:
            raise Wrong('%s: a text of %d bytes' % (name, len(program)))
        self.put('c', config)
        self.put('p', program)
        reading = min(self.timed('sim', '--steps', '1') for _ in range(self.said.repeats))
        if reading[1].startswith('dsorun: '):
            raise Wrong('%s: %s' % (name, reading[1]))
        best = min(self.timed('lint') for _ in range(self.said.repeats))
        if best[1] != 'lint yes':
            raise Wrong('%s: %s' % (name, best[1]))
        return [name, '{:,}'.format(len(program)), '{:,}'.format(methods), '%.0f ms' % (1000 * reading[0]),
                '%.0f ms' % (1000 * best[0])]


def main():
    said = arguments()
    if not built(said):
        print('there is no program %s' % said.program)
        return 2
    print('%s, %d processors, load %.1f before, each time the least of %d runs\n'
          % (datetime.date.today(), len(os.sched_getaffinity(0)), os.getloadavg()[0], said.repeats))
    try:
        with tempfile.TemporaryDirectory(prefix='lint-figures-') as folder:
            place = Place(said, folder)
            tell(HEADS)
            tell(['---'] * len(HEADS))
            for name, make in PROGRAMS:
                if said.only in name:
                    tell(place.row(name, *make()))
    except (Wrong, subprocess.TimeoutExpired) as why:
        print(why)
        return 1
    return 0


if __name__ == '__main__':
    sys.exit(main())
