"""Measures what collections take, and prints three tables in Markdown.

The first is of one collection over a chain of objects of which a tenth was dropped: a run with some collections, all of
them behind the making of the chain, less the same run without, by their number. The second is of garbage made in a
loop, and of the load of `dsorun big 1000`, with collections and without. The third is of a collection after each
entry. Times are the processor's, each the least of all runs; memory is the greatest of one run. Where a run ends
otherwise than with exit 0, or the first table's sweeps another number of objects than were dropped, the status is 1;
without the program it is 2.
"""
import argparse
import datetime
import os
import re
import resource
import subprocess
import sys
import tempfile

from run_speed_runs import Load, Wrong, built, tell

LOCKS = '[[autolock]]\nmethod = "*.*"\nlevel = "write"\n'
ONE_HEADS = ['Objects', 'Copies at the client', 'Entries', 'Collections', 'Swept', 'Without', 'With', 'A collection',
             'An object']
LOOP_HEADS = ['Each turn drops', '`resident`', 'Entries', '`--collect`', 'Collections', 'Swept', 'Time', 'Memory']
EACH_HEADS = ['Each turn', 'Turns', 'Entries', 'Swept', 'Without', '`--collect 1`']
STEPS = 4000000
# a chain that keeps nine objects of ten, and one of those that are dropped
CHAIN = '''class Node {
  ref next; ref other; long v;
  build(n) {
    var h = null; var o = null; var i = 0; var x = null;
    while (i < n) {
      x = new Node();
      if (i % 10 == 0) { x.next = o; o = x; } else { x.next = h; h = x; }
      i = i + 1;
    }
    synchronized (this) { this.next = h; this.other = o; }
  }
  synchronized drop() { this.other = null; }
  synchronized add() { this.v = this.v + 1; }
}
class Main { static ref a; }
'''
NODE = 'class Node { ref next; long v; }\nclass Main { static ref a; }\n'
TURNS = '''thread 1 {
  Main.a = new Node(); var a = Main.a; var i = 0; var x = null;
  while (i < %d) { synchronized (a) { %s } i = i + 1; }
}
'''


def arguments():
    parser = argparse.ArgumentParser(prog='tests/collect_figures', description=__doc__.split('\n')[0],
                                     formatter_class=argparse.ArgumentDefaultsHelpFormatter)
    parser.add_argument('--program', help='the program in place of the one that ./dsorun builds')
    parser.add_argument('--objects', default='1000,10000,100000', help='how many objects there are at a collection')
    parser.add_argument('--turns', type=int, default=20000, help='how many turns make garbage')
    parser.add_argument('--collect', default='10000,1000,100', help='after how many entries these are collected')
    parser.add_argument('--each', default='100,200,400,800', help='how many turns are collected after each entry')
    parser.add_argument('--tables', default='one,loop,each', help='which of the three tables')
    parser.add_argument('--repeats', type=int, default=3, help='how many timed runs')
    parser.add_argument('--seconds', type=int, default=600, help='how long a run may take')
    return parser.parse_args()


def numbers(text):
    return [int(number) for number in text.split(',') if number]


def spent():
    """The seconds of the processor that all calls took so far."""
    used = resource.getrusage(resource.RUSAGE_CHILDREN)
    return used.ru_utime + used.ru_stime


def milliseconds(seconds):
    return '{:,.0f} ms'.format(1000 * seconds) if seconds >= 0.0995 else '%.1f ms' % (1000 * seconds)


class Place:
    """A folder with the program's texts, in which it runs."""

    def __init__(self, said, folder):
        self.said, self.folder = said, folder

    def file(self, name):
        return os.path.join(self.folder, name)

    def put(self, config, program):
        for name, content in (('c', config), ('p', program)):
            with open(self.file(name), 'w', encoding='ascii') as file:
                file.write(content)

    def ran(self, words, before=()):
        """What a run printed."""
        words = [*before, self.said.program, 'sim', 'c', 'p', '--steps', str(STEPS), *words]
        ran = subprocess.run(words, cwd=self.folder, stdin=subprocess.DEVNULL, stdout=subprocess.PIPE,
                             timeout=self.said.seconds, check=False)
        if ran.returncode != 0:
            raise Wrong('%s ended with %d: %r' % (' '.join(words), ran.returncode, ran.stdout[:200]))
        return ran.stdout

    def time(self, words, swept=None):
        """The seconds of the processor of the fastest run, and how many objects were swept: these, if they are told."""
        best = None
        for _ in range(self.said.repeats):
            began = spent()
            out = self.ran(words)
            took = spent() - began
            best = took if best is None else min(best, took)
            found = re.search(rb'^swept (\d+)\n\Z', out, re.M)
            count = int(found.group(1)) if found else None
            if swept is not None and count != swept:
                raise Wrong('%s swept %s' % (' '.join(words), count))
        return best, count

    def memory(self, words):
        """Peak memory in MB. A small program has to start the run, since the memory of who starts it counts, too."""
        self.ran(words, ['/usr/bin/time', '-f', '%M', '-o', self.file('m')])
        with open(self.file('m'), encoding='ascii') as file:
            return int(file.read().split()[-1]) / 1024

    def entries(self):
        self.ran(['--journal', 'j'])
        with open(self.file('j'), 'rb') as file:
            count = sum(1 for _ in file)
        os.remove(self.file('j'))
        return count


def chain(objects, turns):
    """The chain, and so many calls behind it."""
    return CHAIN + ('thread 1 { Main.a = new Node(); var a = Main.a; a.build(%d); a.drop(); var i = 0; '
                    'while (i < %d) { a.add(); i = i + 1; } }\n' % (objects, turns))


def one_row(place, objects, resident):
    """The row of a chain: some collections, the first one once the chain was dropped."""
    config = 'resident = %d\n%s' % (resident, LOCKS)
    counts = []
    for turns in (100, 200):
        place.put(config, chain(objects, turns))
        counts.append(place.entries())
    each, most = (counts[1] - counts[0]) / 100, 20 if objects <= 1000 else 8 if objects <= 10000 else 4
    interval = counts[0]
    place.put(config, chain(objects, int(100 + (most - 0.5) * interval / each)))
    entries = place.entries()
    made = entries // interval
    without, _ = place.time([])
    took, swept = place.time(['--collect', str(interval)], objects // 10)
    one = (took - without) / made
    return ['{:,}'.format(objects), 'all' if resident > objects else 'at most {:,}'.format(resident),
            '{:,}'.format(entries), str(made), '{:,}'.format(swept), milliseconds(without), milliseconds(took),
            milliseconds(one), '%.2f µs' % (1e6 * one / objects)]


LOOPS = [('an object with two fields', 'a.next = new Node();'), ('an array of 256', 'a.next = new ref[256];')]


def loops(turns):
    """(what each turn drops, `resident`, configuration, program) of the runs with collections and without."""
    for name, body in LOOPS:
        for resident in (4096, 8):
            yield name, resident, 'resident = %d\n%s' % (resident, LOCKS), NODE + TURNS % (turns, body)
    load = Load(1000)
    yield 'nothing (`big 1000`)', 4096, load.config(), load.program()


def loop_rows(place, name, resident, config, program):
    """The rows of a run with collections and without."""
    place.put(config, program)
    entries = place.entries()
    for interval in [None] + numbers(place.said.collect):
        words = [] if interval is None else ['--collect', str(interval)]
        took, swept = place.time(words)
        told = ['none', '', ''] if interval is None else [
            '{:,}'.format(number) for number in (interval, entries // interval, swept)]
        yield [name, '{:,}'.format(resident), '{:,}'.format(entries), *told, milliseconds(took),
               '%.1f MB' % place.memory(words)]


EACH = [('keeps one more object', 'x = new Node(); x.next = a.next; a.next = x;'),
        ('drops one', 'a.next = new Node();')]


def each_row(place, name, body, turns):
    """The row of a collection after each entry."""
    place.put(LOCKS, NODE + TURNS % (turns, body))
    entries = place.entries()
    without, _ = place.time([])
    took, swept = place.time(['--collect', '1'])
    return [name, '{:,}'.format(turns), '{:,}'.format(entries), '{:,}'.format(swept), milliseconds(without),
            milliseconds(took)]


def table(heads, rows):
    tell(heads)
    tell(['---'] * len(heads))
    for row in rows:
        tell(row)
    print()


def main():
    said = arguments()
    if not built(said):
        print('there is no program %s' % said.program)
        return 2
    print('%s, %d processors, load %.1f before, each time the least of %d runs\n'
          % (datetime.date.today(), len(os.sched_getaffinity(0)), os.getloadavg()[0], said.repeats))
    try:
        with tempfile.TemporaryDirectory(prefix='collect-figures-') as folder:
            place = Place(said, folder)
            tables = {
                'one': (ONE_HEADS, (one_row(place, objects, resident) for objects in numbers(said.objects)
                                    for resident in ([1000000] if objects <= 10000 else [1000000, 4096]))),
                'loop': (LOOP_HEADS, (row for load in loops(said.turns) for row in loop_rows(place, *load))),
                'each': (EACH_HEADS, (each_row(place, name, body, turns) for name, body in EACH
                                      for turns in numbers(said.each)))}
            for name in said.tables.split(','):
                table(*tables[name])
    except (Wrong, subprocess.TimeoutExpired) as why:
        print(why)
        return 1
    return 0


if __name__ == '__main__':
    sys.exit(main())
