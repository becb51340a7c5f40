"""Measures the calls of a clustered map, and prints a table in Markdown.

One thread fills a map with so many keys, shares it, and goes so many turns through a loop with calls in it. The keys
stand each in a slot of its own (`own slots`) or all on one path (`one path`), where a call goes on average through half
of them. The calls stand alone, so that each takes and leaves the map's monitor and hands in what it wrote, or within
one block (`a block`). Time is the processors' (the user's and the system's), the least of all runs; it and the entries
of the journal are less those of a run with no turn, so the loop itself counts in. Where a run ends otherwise than with
all keys in the map, the status is 1; without the program it is 2.
"""
import argparse
import datetime
import os
import re
import subprocess
import sys
import tempfile

from large_runs import waited
from run_speed_runs import Wrong, built, tell

STEPS = 4000000
CALLS = {  # a turn's statements, over the key k, and how many calls they are
    'get': ('m.get(k);', 1),
    'has': ('m.has(k);', 1),
    'size': ('m.size();', 1),
    'put': ('m.put(k, m);', 1),
    'remove, put': ('m.remove(k); m.put(k, m);', 2),
}
PLACES = {'own slots': 1, 'one path': 256}
HEADS = ['Keys', 'In', 'Calls', 'Stand', 'Turns', 'Entries a call', 'Calls a second', 'Time a call', 'Time an entry']


def arguments():
    parser = argparse.ArgumentParser(prog='tests/map_speed', description=__doc__.split('\n')[0],
                                     formatter_class=argparse.ArgumentDefaultsHelpFormatter)
    parser.add_argument('--program', help='the program in place of the one that ./dsorun builds')
    parser.add_argument('--keys', default='10,250', help='how many keys the maps have')
    parser.add_argument('--entries', type=int, default=100000, help='about how many entries a timed run makes')
    parser.add_argument('--repeats', type=int, default=5, help='how many timed runs')
    parser.add_argument('--seconds', type=int, default=600, help='how long a run may take')
    parser.add_argument('--folder', help='leave the programs there')
    return parser.parse_args()


def text(keys, place, calls, block, turns):
    """The program's text."""
    step = PLACES[place]
    loop = ('while (i < %d) { k = i %% %d * %d; %s i = i + 1; }' % (turns, keys, step, CALLS[calls][0]))
    return ('class Main { static ref m; }\n'
            'thread 1 { var m = new DsoMap(); var i = 0; var k = 0;\n'
            'while (i < %d) { m.put(i * %d, m); i = i + 1; }\n'
            'Main.m = m; i = 0;\n%s }\n' % (keys, step, 'synchronized (m) { %s }' % loop if block else loop))


class Place:
    """A folder in which the program runs."""

    def __init__(self, said, folder):
        self.said, self.folder = said, folder
        with open(self.file('c'), 'w', encoding='ascii'):
            pass

    def file(self, name):
        return os.path.join(self.folder, name)

    def ran(self, program, keys, journal):
        """The processors' seconds of a run, which has to leave all its keys in the map."""
        with open(self.file('p'), 'w', encoding='ascii') as file:
            file.write(program)
        words = [self.said.program, 'sim', self.file('c'), self.file('p'), '--steps', str(STEPS)]
        if journal:
            words += ['--journal', self.file('journal')]
        with open(self.file('report'), 'wb') as report:
            child = subprocess.Popen(words, stdin=subprocess.DEVNULL, stdout=report)
            status, use = waited(child, self.said.seconds)
        with open(self.file('report'), encoding='latin-1') as file:
            report = file.read()
        line = re.search(r'^#1 DsoMap(.*)$', report, re.M)
        if status != 0 or line is None or len(line.group(1).split()) != keys:
            raise Wrong('%s ended with %s: %s\n%s' % (' '.join(words), status, report[:200], program))
        return use.ru_utime + use.ru_stime

    def entries(self, program, keys):
        self.ran(program, keys, True)
        with open(self.file('journal'), 'rb') as file:
            count = sum(1 for _ in file)
        os.remove(self.file('journal'))
        return count

    def seconds(self, program, keys):
        return min(self.ran(program, keys, False) for _ in range(self.said.repeats))


def row(place, keys, where, calls, block):
    """The row of some calls of a map. All keys have their turn equally often."""
    def made(turns):
        return text(keys, where, calls, block, turns)

    none = made(0)
    base = place.entries(none, keys)
    a_turn = (place.entries(made(keys), keys) - base) / keys
    turns = max(1, round(place.said.entries / a_turn / keys)) * keys
    program = made(turns)
    if place.said.folder:
        name = '%d_%s_%s_%s.dso' % (keys, where, calls, 'block' if block else 'alone')
        with open(os.path.join(place.said.folder, re.sub(r'[ ,]+', '_', name)), 'w', encoding='ascii') as file:
            file.write(program)
    entries = place.entries(program, keys) - base
    seconds = max(place.seconds(program, keys) - place.seconds(none, keys), 1e-6)
    count = turns * CALLS[calls][1]
    return ['%d' % keys, where, calls, 'in a block' if block else 'alone', '{:,}'.format(turns), '%.2f' % (entries / count),
            '{:,.0f}'.format(count / seconds), '%.2f µs' % (1e6 * seconds / count), '%.0f ns' % (1e9 * seconds / entries)]


def main():
    said = arguments()
    if not built(said):
        print('there is no program %s' % said.program)
        return 2
    if said.folder:
        os.makedirs(said.folder, exist_ok=True)
    print('%s, %d processors, load %.1f before, each time the least of %d runs\n'
          % (datetime.date.today(), len(os.sched_getaffinity(0)), os.getloadavg()[0], said.repeats))
    tell(HEADS)
    tell(['---'] * len(HEADS))
    try:
        with tempfile.TemporaryDirectory(prefix='map-speed-') as folder:
            place = Place(said, folder)
            for block in (False, True):
                for where in PLACES:
                    for calls in CALLS:
                        for keys in said.keys.split(','):
                            tell(row(place, int(keys), where, calls, block))
    except (Wrong, subprocess.TimeoutExpired) as why:
        print(why)
        return 1
    return 0


if __name__ == '__main__':
    sys.exit(main())
