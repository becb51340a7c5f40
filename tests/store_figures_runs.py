"""Measures runs with a store beside runs without one, and what it takes to show a store; prints two tables in Markdown.

The load is that of `dsorun big N`, as files of a configuration and a program, run by round robin. Each time is the wall
clock's, the least of all runs: with a store it is the disk's as much as the processor's, so the folder in which the
stores stand should be on the disk that is asked about. What a record costs is the difference of the two, by their
number. The stores that are shown have so many records of 37 bytes, each of a printed number. Where a run ends otherwise
than with exit 0, or a store has other records than are told, the status is 1; without the program it is 2.
"""
import argparse
import datetime
import os
import subprocess
import sys
import tempfile
import time

import store_reading
from run_speed_runs import Load, Wrong, built, tell

RUN_HEADS = ['Load', 'Without a store', 'With one', 'Records', 'Bytes', 'Bytes a record', 'Records a second',
             'Time a record']
SHOW_HEADS = ['Records shown', 'Bytes', 'Wall clock', 'Records a second']


def arguments():
    parser = argparse.ArgumentParser(prog='tests/store_figures', description=__doc__.split('\n')[0],
                                     formatter_class=argparse.ArgumentDefaultsHelpFormatter)
    parser.add_argument('--program', help='the program in place of the one that ./dsorun builds')
    parser.add_argument('--loads', default='1,10,100', help='the numbers of the loads')
    parser.add_argument('--shown', default='1000,10000,100000', help='how many records the stores have that are shown')
    parser.add_argument('--repeats', type=int, default=5, help='how many timed runs')
    parser.add_argument('--seconds', type=int, default=600, help='how long a run may take')
    parser.add_argument('--folder', help='where the stores stand (a new folder, where left out)')
    return parser.parse_args()


class Place:
    """A folder with the program's texts, in which it runs."""

    def __init__(self, said, folder):
        self.said, self.folder = said, folder

    def file(self, name):
        return os.path.join(self.folder, name)

    def put(self, name, content):
        with open(self.file(name), 'wb') as file:
            file.write(content)

    def timed(self, *words):
        """The seconds of a call."""
        began = time.perf_counter()
        ran = subprocess.run([self.said.program, *words], cwd=self.folder, stdin=subprocess.DEVNULL, stdout=subprocess.PIPE,
                             timeout=self.said.seconds, check=False)
        seconds = time.perf_counter() - began
        if ran.returncode != 0:
            raise Wrong('%s ended with %d: %r' % (' '.join(words), ran.returncode, ran.stdout[:200]))
        return seconds

    def stored(self):
        """The seconds of a run with a new store."""
        if os.path.exists(self.file('s')):
            os.remove(self.file('s'))
        return self.timed('sim', 'c', 'p', '--steps', '4000000', '--store', 's')

    def run_row(self, number):
        """The row of a load."""
        load = Load(number)
        self.put('c', load.config().encode())
        self.put('p', load.program().encode())
        bare = min(self.timed('sim', 'c', 'p', '--steps', '4000000') for _ in range(self.said.repeats))
        kept = min(self.stored() for _ in range(self.said.repeats))
        store = store_reading.Store(store_reading.content_of(self.file('s')))
        count, size = len(store.records), store.length + 1
        return ['big %d' % number, '%.1f ms' % (1000 * bare), '%.1f ms' % (1000 * kept), '{:,}'.format(count),
                '{:,}'.format(size), '%.1f' % (size / count), '{:,.0f}'.format(count / kept),
                '%.3f ms' % (1000 * (kept - bare) / count)]

    def show_row(self, count):
        """The row of a store with so many records."""
        self.put('c', b'')
        self.put('p', b'thread 1 { print(7); }')
        content = store_reading.file_of(store_reading.print_of(number) for number in range(1, count + 1))
        self.put('s', content)
        seconds = min(self.timed('show', 'c', 'p', 's') for _ in range(self.said.repeats))
        return ['{:,}'.format(count), '{:,}'.format(len(content)), '%.1f ms' % (1000 * seconds),
                '{:,.0f}'.format(count / seconds)]


def table(heads, rows):
    tell(heads)
    tell(['---'] * len(heads))
    for row in rows:
        tell(row)


def numbers(text):
    return [int(number) for number in text.split(',') if number]


def main():
    said = arguments()
    if not built(said):
        print('there is no program %s' % said.program)
        return 2
    print('%s, %d processors, load %.1f before, each time the least of %d runs\n'
          % (datetime.date.today(), len(os.sched_getaffinity(0)), os.getloadavg()[0], said.repeats))
    try:
        with tempfile.TemporaryDirectory(prefix='store-figures-', dir=said.folder) as folder:
            place = Place(said, folder)
            table(RUN_HEADS, (place.run_row(number) for number in numbers(said.loads)))
            print()
            table(SHOW_HEADS, (place.show_row(count) for count in numbers(said.shown)))
    except (Wrong, subprocess.TimeoutExpired) as why:
        print(why)
        return 1
    return 0


if __name__ == '__main__':
    sys.exit(main())
