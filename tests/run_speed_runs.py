"""Measures runs in threads beside runs of the simulated cluster, on the generated load, and prints a table in Markdown.

The load is that of `dsorun big N`, as files of a configuration and a program. Wall clock and processor time (the
user's and the system's) are each the least of all timed runs, and the wall clock's greatest stands beside. Entries
are counted in the journal of a run of its own, peak memory is that of another one, and so are the threads that it
starts, which strace counts. A run with a budget of 1 has one epoch; so many threads are started in each. Where a run
ends otherwise than with the load's total, the status is 1; without the program it is 2.
"""
import argparse
import datetime
import os
import re
import shutil
import subprocess
import sys
import tempfile
import time

from large_runs import waited

TOP = os.path.dirname(os.path.dirname(os.path.abspath(__file__)))
BUILT = os.path.join(TOP, 'crates', 'dsorun', 'out', 'dsorun')
STEPS = 4000000
COMMANDS = ['sim', 'run']
HEADS = ['Load', 'Command', 'Processors', 'Wall clock', 'Greatest', 'Processor time', 'Peak memory', 'Entries',
         'Entries a second', 'Threads started', 'Epochs', 'Entries an epoch']


def arguments():
    parser = argparse.ArgumentParser(prog='tests/run_speed', description=__doc__.split('\n')[0],
                                     formatter_class=argparse.ArgumentDefaultsHelpFormatter)
    parser.add_argument('--program', help='the program in place of the one that ./dsorun builds')
    parser.add_argument('--loads', default='10,100,1000', help='the numbers of the loads')
    parser.add_argument('--processors', default='0,1;all', help='the lists of processors that runs are held to')
    parser.add_argument('--repeats', type=int, default=5, help='how many timed runs')
    parser.add_argument('--seconds', type=int, default=600, help='how long a run may take')
    parser.add_argument('--no-threads', action='store_true', help='count no threads')
    return parser.parse_args()


class Load:
    """The generated load of a number: its texts, and the sum that its counters come to."""

    def __init__(self, number):
        self.number, self.clients = number, 2 + number % 3
        self.total = sum((thread + turn) % 7 + 1 for thread in range(2 * self.clients) for turn in range(number))

    def config(self):
        return ('clients = %d\n[[autolock]]\nmethod = "*.*"\nlevel = "write"\n'
                '[[autolock]]\nmethod = "Thread.run"\nlevel = "read"\n' % self.clients)

    def program(self):
        lines = ['class Counter { long n; synchronized add(k) { this.n = this.n + k; } }',
                 'class Main { static ref all; }']
        for thread in range(2 * self.clients):
            lines.append('thread %d { var a = new ref[8]; var i = 0; '
                         'while (i < 8) { a[i] = new Counter(); i = i + 1; } Main.all = a; '
                         'a = Main.all; i = 0; var x = null; '
                         'while (i < %d) { synchronized (a) { x = a[(%d * 5 + i) %% 8]; } '
                         'x.add((%d + i) %% 7 + 1); i = i + 1; } }' % (thread // 2 + 1, self.number, thread, thread))
        return ''.join(line + '\n' for line in lines)


class Wrong(Exception):
    """A run that came to something else."""


class Place:
    """A folder with a load's files, in which the program runs."""

    def __init__(self, said, folder, load):
        self.said, self.folder, self.load = said, folder, load
        for name, text in (('c', load.config()), ('p', load.program())):
            with open(self.file(name), 'w') as file:
                file.write(text)

    def file(self, name):
        return os.path.join(self.folder, name)

    def words(self, command, steps=STEPS):
        return [self.said.program, command, self.file('c'), self.file('p'), '--steps', str(steps)]

    def report(self):
        with open(self.file('report'), encoding='latin-1') as file:
            return file.read()

    def demand(self, words, status):
        """The run has to end with 0, and its counters have to come to the load's total."""
        total = sum(int(value) for value in re.findall(r'^#\d+ Counter n=(-?\d+)$', self.report(), re.M))
        if status != 0 or total != self.load.total:
            raise Wrong('load %d: %s ended with %s and a total of %d in place of %d: %s'
                        % (self.load.number, ' '.join(words), status, total, self.load.total, self.report()[:200]))

    def timed(self, command):
        """(seconds by the wall clock, seconds of the processors) of a run."""
        words = self.words(command)
        with open(self.file('report'), 'wb') as report:
            began = time.perf_counter()
            child = subprocess.Popen(words, stdin=subprocess.DEVNULL, stdout=report)
            status, use = waited(child, self.said.seconds)
            wall = time.perf_counter() - began
        self.demand(words, status)
        return wall, use.ru_utime + use.ru_stime

    def ran(self, words):
        """What a run of these words writes to standard error; its report goes to the file."""
        with open(self.file('report'), 'wb') as report:
            return subprocess.run(words, stdin=subprocess.DEVNULL, stdout=report, stderr=subprocess.PIPE,
                                  timeout=self.said.seconds, check=False)

    def entries(self, command):
        words = self.words(command) + ['--journal', self.file('journal')]
        self.demand(words, self.ran(words).returncode)
        with open(self.file('journal'), 'rb') as file:
            count = sum(1 for _ in file)
        os.remove(self.file('journal'))
        return count

    def memory(self, command):
        """Peak memory in MB, or None where nothing tells it. A small program has to start the run, since the memory
        of who starts it counts, too."""
        if not os.access('/usr/bin/time', os.X_OK):
            return None
        words = ['/usr/bin/time', '-f', '%M', '-o', self.file('memory')] + self.words(command)
        self.demand(words, self.ran(words).returncode)
        with open(self.file('memory')) as file:
            return int(file.read().split()[-1]) / 1024

    def threads(self, command, steps=STEPS):
        """How many threads a run starts that may weigh so much, or None where nothing tells it."""
        if self.said.no_threads or shutil.which('strace') is None:
            return None
        words = ['strace', '-f', '-c', '-e', 'trace=clone,clone3', '-o', self.file('calls')]
        self.ran(words + self.words(command, steps))
        with open(self.file('calls')) as file:
            return sum(int(line.split()[3]) for line in file if re.search(r' clone3?$', line))


def held_to(processors):
    """Holds this process, and what it starts, to these processors; False where there are no such ones."""
    try:
        os.sched_setaffinity(0, processors)
    except OSError:
        return False
    return os.sched_getaffinity(0) == processors


def processors_of(said):
    """(name, processors) of each list."""
    every = os.sched_getaffinity(0)
    for name in said.processors.split(';'):
        yield (name, every) if name == 'all' else (name, {int(number) for number in name.split(',')})


def cell(value, form='%d'):
    return '' if value is None else form % value


def row(place, command, name, repeats):
    """The row of a load and a command on some processors."""
    times = [place.timed(command) for _ in range(repeats)]
    wall, greatest = min(time[0] for time in times), max(time[0] for time in times)
    entries = place.entries(command)
    started = place.threads(command)
    an_epoch = place.threads(command, 1) if command == 'run' and started else None
    epochs = started / an_epoch if an_epoch else None
    return ['big %d' % place.load.number, command, name, '%.1f ms' % (1000 * wall), '%.1f ms' % (1000 * greatest),
            '%.1f ms' % (1000 * min(time[1] for time in times)), cell(place.memory(command), '%.1f MB'),
            '{:,}'.format(entries), '{:,.0f}'.format(entries / wall), cell(started), cell(epochs, '%.1f'),
            cell(entries / epochs if epochs else None)]


def tell(cells):
    print('| %s |' % ' | '.join(cells), flush=True)


def measure(said, place):
    for command in COMMANDS:
        for name, processors in processors_of(said):
            every = os.sched_getaffinity(0)
            if held_to(processors):
                tell(row(place, command, name, said.repeats))
            else:
                tell(['big %d' % place.load.number, command, name, 'no such processors'] + [''] * (len(HEADS) - 4))
            os.sched_setaffinity(0, every)


def built(said):
    """The program that ./dsorun builds, which is built where it is missing or older than its sources."""
    if said.program is None:
        subprocess.run([os.path.join(TOP, 'dsorun'), 'big', '1'], stdout=subprocess.DEVNULL, check=False)
        said.program = BUILT
    said.program = os.path.abspath(said.program)
    return os.access(said.program, os.X_OK)


def main():
    said = arguments()
    if not built(said):
        print('there is no program %s' % said.program)
        return 2
    print('%s, %d processors, load %.1f before, each time of %d runs\n'
          % (datetime.date.today(), len(os.sched_getaffinity(0)), os.getloadavg()[0], said.repeats))
    tell(HEADS)
    tell(['---'] * len(HEADS))
    try:
        for number in said.loads.split(','):
            with tempfile.TemporaryDirectory(prefix='run-speed-') as folder:
                measure(said, Place(said, folder, Load(int(number))))
    except (Wrong, subprocess.TimeoutExpired) as why:
        print(why)
        return 1
    return 0


if __name__ == '__main__':
    sys.exit(main())
