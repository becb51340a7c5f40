"""Runs dsorun again and again, and refuses one allocation in each run: the first, the second, and so on to the last.

Each run has to end with status 8 and print nothing, or with the status and report of a run in which nothing is refused.
A library that is loaded before all else, `refused_memory.c`, counts and refuses. A run that ends otherwise is told, and
the status is then 1.

With threads (`run`) the Nth allocation is another one each time, and how many there are varies. So the numbers go from
1 up to the one behind the greatest count that any run came to, with nothing refused or with one. `--rounds R` tries
each number R times, and `--every K` each Kth alone.

`--try N` is slow: it has `rt try --fail-alloc N` do it, which compiles the sources with checks. N may be a range, as
`1..`, which compiles them once; `rt try` then tells on its own what went wrong, and stops after 2,000 runs.
"""
import argparse
import collections
import concurrent.futures
import os
import re
import shutil
import struct
import subprocess
import sys
import tempfile
import time

HERE = os.path.dirname(os.path.abspath(__file__))
TOP = os.path.dirname(HERE)
CRATES = os.path.join(TOP, 'crates')
EXAMPLES = os.path.join(CRATES, 'run_cases', 'data')
NO_MEMORY, USAGE = 8, 1
# how many numbers are tried before the greatest count is looked at again
BLOCK = 200
ONE_CLIENT = b'thread 1.1 ended\n| 1\nunguarded 0\nroot Main.counter #1\n#1 Counter n=1\n'


def arguments():
    parser = argparse.ArgumentParser(description=__doc__.split('\n')[0])
    parser.add_argument('--program', default=os.path.join(CRATES, 'dsorun', 'out', 'dsorun'), help='the proved program')
    parser.add_argument('--counts-itself', action='store_true', help='the program counts and refuses by itself')
    parser.add_argument('--on', action='store_true', help='refuse all allocations from the one of each number on, too')
    parser.add_argument('--command', choices=['sim', 'run'], action='append', help='one command (both, where left out)')
    parser.add_argument('--example', action='append', help='one example by its name (all three, where left out)')
    parser.add_argument('--jobs', type=int, default=os.cpu_count() or 1, help='how many runs side by side')
    parser.add_argument('--rounds', type=int, default=3, help='with run: how often each number is tried, up to the '
                        'greatest count that a run came to (%(default)s)')
    parser.add_argument('--every', type=int, default=1, help='with run: try each Kth number alone', metavar='K')
    parser.add_argument('--seconds', type=int, default=60, help='how long a run may take (%(default)s)')
    parser.add_argument('--try', dest='tried', metavar='N', help='do it once for each example, by rt try')
    return parser.parse_args()


def content(*parts):
    with open(os.path.join(*parts), 'rb') as file:
        return file.read()


class Example:
    """A configuration and a program with the report that they come to."""

    def __init__(self, name, config, program, report):
        self.name, self.config, self.program, self.report = name, config, program, report

    @classmethod
    def of_gallery(cls, name):
        folder = os.path.join(EXAMPLES, name)
        return cls(name, os.path.join(folder, 'config.toml'), os.path.join(folder, 'program.dso'),
                   content(folder, 'report.txt'))

    def words(self, command):
        return [command, self.config, self.program]

    def is_report(self, command, text):
        """Whether the text is the report; under `run` the two clients of the counter may take other turns."""
        if command == 'run' and self.name == 'counter':
            return is_counter_report(text.decode(errors='replace'))
        return text == self.report


COUNTER_REPORT = re.compile(r'thread 1\.1 ended\n((?:\| \d+\n){3})thread 2\.1 ended\n((?:\| \d+\n){2})unguarded 0\n'
                            r'root Main\.counter #1\n#1 Counter n=23\n')


def is_counter_report(text):
    """Whether the first client added 1 three times, and the second 10 twice, in some order."""
    match = COUNTER_REPORT.fullmatch(text)
    if not match:
        return False
    first, second = ([int(number) for number in re.findall(r'\d+', part)] for part in match.groups())
    turns = [(number, 1) for number in first] + [(number, 10) for number in second]
    total = 0
    for number, added in sorted(turns):
        total += added
        if number != total:
            return False
    return True


def examples():
    data = os.path.join(CRATES, 'dsorun', 'data')
    one = Example('one client', os.path.join(data, 'counter.toml'), os.path.join(data, 'counter.dso'), ONE_CLIENT)
    return [one, Example.of_gallery('counter'), Example.of_gallery('bounded_buffer')]


def ran_with(words, seconds, **how):
    return subprocess.run(words, stdin=subprocess.DEVNULL, capture_output=True, timeout=seconds, **how)


Run = collections.namedtuple('Run', 'number status out err count')


class Seen:
    """What was seen of runs: the greatest count of allocations, how many ended in which way, the wrong ones."""

    def __init__(self):
        self.most, self.kinds, self.wrong, self.whole_counts = 0, collections.Counter(), [], []

    def take(self, sweep, runs):
        for run in runs:
            kind = sweep.kind(run)
            self.kinds[kind] += 1
            self.most = max(self.most, run.count)
            if run.number == 0:
                self.whole_counts.append(run.count)
            if kind is None:
                self.wrong.append(run)

    def counts(self):
        """How many allocations runs have in which nothing was refused."""
        least, most = min(self.whole_counts), max(self.whole_counts)
        return str(most) if least == most else '%d to %d' % (least, most)


class Sweep:
    """Runs of one example under one command."""

    def __init__(self, said, library, example, command):
        self.said, self.library, self.example, self.command = said, library, example, command
        self.is_on = False
        self.rounds, self.every = (said.rounds, said.every) if command == 'run' else (1, 1)

    def run(self, number):
        """The run in which the allocation of this number is refused; none is where it is 0."""
        with tempfile.NamedTemporaryFile(prefix='refused-') as counted:
            environment = {'REFUSED_AT': str(number), 'REFUSED_COUNT': counted.name}
            if self.library:
                environment['LD_PRELOAD'] = self.library
            if self.is_on:
                environment['REFUSED_ON'] = '1'
            words = [self.said.program, *self.example.words(self.command)]
            try:
                ran = ran_with(words, self.said.seconds, env=environment)
                status, out, err = ran.returncode, ran.stdout, ran.stderr
            except subprocess.TimeoutExpired:
                status, out, err = 'no end', b'', b''
            count = counted.read(8)
        return Run(number, status, out, err, struct.unpack('N', count)[0] if len(count) == 8 else 0)

    def kind(self, run):
        """How a run ended: 'refused', 'report', 'not reached', or None where that is wrong."""
        is_reached = 0 < run.number <= run.count
        if is_reached and run.status == NO_MEMORY and not run.out and not run.err:
            return 'refused'
        if run.status == 0 and not run.err and self.example.is_report(self.command, run.out):
            return 'report' if is_reached else 'not reached'
        return None

    def runs(self, pool, first, upto):
        """Runs with each number from the first on that is to be tried."""
        numbers = range(first, upto, self.every)
        return pool.map(self.run, [number for number in numbers for _ in range(self.rounds)])

    def whole(self):
        """Runs with nothing refused, and with each number up to the one behind the greatest count that was seen."""
        seen = Seen()
        with concurrent.futures.ThreadPoolExecutor(self.said.jobs) as pool:
            seen.take(self, self.runs(pool, 0, 1))
            number = 1
            while number <= seen.most + 1:
                upto = min(number + BLOCK * self.every, seen.most + 2)
                seen.take(self, self.runs(pool, number, upto))
                number += -(-(upto - number) // self.every) * self.every
        return seen

    def told(self):
        """Tells of the runs: whether all ended well."""
        began = time.time()
        seen = self.whole()
        how = 'from each on' if self.is_on else 'one at a time'
        if self.rounds > 1:
            how += ', each number %d times' % self.rounds
        kinds = seen.kinds
        print('%s %s, %s: %s allocations where none was refused, up to %d in any run, %d runs, %d s: %d ended with '
              'status 8 and nothing printed, %d with the report though one was refused, %d with the report where none '
              'was, %d otherwise'
              % (self.command, self.example.name, how, seen.counts(), seen.most, sum(kinds.values()),
                 time.time() - began, kinds['refused'], kinds['report'], kinds['not reached'], len(seen.wrong)),
              flush=True)
        for run in seen.wrong[:20]:
            print('  allocation %d of %d: status %s, %r, %r'
                  % (run.number, run.count, run.status, run.out[:400], run.err[:400]))
        return not seen.wrong and kinds['refused'] + kinds['report'] > 0


def has_run(said):
    """Whether the program knows the command `run`: else it answers Usage."""
    return ran_with([said.program, 'run', '/no/such/file', '/no/such/file'], said.seconds).returncode != USAGE


def tried(said, example, command):
    """Has `rt try` refuse one allocation, or one after the other: whether the runs ended well."""
    words = ['rt', 'try', '--fail-alloc', said.tried, '--seconds', '600', '--', *example.words(command)]
    ran = subprocess.run(words, cwd=os.path.join(CRATES, 'dsorun'), stdin=subprocess.DEVNULL, capture_output=True)
    is_well = (ran.returncode, ran.stdout) == (NO_MEMORY, b'') or (
        ran.returncode == 0 and example.is_report(command, ran.stdout))
    print('%s %s, by rt try at %s: status %d, %d bytes%s'
          % (command, example.name, said.tried, ran.returncode, len(ran.stdout),
             '' if is_well else ', WRONG: %r' % ran.stderr[-400:]), flush=True)
    return is_well


def built_library(folder):
    """The library that counts and refuses, built into the folder."""
    library = os.path.join(folder, 'refused_memory.so')
    subprocess.run(['cc', '-shared', '-fPIC', '-O2', '-o', library, os.path.join(HERE, 'refused_memory.c')], check=True)
    return library


def main():
    said = arguments()
    chosen = [it for it in examples() if not said.example or it.name in said.example]
    if said.tried:
        return 0 if all([tried(said, it, command) for command in said.command or ['sim'] for it in chosen]) else 1
    if not os.access(said.program, os.X_OK):
        print('skipped: there is no program %s' % said.program)
        return 0
    if not said.counts_itself and not shutil.which('cc'):
        print('skipped: there is no cc')
        return 0
    said.program = os.path.abspath(said.program)
    commands = said.command or (['sim', 'run'] if has_run(said) else ['sim'])
    is_well = True
    with tempfile.TemporaryDirectory(prefix='refused-memory-') as folder:
        library = None if said.counts_itself else built_library(folder)
        for command in commands:
            for example in chosen:
                sweep = Sweep(said, library, example, command)
                is_well &= sweep.told()
                if said.on:
                    sweep.is_on = True
                    is_well &= sweep.told()
    return 0 if is_well else 1


if __name__ == '__main__':
    sys.exit(main())
