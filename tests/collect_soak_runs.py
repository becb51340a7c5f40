"""Runs made programs with `--collect`, and compares them with another reading of the rules.

Each program is run without the option, with its journal, and with each number of entries. With the option status and
journal are to be those without it, and what is printed that report and a line `swept K`; and all of it is to be the
other reading's. Every second program is of `soak_programs`, the others of `collect_programs`. What is wrong is told
and kept, and the status is then 1; without the program it is 2, and without the other reading all is skipped.
"""
import argparse
import collections
import os
import re
import sys
import tempfile
import time

import collect_programs
import soak_programs
from soak_runs import ORACLE, TOP, Files, Sink, by_program

# what of the rules the other reading is asked for
STAGE = 20
# how a run may end: finished, stuck, cut off, or finished with faults
ENDS = {0: 'finished', 2: 'refused', 3: 'refused', 6: 'stuck', 7: 'cut off', 9: 'with faults'}
SWEPT = re.compile(rb'swept (\d+)\n$')


def arguments():
    parser = argparse.ArgumentParser(prog='tests/collect_soak', description=__doc__.split('\n')[0],
                                     formatter_class=argparse.ArgumentDefaultsHelpFormatter)
    parser.add_argument('--count', type=int, default=100, help='how many programs')
    parser.add_argument('--first', type=int, default=0, help='the number of the first program')
    parser.add_argument('--seed', type=int, default=1, help='the seed of the generators')
    parser.add_argument('--collect', default='1,3,7,50,1000', help='after how many entries it is collected, each tried')
    parser.add_argument('--minutes', type=float, default=1000, help='how long it goes on at most')
    parser.add_argument('--seconds', type=int, default=300, help='how long a run may take')
    parser.add_argument('--program', default=os.path.join(TOP, 'dsorun'), help='the program in place of ./dsorun')
    parser.add_argument('--oracle', default=ORACLE, help='the folder of the other reading')
    parser.add_argument('--keep', help='where what is wrong is kept (a new folder, where left out)')
    return parser.parse_args()


def made(seed, number):
    return (collect_programs if number % 2 else soak_programs).made(seed, number)


class Soak:
    """What was seen."""

    def __init__(self, said, folder):
        import main as oracle
        self.said, self.folder, self.oracle = said, folder, oracle
        self.seen, self.wrong = collections.Counter(), 0

    def tell(self, number, what, *texts):
        self.wrong += 1
        if self.said.keep is None:
            self.said.keep = tempfile.mkdtemp(prefix='collect-soak-')
        folder = os.path.join(self.said.keep, str(number))
        os.makedirs(folder, exist_ok=True)
        texts = made(self.said.seed, number)[:2] + texts
        for name, content in zip(('config.toml', 'program.dso', 'ours.txt', 'theirs.txt'), texts):
            with open(os.path.join(folder, name), 'wb') as file:
                file.write(content)
        print('program %d: %s: %s' % (number, what, folder), flush=True)

    def by_oracle(self, config, program, options):
        """(status, report, journal) by the other reading."""
        files, sink = Files(self.oracle.ReadFault, {'c': config, 'p': program}), Sink()
        status = self.oracle.dso_main(['sim', 'c', 'p', *options, '--journal', 'j'], files, sink, STAGE)
        return status, sink.taken, files.files.get('j', b'')

    def both(self, number, options):
        """What the program comes to; it is told where the other reading comes to something else."""
        config, program, given = made(self.said.seed, number)
        options = given + options
        ours = by_program(self.said.program, self.folder, config, program, options, True, seconds=self.said.seconds)
        theirs = self.by_oracle(config, program, options)
        if ours != theirs:
            parts = [what for what, a, b in zip(('status', 'report', 'journal'), ours, theirs) if a != b]
            self.tell(number, '%s: another %s' % (' '.join(options), ' and '.join(parts)), ours[1], theirs[1])
        self.seen['runs'] += 1
        return ours

    def case(self, number):
        status, report, journal = self.both(number, [])
        self.seen['programs: ' + ENDS.get(status, 'status %d' % status)] += 1
        config, program, _ = made(self.said.seed, number)
        for name in (b'resident', b'[[lose]]', b'[[break]]'):
            self.seen['programs with %s' % name.decode()] += name in config
        self.seen['programs with a map'] += b'DsoMap' in program
        self.seen['entries of journals'] += journal.count(b'\n')
        is_refused = status in (2, 3)
        for each in self.said.collect.split(','):
            ours = self.both(number, ['--collect', each])
            swept = SWEPT.search(ours[1])
            whole = (status, report + (b'' if swept is None else swept.group(0)), journal)
            if ours != whole or is_refused != (swept is None):
                self.tell(number, 'with --collect %s it is not the run without it' % each, ours[1], report)
            if swept is not None and int(swept.group(1)):
                self.seen['runs that swept with --collect %s' % each] += 1
                self.seen['objects swept with --collect %s' % each] += int(swept.group(1))


def main():
    said = arguments()
    if not os.path.isfile(os.path.join(said.oracle, 'main.py')):
        print('skipped: there is no other reading in %s' % said.oracle)
        return 0
    if not os.access(said.program, os.X_OK):
        print('there is no program %s' % said.program)
        return 2
    said.program = os.path.abspath(said.program)
    sys.path.insert(0, said.oracle)
    sys.setrecursionlimit(20000)
    began, count = time.time(), 0
    with tempfile.TemporaryDirectory(prefix='collect-soak-') as folder:
        soak = Soak(said, folder)
        for number in range(said.first, said.first + said.count):
            if time.time() - began > 60 * said.minutes:
                break
            try:
                soak.case(number)
            except Exception as error:      # one that goes wrong is told like one that differs
                soak.tell(number, '%s: %s' % (type(error).__name__, error))
            count += 1
            if count % 100 == 0:
                print('%d programs, %d s, %d wrong' % (count, time.time() - began, soak.wrong), flush=True)
    for what in sorted(soak.seen):
        print('%-50s %d' % (what, soak.seen[what]))
    print('%d programs of seed %d from %d on, %d s: %d wrong'
          % (count, said.seed, said.first, time.time() - began, soak.wrong))
    return 1 if soak.wrong else 0


if __name__ == '__main__':
    sys.exit(main())
