"""Asks the lock checker about made programs, and runs those to which it says yes.

Each answer, with its exit status, is to be the other reading's. A program with a yes is run with `sim` by round robin
and by some seeds, and in threads, with the losses and breaks of its configuration: no report may have a fault of locks,
or a read that was not guarded. Programs with a no are run, too, once each, to see how many of those do show one. What
is wrong is told and kept, and the status is then 1; without the program it is 2.
"""
import argparse
import collections
import os
import random
import re
import subprocess
import sys
import tempfile
import time

import lint_programs
from soak_runs import ORACLE, TOP

# what of the rules the other reading is asked for
STAGE = 20
# how a run may end: finished, stuck, cut off, or finished with faults
ENDS = {0: 'finished', 6: 'stuck', 7: 'cut off', 9: 'with faults'}
# what a yes excludes
EXCLUDED = re.compile(rb'^thread \S+ fault (UnlockedSharedObject|WrongLock|ReadOnly|LockUpgrade)$|^unguarded [1-9]',
                      re.M)
STEPS = '20000'


def arguments():
    parser = argparse.ArgumentParser(prog='tests/lint_soak', description=__doc__.split('\n')[0],
                                     formatter_class=argparse.ArgumentDefaultsHelpFormatter)
    parser.add_argument('--count', type=int, default=100, help='how many programs')
    parser.add_argument('--first', type=int, default=0, help='the number of the first program')
    parser.add_argument('--seed', type=int, default=1, help='the seed of the generator')
    parser.add_argument('--minutes', type=float, default=1000, help='how long it goes on at most')
    parser.add_argument('--schedules', type=int, default=4, help='how many schedules of `sim`')
    parser.add_argument('--runs', type=int, default=2, help='how many runs in threads')
    parser.add_argument('--seconds', type=int, default=120, help='how long a run may take')
    parser.add_argument('--program', default=os.path.join(TOP, 'dsorun'), help='the program in place of ./dsorun')
    parser.add_argument('--oracle', default=ORACLE, help='the folder of the other reading')
    parser.add_argument('--keep', help='where what is wrong is kept (a new folder, where left out)')
    return parser.parse_args()


def answer_due(config, program):
    """(status, line) of the checker by the other reading."""
    import lint
    import sim
    try:
        no = lint.lint(sim.load(config, program, STAGE))
    except sim.Refusal as refusal:
        return refusal.status, refusal.line.encode() + b'\n'
    return (0, b'lint yes\n') if no is None else (13, b'lint no %s %d %s\n' % (no[0].encode(), no[1], no[2].encode()))


class Soak:
    """What was seen."""

    def __init__(self, said, folder):
        self.said, self.folder, self.seen, self.wrong = said, folder, collections.Counter(), 0

    def called(self, *words):
        words = [self.said.program, words[0], 'c', 'p', *words[1:]]
        ran = subprocess.run(words, cwd=self.folder, stdin=subprocess.DEVNULL, stdout=subprocess.PIPE,
                             stderr=subprocess.DEVNULL, timeout=self.said.seconds, check=False)
        return ran.returncode, ran.stdout

    def tell(self, number, what, *texts):
        self.wrong += 1
        if self.said.keep is None:
            self.said.keep = tempfile.mkdtemp(prefix='lint-soak-')
        folder = os.path.join(self.said.keep, str(number))
        os.makedirs(folder, exist_ok=True)
        texts = lint_programs.made(self.said.seed, number) + texts
        for name, content in zip(('config.toml', 'program.dso', 'report.txt'), texts):
            with open(os.path.join(folder, name), 'wb') as file:
                file.write(content)
        print('program %d: %s: %s' % (number, what, folder), flush=True)

    def run(self, number, has_yes, *words):
        """Whether the run shows what a yes excludes; tells it where the checker said yes."""
        status, report = self.called(*words, '--steps', STEPS)
        found = EXCLUDED.search(report)
        kind = '%s, %s' % ('yes' if has_yes else 'no', words[0])
        self.seen['%s: %s' % (kind, ENDS.get(status, 'status %d' % status))] += 1
        for ending in re.findall(rb'^thread \S+ (ended|lost|waiting|open|fault \S+)$', report, re.M):
            self.seen['%s: threads with `%s`' % (kind, ending.decode())] += 1
        if has_yes and (found or status not in ENDS):
            what = found.group(0).decode() if found else ''
            self.tell(number, '%s: status %d, %s' % (' '.join(words), status, what), report)
        return found is not None

    def case(self, number):
        config, program = lint_programs.made(self.said.seed, number)
        for name, content in (('c', config), ('p', program)):
            with open(os.path.join(self.folder, name), 'wb') as file:
                file.write(content)
        due, ours = answer_due(config, program), self.called('lint')
        if ours != due:
            self.tell(number, 'answered %r, due %r' % (ours, due), ours[1])
        word = due[1].decode().split()
        self.seen['answers: ' + ('refused' if word[0] != 'lint' else ' '.join(word[:3] + word[4:]))] += 1
        if due[0] == 13:
            shows = self.run(number, False, 'sim')
            self.seen['answers: no, of which one run shows why'] += shows
        if due[0] == 0:
            self.runs(number, config)

    def runs(self, number, config):
        chosen = random.Random(number)
        self.seen['yes, with losses'] += b'[[lose]]' in config
        self.seen['yes, with breaks'] += b'[[break]]' in config
        for schedule in range(self.said.schedules):
            self.run(number, True, 'sim', *(['--seed', str(chosen.getrandbits(64))] if schedule else []))
        for _ in range(self.said.runs):
            self.run(number, True, 'run')


def main():
    said = arguments()
    if not os.path.isfile(os.path.join(said.oracle, 'main.py')):
        print('skipped: there is no other reading in %s' % said.oracle)
        return 0
    if not os.access(said.program, os.X_OK):
        print('there is no program %s' % said.program)
        return 2
    said.program = os.path.abspath(said.program)
    sys.path.insert(0, said.oracle)
    sys.setrecursionlimit(20000)
    began, count = time.time(), 0
    with tempfile.TemporaryDirectory(prefix='lint-soak-') as folder:
        soak = Soak(said, folder)
        for number in range(said.first, said.first + said.count):
            if time.time() - began > 60 * said.minutes:
                break
            try:
                soak.case(number)
            except Exception as error:      # one that goes wrong is told like one that differs
                soak.tell(number, '%s: %s' % (type(error).__name__, error))
            count += 1
            if count % 100 == 0:
                print('%d programs, %d s, %d wrong' % (count, time.time() - began, soak.wrong), flush=True)
    for what in sorted(soak.seen):
        print('%-50s %d' % (what, soak.seen[what]))
    print('%d programs of seed %d from %d on, %d s: %d wrong'
          % (count, said.seed, said.first, time.time() - began, soak.wrong))
    return 1 if soak.wrong else 0


if __name__ == '__main__':
    sys.exit(main())
