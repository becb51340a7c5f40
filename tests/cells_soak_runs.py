"""Drives made programs through the cells by rounds, and compares what they come to with another reading of the rules.

Of each program it compares the rows and the journal byte by byte, asks the other reading whether the journal is
lawful, and tells how many runs ended, how many are finished, and how many cells were spent. A program that comes out
differently, an unlawful journal, a spent cell, or a run that doesn't end though the other reading's run on one thread
does, is told, and the status is then 1.
"""
import argparse
import collections
import itertools
import multiprocessing
import os
import re
import subprocess
import sys
import tempfile
import time

import soak_programs

TOP = os.path.dirname(os.path.dirname(os.path.abspath(__file__)))
ORACLE = os.path.join(TOP, '..', 'shared', 'oracle')
CRATE = os.path.join(TOP, 'crates', 'cluster_cases')
# what stands before rows of cells in what that crate reads
BEFORE = '== one client\n== cells\n'
# what of the rules the other reading is asked for: all that the cells run
STAGE = 16
# how many steps the other reading makes of a program that doesn't end
STEPS = 20000
# how much a run may print
MOST_OUTPUT = 400_000
# a row of a case, or a line of its journal
ROW = re.compile(r'(rounds|journal): |\d+ (s|c\d+) ')
# how long the runs of one call may take
SECONDS = 600


def arguments():
    parser = argparse.ArgumentParser(description=__doc__.split('\n')[0])
    parser.add_argument('--count', type=int, default=200, help='how many programs')
    parser.add_argument('--first', type=int, default=0, help='the number of the first program')
    parser.add_argument('--seed', type=int, default=1, help='the seed of the generator')
    parser.add_argument('--rounds', type=int, default=3000, help='how many rounds a run has at most')
    parser.add_argument('--jobs', type=int, default=1, help='how many read side by side')
    parser.add_argument('--oracle', default=ORACLE, help='the folder of the other reading')
    parser.add_argument('--keep', help='where the rows that were run, and what was answered, are kept (nowhere, where left out)')
    return parser.parse_args()


class Case:
    """One program: its rows, and what the other reading answers to them."""

    def __init__(self, number, config, program, lines, wanted):
        self.number, self.config, self.program = number, config, program
        self.lines, self.wanted = lines, wanted

    def size(self):
        return len('\n'.join(self.wanted))


def case_of(said, number):
    """The case of this number, by the other reading."""
    import cells_reading
    config, program, _ = soak_programs.made(said.seed, number)
    texts = ['program ' + cells_reading.escaped(program), 'config ' + cells_reading.escaped(config)]
    lines = texts + ['cells program %d' % number, 'rounds: rounds %d' % said.rounds, 'journal: journal']
    rows = cells_reading.Rows(STAGE)
    return Case(number, config, program, lines, [out for line in lines for out in rows.line(line)])


def cases_of(given):
    """Every `jobs`-th case."""
    said, place = given
    sys.path.insert(0, said.oracle)
    sys.setrecursionlimit(20000)
    return [case_of(said, number) for number in range(said.first + place, said.first + said.count, said.jobs)]


def files_of(cases):
    """The cases in lists, each of which prints no more than may be printed."""
    files, size = [[]], 0
    for case in cases:
        if files[-1] and size + case.size() > MOST_OUTPUT:
            files, size = files + [[]], 0
        files[-1].append(case)
        size += case.size()
    return files


def run(folder, files):
    """What the cells answer: the output of each file."""
    for number, cases in enumerate(files):
        with open(os.path.join(folder, '%05d' % number), 'w', encoding='latin-1') as file:
            file.write(BEFORE + ''.join(line + '\n' for case in cases for line in case.lines))
    words = ['rt', 'try', '--steps', '1', '--seconds', str(SECONDS), '--cases', folder]
    ran = subprocess.run(words, cwd=CRATE, stdin=subprocess.DEVNULL, stdout=subprocess.PIPE, stderr=subprocess.STDOUT,
                         encoding='latin-1', check=False)
    with open(os.path.join(os.path.dirname(folder), 'answers'), 'w', encoding='latin-1') as file:
        file.write(ran.stdout)
    parts = re.split(r'^== (\d{5})\n', ran.stdout, flags=re.M)
    return dict(zip(parts[1::2], parts[2::2])), parts[0], ran.returncode


def rows_of(lines):
    """The lines of a case, without what `rt try` says behind those of a file."""
    return list(itertools.takewhile(ROW.match, lines.split('\n')))


def answers_of(cases, output):
    """The lines of each case among the output of its file."""
    parts = re.split(r'^program (\d+)\n', output, flags=re.M)
    told = {int(number): rows_of(lines) for number, lines in zip(parts[1::2], parts[2::2])}
    return [(case, told.get(case.number, [])) for case in cases]


def ends(case):
    """Whether the program ends by the other reading, on one thread."""
    from sim import run_sim
    return run_sim(case.config, case.program, None, STEPS, STAGE, check=False).end != 'budget'


class Tally:
    """What was seen."""

    def __init__(self):
        self.seen, self.wrong = collections.Counter(), 0

    def tell(self, case, what):
        self.wrong += 1
        print('program %d: %s' % (case.number, what), flush=True)

    def take(self, case, lines):
        """The lines that the cells answered."""
        import journal_reading
        self.seen['programs'] += 1
        if ['program %d' % case.number] + lines != case.wanted:
            self.tell(case, 'differs from the other reading')
        if lines == ['rounds: no cells', 'journal: no cells']:
            self.seen['refused'] += 1
            return
        rounds = re.fullmatch(r'rounds: (\d+) entries, (ended|not ended), (\d+) spent', lines[0] if lines else '')
        if rounds is None:
            self.tell(case, 'no answer')
            return
        self.seen['entries'] += int(rounds.group(1))
        self.seen[rounds.group(2)] += 1
        self.seen['cells spent'] += int(rounds.group(3))
        if rounds.group(3) != '0':
            self.tell(case, '%s cells spent' % rounds.group(3))
        if rounds.group(2) == 'not ended' and ends(case):
            self.tell(case, 'does not end')
        why, finished = journal_reading.judged(case.config, case.program, lines[2:], STAGE)
        if why is not None:
            self.tell(case, 'the journal is not lawful: %s' % why)
        else:
            self.seen['lawful journals'] += 1
            self.seen['finished'] += finished

    def text(self):
        wanted = ['programs', 'refused', 'ended', 'not ended', 'finished', 'lawful journals', 'entries', 'cells spent']
        return ', '.join('%d %s' % (self.seen[what], what) for what in wanted)


def main():
    said = arguments()
    if not os.path.isfile(os.path.join(said.oracle, 'main.py')):
        print('skipped: there is no other reading in %s' % said.oracle)
        return 0
    sys.path.insert(0, said.oracle)
    sys.setrecursionlimit(20000)
    began, tally = time.time(), Tally()
    with multiprocessing.Pool(said.jobs) as pool:
        parts = pool.map(cases_of, [(said, place) for place in range(said.jobs)])
    cases = sorted((case for part in parts for case in part), key=lambda case: case.number)
    files = files_of(cases)
    print('%d programs read in %d s, %d files' % (len(cases), time.time() - began, len(files)), flush=True)
    with tempfile.TemporaryDirectory(prefix='cells-soak-') as own:
        folder = os.path.join(said.keep or own, 'rows')
        os.makedirs(folder, exist_ok=True)
        outputs, head, status = run(folder, files)
    if status or head.strip():
        print('rt try ended with status %d: %s' % (status, head.strip()[:500]))
    for number, cases in enumerate(files):
        for case, lines in answers_of(cases, outputs.get('%05d' % number, '')):
            tally.take(case, lines)
    print('seed %d from %d on, %d s: %s' % (said.seed, said.first, time.time() - began, tally.text()))
    print('%d wrong' % tally.wrong)
    return 1 if tally.wrong else 0


if __name__ == '__main__':
    sys.exit(main())
