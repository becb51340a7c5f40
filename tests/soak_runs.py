"""Runs made programs through dsorun and through another reading of the rules, and compares what they come to.

It compares exit status, report and, where dsorun writes one, the journal, and tells how many programs ended in which
way. A program that comes out differently is kept, and the status is then 1.
"""
import argparse
import collections
import multiprocessing
import os
import signal
import subprocess
import sys
import tempfile
import time

import soak_programs

TOP = os.path.dirname(os.path.dirname(os.path.abspath(__file__)))
ORACLE = os.path.join(TOP, '..', 'shared', 'oracle')
# what of the rules the other reading is asked for: all that dsorun runs
STAGE = 16
# how long a run may take
SECONDS = 300
STATUSES = {0: 'Finished', 2: 'BadConfig', 3: 'BadProgram', 6: 'Stuck', 7: 'Budget', 8: 'NoMemory', 9: 'FinishedFault'}


def arguments():
    parser = argparse.ArgumentParser(description=__doc__.split('\n')[0])
    parser.add_argument('--count', type=int, default=200, help='how many programs')
    parser.add_argument('--first', type=int, default=0, help='the number of the first program')
    parser.add_argument('--seed', type=int, default=1, help='the seed of the generator')
    parser.add_argument('--jobs', type=int, default=os.cpu_count() or 1, help='how many side by side')
    parser.add_argument('--program', default=os.path.join(TOP, 'dsorun'), help='the program in place of ./dsorun')
    parser.add_argument('--oracle', default=ORACLE, help='the folder of the other reading')
    parser.add_argument('--reading', help='a program of the same words that is asked before the other reading')
    parser.add_argument('--no-journal', action='store_true', help='compare no journals')
    parser.add_argument('--keep', help='where programs that differ are kept (a new folder, where left out)')
    return parser.parse_args()


class Files:
    """The files of one run of the other reading, in memory."""

    def __init__(self, read_fault, files):
        self.read_fault = read_fault
        self.files = files

    def read(self, name, most):
        if name not in self.files:
            raise self.read_fault
        return self.files[name][:most]

    def write(self, name, data):
        self.files[name] = data


class Sink:
    def __init__(self):
        self.taken = b''

    def put_all(self, data):
        self.taken += data


def by_oracle(oracle, config, program, options, has_journal):
    """(status, report, journal) by the other reading."""
    files, sink = Files(oracle.ReadFault, {'c': config, 'p': program}), Sink()
    words = ['sim', 'c', 'p'] + options + (['--journal', 'j'] if has_journal else [])
    status = oracle.dso_main(words, files, sink, STAGE)
    return status, sink.taken, files.files.get('j', b'')


def by_program(program_file, folder, config, program, options, has_journal, command='sim', seconds=SECONDS):
    """(status, report, journal) by dsorun; the journal is empty where none is written."""
    for name, content in (('c', config), ('p', program)):
        with open(os.path.join(folder, name), 'wb') as file:
            file.write(content)
    journal = os.path.join(folder, 'j')
    if os.path.exists(journal):
        os.remove(journal)
    words = [program_file, command, 'c', 'p'] + options + (['--journal', 'j'] if has_journal else [])
    ran = subprocess.run(words, cwd=folder, stdin=subprocess.DEVNULL, stdout=subprocess.PIPE, timeout=seconds)
    text = b''
    if os.path.exists(journal):
        with open(journal, 'rb') as file:
            text = file.read()
    return ran.returncode, ran.stdout, text


def readings(said):
    """What gives (status, report, journal) by the other reading: a program and, where that differs, the one in Python."""
    sys.path.insert(0, said.oracle)
    sys.setrecursionlimit(20000)
    import main as oracle
    last = [lambda folder, *given: by_oracle(oracle, *given)]
    return [lambda *given: by_program(said.reading, *given)] + last if said.reading else last


def first_equal(all_readings, ours, given):
    """What differs from each of the readings, in words, or None where one of them is equal."""
    for read in all_readings:
        differs = difference(ours, read(*given))
        if differs is None:
            return None
    return differs


def difference(ours, theirs):
    """What differs, in words, or None."""
    parts = [what for what, a, b in zip(('status', 'report', 'journal'), ours, theirs) if a != b]
    return None if not parts else ' and '.join(parts)


def worker(given):
    """Runs every `jobs`-th program; gives (number, status, what differs, lines of the journal)."""
    said, place, has_journal, results = given
    all_readings = readings(said)
    with tempfile.TemporaryDirectory(prefix='soak-') as folder:
        for number in range(said.first + place, said.first + said.count, said.jobs):
            config, program, options = soak_programs.made(said.seed, number)
            try:
                made = folder, config, program, options, has_journal
                ours = by_program(said.program, *made)
                results.put((number, ours[0], first_equal(all_readings, ours, made), ours[2].count(b'\n')))
            except Exception as error:      # one that goes wrong is told like one that differs
                results.put((number, None, '%s: %s' % (type(error).__name__, error), 0))
    results.put(None)


def kept(said, number):
    """Puts the files of a program that differs into the folder for these, and gives its name."""
    if said.keep is None:
        said.keep = tempfile.mkdtemp(prefix='soak-differs-')
    folder = os.path.join(said.keep, str(number))
    os.makedirs(folder, exist_ok=True)
    config, program, options = soak_programs.made(said.seed, number)
    for name, content in (('config.toml', config), ('program.dso', program), ('options', ' '.join(options).encode())):
        with open(os.path.join(folder, name), 'wb') as file:
            file.write(content)
    return folder


def writes_journals(program_file):
    """Whether the program takes `--journal`."""
    with tempfile.TemporaryDirectory(prefix='soak-') as folder:
        return by_program(program_file, folder, b'', b'', [], True)[0] == 0


class Tally:
    """How many programs ended in which way, how many differ, and how many entries their journals have."""

    def __init__(self):
        self.ended, self.differing, self.entries = collections.Counter(), 0, 0

    def take(self, said, number, status, differs, entries):
        self.ended[status] += 1
        self.entries += entries
        if differs:
            self.differing += 1
            print('program %d differs in %s: %s' % (number, differs, kept(said, number)), flush=True)
        if sum(self.ended.values()) % 100 == 0:
            print('%d programs, %d differ' % (sum(self.ended.values()), self.differing), flush=True)

    def ways(self):
        return ', '.join('%d %s' % (count, STATUSES.get(status, 'status %s' % status))
                         for status, count in sorted(self.ended.items(), key=str))


def gather(said, results, tally):
    """Takes what the workers tell until all have ended, or until this is interrupted."""
    busy = said.jobs
    try:
        while busy:
            told = results.get()
            if told is None:
                busy -= 1
            else:
                tally.take(said, *told)
    except KeyboardInterrupt:
        print('interrupted')


def main():
    said = arguments()
    if not os.path.isfile(os.path.join(said.oracle, 'main.py')):
        print('skipped: there is no other reading in %s' % said.oracle)
        return 0
    if not os.access(said.program, os.X_OK):
        print('there is no program %s' % said.program)
        return 2
    said.program = os.path.abspath(said.program)
    said.reading = said.reading and os.path.abspath(said.reading)
    has_journal = not said.no_journal and writes_journals(said.program)
    began, tally, results = time.time(), Tally(), multiprocessing.Queue()
    workers = [multiprocessing.Process(target=worker, args=((said, place, has_journal, results),))
               for place in range(said.jobs)]
    for it in workers:
        it.start()
    signal.signal(signal.SIGTERM, signal.default_int_handler)
    gather(said, results, tally)
    for it in workers:
        it.terminate()
    print('%d programs of seed %d from %d on, %d s: %s'
          % (sum(tally.ended.values()), said.seed, said.first, time.time() - began, tally.ways()))
    what = 'status, report and journal (%d entries)' % tally.entries if has_journal else 'status and report'
    print('compared by %s: %d differ' % (what, tally.differing))
    return 1 if tally.differing else 0


if __name__ == '__main__':
    sys.exit(main())
