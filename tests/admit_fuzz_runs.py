"""Sends a server bytes, lawful or not, and compares what it tells with another reading of the rules.

Each case is a fresh server with the ends of four connections, and 1 to 40 frames that its clients send. The program of
crates/server_cases answers, and, where it is there, that of crates/connection_cases tells what it reads in each frame. A case
that comes out differently is kept, and the status is then 1. With `--wrong` the other reading has a rule changed, which
is to be noticed: `--wrong all` does so with one after the other, and the status is 1 where one isn't. With
`--by-reading` that reading answers itself, as it is, and no program is needed. With `--cases` nothing is run: what is
sent and what is to be told is written into a folder, for `rt try --cases FOLDER` in crates/server_cases.
"""
import argparse
import collections
import concurrent.futures
import functools
import os
import subprocess
import sys
import tempfile
import time

import admit_fuzz_frames
import admit_fuzz_words
import admit_fuzz_wrong

TOP = os.path.dirname(os.path.dirname(os.path.abspath(__file__)))
ORACLE = os.path.join(TOP, '..', 'shared', 'oracle')
ANSWERS = os.path.join(TOP, 'tests', 'admit_fuzz_answers.py')
# how many frames are sent to one run of the program, also where a reading is wrong, and how long that may take
BLOCK, WRONG_BLOCK = 2000, 250
# what stands before rows of frames in what each program reads
BEFORE = {'admit': '== frames\n', 'wire': '== frames as bytes\n'}
SECONDS = 300
# how many frames find a wrong reading at most
WRONG_COUNT = 100000


def built(name):
    return os.path.join(TOP, 'crates', name, 'out', name)


def arguments():
    parser = argparse.ArgumentParser(description=__doc__.split('\n')[0])
    parser.add_argument('--count', type=int, help='how many frames (1000000; with --wrong %d)' % WRONG_COUNT)
    parser.add_argument('--first', type=int, default=0, help='the number of the first block of frames')
    parser.add_argument('--seed', type=int, default=1, help='the seed of the generator')
    parser.add_argument('--jobs', type=int, default=os.cpu_count() or 1, help='how many blocks side by side')
    parser.add_argument('--program', default=built('server_cases'), help='the program that answers')
    parser.add_argument('--wire', default=built('connection_cases'), help='the program that tells what frames are')
    parser.add_argument('--oracle', default=ORACLE, help='the folder of the other reading')
    parser.add_argument('--by-reading', action='store_true', help='with --wrong: it answers, unchanged, and no program')
    parser.add_argument('--wrong', help='a rule to change in it, or all', choices=['all', *admit_fuzz_wrong.RULES])
    parser.add_argument('--keep', help='where cases that differ are kept (a new folder, where left out)')
    parser.add_argument('--cases', metavar='FOLDER', help='write each block there, for rt try --cases, and run nothing')
    said = parser.parse_args()
    if said.by_reading and not said.wrong:
        parser.error('--by-reading compares the other reading with itself: give --wrong')
    if said.cases and said.wrong:
        parser.error('--cases writes what the rules say: give no --wrong')
    said.count = said.count or (WRONG_COUNT if said.wrong else 1000000)
    said.block = WRONG_BLOCK if said.wrong else BLOCK
    return said


class Rows:
    """Rows for the two programs, each with the answer of the other reading."""

    def __init__(self, reading, are_read):
        self.reading, self.are_read = reading, are_read
        self.admitted, self.read = [], []
        self.kinds, self.sent, self.frames = collections.Counter(), collections.Counter(), 0

    def case(self, seed, most):
        """Makes a case of at most so many frames."""
        case = admit_fuzz_frames.Case(self.reading, seed)
        self.admitted.append((seed, seed))
        left = most
        for client, step in case.steps():
            if step[0] == 'bytes':
                self.send(case, client, step[1])
                left -= 1
            else:
                self.add('%d %s' % (client, ' '.join(map(str, step))), self.done(case, client, step))
            if left == 0:
                break
        for client in (0, *case.ends):
            self.add('%d told' % client, admit_fuzz_words.state(case.server, case.ends, client))

    def add(self, command, answer):
        self.admitted.append(('x: ' + command, 'x: ' + answer))

    def done(self, case, client, step):
        if step[0] == 'break':
            case.ends[client].break_now()
            return 'broken'
        case.ends[client].send(('ids', step[1]), 1)
        return 'posted'

    def send(self, case, client, data):
        answer, sent = self.reading.admit.admit(case.server, case.ends[client], client, data)
        self.frames += 1
        self.kinds[kind_of(answer)] += 1
        self.sent.update(message[0] for _, message in sent)
        self.add('%d bytes %s' % (client, data.hex()), admit_fuzz_words.admitted(answer, sent))
        if self.are_read:
            self.read.append(('x: up ' + data.hex(), 'x: ' + admit_fuzz_words.read_as(self.reading, data)))


def kind_of(answer):
    """What an answer is counted as."""
    if answer[0] == 'took':
        return 'Took %s %s' % (admit_fuzz_words.TAKEN.get(answer[1], 'BadMessage'), answer[2][0])
    return 'BadBytes ' + answer[1][0] if answer[0] == 'badbytes' else admit_fuzz_words.ANSWERS[answer[0]]


def blocks(said):
    """How many blocks there are."""
    return -(-said.count // said.block)


def rows_of_block(reading, said, block, frames):
    """The cases of a block, which have so many frames in all."""
    rows, number = Rows(reading, said.wire is not None), 0
    while rows.frames < frames:
        rows.case('case %d/%d/%d' % (said.seed, block, number), frames - rows.frames)
        number += 1
    return rows


def first_difference(program, rows, before):
    """Where the program answers otherwise, behind what stands before the rows: (number of the row, what), or None."""
    text = before + ''.join(row + '\n' for row, _ in rows)
    try:
        ran = subprocess.run(program, input=text.encode(), stdout=subprocess.PIPE, timeout=SECONDS)
    except subprocess.TimeoutExpired:
        return len(rows) - 1, 'no end in %d seconds' % SECONDS
    answers = ran.stdout.decode(errors='replace').split('\n')
    for at, (_, answer) in enumerate(rows):
        if at >= len(answers) or answers[at] != answer:
            ours = answers[at] if at < len(answers) else 'nothing'
            return at, '%r, by the other reading %r, status %d' % (ours, answer, ran.returncode)
    if ran.returncode:
        return len(rows) - 1, 'status %d' % ran.returncode
    return None


def compared(said, rows, block):
    """What differs in a block, in words, each with the rows up to it."""
    told = []
    for name, program, its in (('admit', said.program, rows.admitted), ('wire', said.wire, rows.read)):
        before = '' if said.by_reading else BEFORE[name]
        differs = first_difference(program, its, before) if program else None
        if differs:
            at, what = differs
            begin = at
            while name == 'admit' and not its[begin][0].startswith('case '):
                begin -= 1
            told.append((block, name, what, [row for row, _ in its[begin:at + 1]]))
    return told


@functools.lru_cache(None)
def reading_of(oracle, wrong):
    """The other reading, with the rule changed that is asked for; a process takes it in once."""
    sys.path.insert(0, oracle)
    reading = admit_fuzz_frames.Reading()
    if wrong:
        admit_fuzz_wrong.RULES[wrong](reading)
    return reading


def run_block(said, number):
    """Runs one block: (frames, kinds of answers, kinds of messages sent, what differs)."""
    frames, block = min(said.block, said.count - number * said.block), said.first + number
    try:
        rows = rows_of_block(reading_of(said.oracle, said.wrong), said, block, frames)
        return rows.frames, rows.kinds, rows.sent, compared(said, rows, block)
    except Exception as error:      # one that goes wrong is told like one that differs
        return 0, {}, {}, [(block, 'other reading', '%s: %s' % (type(error).__name__, error), [])]


def write_block(said, number):
    """Writes the rows of a block, and their answers, as two files of the folder for cases."""
    frames, block = min(said.block, said.count - number * said.block), said.first + number
    rows = rows_of_block(reading_of(said.oracle, None), said, block, frames)
    for ending, part in (('', 0), ('.stdout', 1)):
        with open(os.path.join(said.cases, 'block-%d%s' % (block, ending)), 'w', encoding='utf-8') as file:
            file.write(BEFORE['admit'] if part == 0 else '')
            file.writelines(row[part] + '\n' for row in rows.admitted)


def counted(kinds):
    return ', '.join('%d %s' % (count, kind) for kind, count in sorted(kinds.items()))


class Tally:
    """How many frames were answered in which way, and what differs."""

    def __init__(self, said):
        self.said, self.frames, self.differing, self.first = said, 0, 0, None
        self.kinds, self.sent = collections.Counter(), collections.Counter()

    def take(self, frames, kinds, sent, differences):
        before = self.frames
        self.frames += frames
        self.kinds.update(kinds)
        self.sent.update(sent)
        for difference in differences:
            if not self.said.wrong:
                self.keep(*difference)
            elif difference[1] == 'other reading':
                print('block %d: the wrong reading fails: %s' % (difference[0], difference[2]), flush=True)
                continue
            self.first = self.first or difference[2]
            self.differing += 1
        if not self.said.wrong and before // 100000 != self.frames // 100000:
            print('%d frames, %d differences' % (self.frames, self.differing), flush=True)

    def keep(self, block, name, what, rows):
        """Tells a difference, and puts the rows up to it into the folder for these."""
        if self.said.keep is None:
            self.said.keep = tempfile.mkdtemp(prefix='admit-fuzz-differs-')
        os.makedirs(self.said.keep, exist_ok=True)
        file_name = os.path.join(self.said.keep, '%d.%s' % (block, name.replace(' ', '-')))
        with open(file_name, 'w', encoding='utf-8') as file:
            file.writelines(row + '\n' for row in rows)
        print('block %d differs, %s: %s: %s' % (block, name, what, file_name), flush=True)


def run(said):
    """Runs all blocks, those with a wrong reading up to the first that differs, and gives the tally."""
    tally = Tally(said)
    with concurrent.futures.ProcessPoolExecutor(said.jobs) as pool:
        for told in pool.map(functools.partial(run_block, said), range(blocks(said))):
            tally.take(*told)
            if said.wrong and tally.differing:
                pool.shutdown(cancel_futures=True)
                break
    return tally


def run_wrong(said):
    """Runs with each of the wrong readings that are asked for: whether all were noticed."""
    rules, missed = list(admit_fuzz_wrong.RULES) if said.wrong == 'all' else [said.wrong], []
    for said.wrong in rules:
        tally = run(said)
        print('%s: %s, %d frames' % (said.wrong, tally.first or 'NOT NOTICED', tally.frames), flush=True)
        if not tally.differing:
            missed.append(said.wrong)
    print('%d wrong readings, %d noticed' % (len(rules), len(rules) - len(missed)))
    return not missed


def main():
    said = arguments()
    if not os.path.isfile(os.path.join(said.oracle, 'admit.py')):
        print('skipped: there is no other reading in %s' % said.oracle)
        return 0
    if said.cases:
        os.makedirs(said.cases, exist_ok=True)
        for number in range(blocks(said)):
            write_block(said, number)
        return 0
    if said.by_reading:
        said.program = said.wire = [sys.executable, '-B', ANSWERS, said.oracle]
    elif not os.access(said.program, os.X_OK):
        print('skipped: there is no program %s' % said.program)
        return 0
    elif not os.access(said.wire, os.X_OK):
        print('there is no program %s: what frames are read as is seen by their answers alone' % said.wire)
        said.wire = None
    if said.wrong:
        return 0 if run_wrong(said) else 1
    began = time.time()
    tally = run(said)
    print('%d frames of seed %d from block %d on, %d s: %s'
          % (tally.frames, said.seed, said.first, time.time() - began, counted(tally.kinds)))
    print('sent to clients: ' + counted(tally.sent))
    print('%d differences' % tally.differing)
    return 1 if tally.differing else 0


if __name__ == '__main__':
    sys.exit(main())
