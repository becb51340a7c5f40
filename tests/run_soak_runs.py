"""Runs made programs with threads, and has each journal judged by another reading of the rules.

Of each run it is judged: whether every entry may follow those before it, and whether the entries go by clock and then
by node; whether the history that the journal commits is legal; whether what was printed is the report of that history;
and whether the exit status is what the journal says. Of a program to which the other reading's simulated cluster gives
one report, by round robin and by all seeds that are tried, the runs are to print that one, too, or what that cluster
comes to in the order of their journal. What is wrong is told and kept, and the status is then 1; without the program it
is 2.

With --spoilt nothing is run: the other reading makes the journals, each is spoilt in many ways, and the judge has to
tell each of them.
"""
import argparse
import collections
import multiprocessing
import os
import random
import signal
import sys
import tempfile
import time

import soak_programs
import soak_runs
from soak_runs import ORACLE, STAGE, STATUSES, TOP

# how much a journal weighs at most that is spoilt
MOST_SPOILT = 1500
# the most steps that a run may have
MOST_STEPS = 4000000


def arguments():
    parser = argparse.ArgumentParser(prog='tests/run_soak', description=__doc__.split('\n')[0],
                                     formatter_class=argparse.ArgumentDefaultsHelpFormatter)
    parser.add_argument('--count', type=int, default=100, help='how many programs')
    parser.add_argument('--first', type=int, default=0, help='the number of the first program')
    parser.add_argument('--seed', type=int, default=1, help='the seed of the generator')
    parser.add_argument('--runs', type=int, default=3, help='how often each is run')
    parser.add_argument('--jobs', type=int, default=os.cpu_count() or 1, help='how many side by side')
    parser.add_argument('--seeds', type=int, default=6, help='how many seeds are to give one report')
    parser.add_argument('--seconds', type=int, default=soak_runs.SECONDS, help='how long a run may take')
    parser.add_argument('--program', default=os.path.join(TOP, 'dsorun'), help='the program in place of ./dsorun')
    parser.add_argument('--oracle', default=ORACLE, help='the folder of the other reading')
    parser.add_argument('--keep', help='where what is wrong is kept (a new folder, where left out)')
    parser.add_argument('--spoilt', action='store_true', help='judge spoilt journals, and run nothing')
    return parser.parse_args()


class Case:
    """A made program, with what the other reading says of it before it runs."""

    def __init__(self, said, number):
        import sim
        self.number = number
        self.config, self.program, options = soak_programs.made(said.seed, number)
        self.options = options[:2]      # its steps; a run takes no seed
        self.steps = int(options[1])
        self.refusal = None
        try:
            self.read = sim.load(self.config, self.program, STAGE)
        except sim.Refusal as refusal:
            self.refusal = refusal


def judged(case, status, printed, journal):
    """(what is wrong, the reading) of a run; either may be None."""
    import journal_reading
    if case.refusal is not None:
        wanted = case.refusal.status, case.refusal.line.encode() + b'\n', b''
        return (None if (status, printed, journal) == wanted else 'it should be refused by %r' % (wanted,)), None
    lines = journal.decode('latin-1').split('\n')
    if lines.pop() != '':
        return 'the journal is cut off', None
    try:
        judge = journal_reading.lawful(case.config, case.program, lines, STAGE, merged=True)
        reading = journal_reading.Reading(judge, case.steps)
    except journal_reading.Unlawful as why:
        return str(why), None
    if reading.status is None:
        return 'the run ended at %d of %d, and a step is open' % (reading.weight, case.steps), reading
    if status != reading.status:
        return 'status %s, and by the journal it is %d' % (status, reading.status), reading
    return (None if printed == reading.report else 'what was printed is not the report of the journal'), reading


class Told:
    """What was seen of a program: what is wrong in which run, and counts."""

    def __init__(self, number):
        self.number, self.wrong, self.seen = number, [], collections.Counter()
        self.files = []     # (name, bytes) of what is wrong


def run_case(said, folder, number):
    """Runs a program as often as is asked, and judges each run."""
    import run_orders
    told, case = Told(number), Case(said, number)
    outcome = None
    if case.refusal is None:
        outcome = run_orders.one_outcome(case.read, said.seeds, case.steps, STAGE)
    told.seen['programs'] += 1
    told.seen['with one report'] += outcome is not None
    told.seen['with losses'] += b'[[lose]]' in case.config and case.refusal is None
    told.seen['with breaks'] += b'[[break]]' in case.config and case.refusal is None
    journals = set()
    for run in range(said.runs):
        ran = soak_runs.by_program(said.program, folder, case.config, case.program, case.options, True,
                                   command='run', seconds=said.seconds)
        journals.add(ran[2])
        wrong = judge_run(said, told, case, outcome, ran)
        if wrong:
            told.wrong.append('run %d: %s' % (run, wrong))
            told.files += [('%d.report' % run, ran[1]), ('%d.journal' % run, ran[2])]
    told.seen['journals that differ from the others of their program'] += len(journals) - 1
    return told


def is_of_its_order(case, ran):
    """Whether the simulated cluster comes to what this run came to, in the order of its journal. It isn't cut off there:
    a run in threads is asked at the end of an epoch whether it is finished, and then may have taken more than its steps,
    where the simulated cluster is asked after each of them."""
    import run_orders
    status, printed, journal = ran
    lines = journal.decode('latin-1').splitlines()
    return run_orders.outcome_of_order(case.read, lines, MOST_STEPS, STAGE) == (status, printed)


def judge_run(said, told, case, outcome, ran):
    """What is wrong with a run, or None; counts what it is."""
    status, printed, journal = ran
    told.seen['status', status] += 1
    told.seen['entries'] += journal.count(b'\n')
    wrong, reading = judged(case, status, printed, journal)
    if reading is not None:
        told.seen['journals'] += 1
        told.seen['breaks'] += journal.count(b' s break ')
        told.seen['losses'] += journal.count(b' s lose ')
    if wrong is None and outcome is not None and status != 7:
        if (status, printed) == outcome:
            told.seen['like all seeds'] += 1
        elif is_of_its_order(case, ran):
            told.seen['like its own order'] += 1
        else:
            wrong = 'the simulated cluster prints something else in the same order'
    return wrong


def spoil_case(said, _, number):
    """Spoils journals of a program that the other reading makes, and judges each."""
    import journal_reading
    import sim
    import spoilt_journals
    told, case = Told(number), Case(said, number)
    if case.refusal is not None:
        return told
    case.steps = min(case.steps, MOST_SPOILT)
    ran = sim.run_program(case.read, number, case.steps, STAGE, check=False)
    entries = sorted(ran.entries, key=lambda entry: (entry.clock, entry.node))
    run = spoilt_journals.Run(ran.status, ran.report, [journal_reading.j_entry(entry) for entry in entries])
    told.seen['programs'] += 1
    told.seen['entries'] += len(run.lines)
    wrong = judged(case, run.status, run.report, run.journal())[0]
    if wrong:
        told.wrong.append('not spoilt: %s' % wrong)
        return told
    chance = random.Random('%d/%d spoilt' % (said.seed, number))
    for name, spoil in spoilt_journals.WAYS.items():
        spoiled = spoil(chance, run)
        if spoiled is None or spoiled == run:
            continue
        told.seen['spoilt', name] += 1
        if judged(case, spoiled.status, spoiled.report, spoiled.journal())[0] is None:
            told.wrong.append('not told: %s' % name)
            told.files += [('before.journal', run.journal()), ('spoilt.journal', spoiled.journal())]
    return told


def worker(given):
    """Takes every `jobs`-th program."""
    said, place, results = given
    sys.path.insert(0, said.oracle)
    sys.setrecursionlimit(20000)
    do = spoil_case if said.spoilt else run_case
    with tempfile.TemporaryDirectory(prefix='run-soak-') as folder:
        for number in range(said.first + place, said.first + said.count, said.jobs):
            try:
                results.put(do(said, folder, number))
            except Exception as error:      # one that goes wrong is told like one that differs
                told = Told(number)
                told.wrong.append('%s: %s' % (type(error).__name__, error))
                results.put(told)
    results.put(None)


def keep(said, told):
    """Puts the files of a program with which something is wrong into the folder for these, and gives its name."""
    folder = soak_runs.kept(said, told.number)
    for name, content in told.files:
        with open(os.path.join(folder, name), 'wb') as file:
            file.write(content)
    return folder


class Tally:
    """What was seen of all programs."""

    def __init__(self):
        self.seen, self.wrong = collections.Counter(), 0

    def take(self, said, told):
        self.seen.update(told.seen)
        self.wrong += len(told.wrong)
        if told.wrong:
            print('program %d, %s: %s' % (told.number, keep(said, told), '; '.join(told.wrong)), flush=True)
        if told.seen['programs'] and self.seen['programs'] % 100 == 0:
            print('%d programs, %d wrong' % (self.seen['programs'], self.wrong), flush=True)

    def of_kind(self, kind):
        """The counts of (kind, what), by what."""
        return {what[1]: count for what, count in self.seen.items() if what[0] == kind}

    def tell_runs(self, said):
        ways = ', '.join('%d %s' % (count, STATUSES.get(status, 'status %s' % status))
                         for status, count in sorted(self.of_kind('status').items()))
        seen = self.seen
        print('%d programs, %d of them with losses, %d with breaks'
              % (seen['programs'], seen['with losses'], seen['with breaks']))
        print('%d journals of %d entries, with %d losses and %d breaks'
              % (seen['journals'], seen['entries'], seen['losses'], seen['breaks']))
        print('ended: %s' % ways)
        print('journals that differ from the others of their program: %d'
              % seen['journals that differ from the others of their program'])
        print('programs with one report by round robin and %d seeds: %d; so many of their runs print that one: %d, '
              'and what comes of their own order: %d'
              % (said.seeds, seen['with one report'], seen['like all seeds'], seen['like its own order']))

    def tell_spoilt(self):
        import spoilt_journals
        tried = self.of_kind('spoilt')
        for name in spoilt_journals.WAYS:
            print('%5d spoilt: %s' % (tried.get(name, 0), name))
            self.wrong += name not in tried     # what was never tried shows nothing
        print('%d programs, %d entries, %d spoilt journals in %d ways'
              % (self.seen['programs'], self.seen['entries'], sum(tried.values()), len(tried)))


def gather(said, results, tally):
    """Takes what the workers tell until all have ended, or until this is interrupted."""
    busy = said.jobs
    try:
        while busy:
            told = results.get()
            if told is None:
                busy -= 1
            else:
                tally.take(said, told)
    except KeyboardInterrupt:
        print('interrupted')


def main():
    said = arguments()
    if not os.path.isfile(os.path.join(said.oracle, 'main.py')):
        print('skipped: there is no other reading in %s' % said.oracle)
        return 0
    if not said.spoilt and not os.access(said.program, os.X_OK):
        print('there is no program %s' % said.program)
        return 2
    said.program = os.path.abspath(said.program)
    began, tally, results = time.time(), Tally(), multiprocessing.Queue()
    workers = [multiprocessing.Process(target=worker, args=((said, place, results),)) for place in range(said.jobs)]
    for it in workers:
        it.start()
    signal.signal(signal.SIGTERM, signal.default_int_handler)
    gather(said, results, tally)
    for it in workers:
        it.terminate()
    print('seed %d from %d on, %d s' % (said.seed, said.first, time.time() - began))
    if said.spoilt:
        tally.tell_spoilt()
    else:
        tally.tell_runs(said)
    print('%d wrong' % tally.wrong)
    return 1 if tally.wrong else 0


if __name__ == '__main__':
    sys.exit(main())
