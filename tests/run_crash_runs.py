"""Kills runs with a store at moments by chance, and looks at what each leaves.

The program is the load of `dsorun big N`, run by a seed. One run isn't killed: its store is the whole one. Each of the
others is killed, at a moment within the time of the last run that came to its end. Of its store it is judged: whether
`dsorun show` reopens it (exit 0); whether its records, read by its gates, are the first of the whole one's; and whether
what is shown is what is shown of a file of so many records of the whole one. What is wrong is told and kept, and the
status is then 1; without the program it is 2.

A process that is killed isn't a machine that stops: what was written is in the file then, synced or not. That a sync
puts it on the disk isn't tried here.
"""
import argparse
import collections
import os
import random
import signal
import subprocess
import sys
import tempfile
import time

import store_reading
from run_speed_runs import Load, built


def arguments():
    parser = argparse.ArgumentParser(prog='tests/run_crash', description=__doc__.split('\n')[0],
                                     formatter_class=argparse.ArgumentDefaultsHelpFormatter)
    parser.add_argument('--program', help='the program in place of the one that ./dsorun builds')
    parser.add_argument('--kills', type=int, default=300, help='how many runs are killed')
    parser.add_argument('--load', type=int, default=40, help='the number of the load')
    parser.add_argument('--seed', type=int, default=1, help='the seed of the runs, and of the moments')
    parser.add_argument('--seconds', type=int, default=600, help='how long a run may take')
    parser.add_argument('--folder', help='where the stores stand (a new folder, where left out)')
    parser.add_argument('--keep', help='where stores that are wrong are kept (a new folder, where left out)')
    return parser.parse_args()


class Wrong(Exception):
    """What a killed run left, in words."""


class Place:
    """A folder with the program's texts, in which it runs."""

    def __init__(self, said, folder):
        self.said, self.folder, self.shown, self.seconds = said, folder, {}, 0
        load = Load(said.load)
        self.put('c', load.config().encode())
        self.put('p', load.program().encode())

    def file(self, name):
        return os.path.join(self.folder, name)

    def put(self, name, content):
        with open(self.file(name), 'wb') as file:
            file.write(content)

    def words(self, store):
        return [self.said.program, 'sim', 'c', 'p', '--seed', str(self.said.seed), '--steps', '4000000', '--store', store]

    def run(self, words):
        return subprocess.run(words, cwd=self.folder, stdin=subprocess.DEVNULL, stdout=subprocess.PIPE,
                              timeout=self.said.seconds, check=False)

    def show(self, store):
        """(exit status, what is printed) of a store."""
        ran = self.run([self.said.program, 'show', 'c', 'p', store])
        return ran.returncode, ran.stdout

    def whole(self):
        """The store of a run that isn't killed."""
        began = time.perf_counter()
        ran = self.run(self.words('whole'))
        self.seconds = time.perf_counter() - began
        status, shown = self.show('whole')
        if ran.returncode != 0 or status != 0 or not ran.stdout.endswith(shown):
            raise Wrong('the run that is not killed ends with %d, its store with %d, or its report otherwise than the store'
                        % (ran.returncode, status))
        return store_reading.Store(store_reading.content_of(self.file('whole')))

    def kill(self, part):
        """Whether a run was killed after so great a part of its time; False where it ended before."""
        if os.path.exists(self.file('s')):
            os.remove(self.file('s'))
        began = time.perf_counter()
        child = subprocess.Popen(self.words('s'), cwd=self.folder, stdin=subprocess.DEVNULL, stdout=subprocess.DEVNULL)
        try:
            status = child.wait(part * self.seconds)
        except subprocess.TimeoutExpired:
            child.kill()
            return child.wait(self.said.seconds) == -signal.SIGKILL
        self.seconds = time.perf_counter() - began
        if status != 0:
            raise Wrong('the run ends with %d' % status)
        return False

    def shown_of(self, records):
        """What is shown of a file of these records."""
        if len(records) not in self.shown:
            self.put('first', store_reading.file_of(records))
            self.shown[len(records)] = self.show('first')
        return self.shown[len(records)]


def judge(place, whole, seen):
    """Judges the store that a killed run left, and counts what it is."""
    content = store_reading.content_of(place.file('s'))
    if content is None:
        seen['killed before there was a file'] += 1
        return
    try:
        store = store_reading.Store(content)
    except store_reading.Bad as why:
        raise Wrong(str(why)) from None
    count = len(store.records)
    if store.records != whole.records[:count]:
        raise Wrong('its %d records are not the first of the whole store' % count)
    shown = place.show('s')
    if shown[0] != 0:
        raise Wrong('show ends with %d: %r' % shown)
    if shown != place.shown_of(whole.records[:count]):
        raise Wrong('what is shown is not that of the first %d records' % count)
    seen['records', count] += 1
    seen['with bytes behind the closed gate'] += len(store.behind) > 1
    seen['with no record'] += count == 0
    seen['with all records'] += count == len(whole.records)


def keep(said, number, content):
    """Puts a store that is wrong into the folder for these, and gives its name."""
    said.keep = said.keep or tempfile.mkdtemp(prefix='run-crash-wrong-')
    os.makedirs(said.keep, exist_ok=True)
    name = os.path.join(said.keep, '%d.store' % number)
    with open(name, 'wb') as file:
        file.write(content or b'')
    return name


def tell(said, whole, seen):
    counts = [what[1] for what in seen if what[0] == 'records']
    print('the run that was not killed: %d records, %d bytes' % (len(whole.records), whole.length + 1))
    print('%d runs killed, %d more had ended before; %d had no file yet'
          % (seen['killed'], said.kills - seen['killed'], seen['killed before there was a file']))
    print('%d stores reopened: %d different numbers of records, from %d to %d; %d of them had none, %d had all'
          % (sum(seen['records', count] for count in counts), len(counts), min(counts, default=0), max(counts, default=0),
             seen['with no record'], seen['with all records']))
    print('%d had bytes behind the closed gate' % seen['with bytes behind the closed gate'])


def work(said, folder):
    """How many stores are wrong."""
    place = Place(said, folder)
    whole = place.whole()
    chance, seen, wrong = random.Random(said.seed), collections.Counter(), 0
    for number in range(said.kills):
        try:
            seen['killed'] += place.kill(chance.random())
            judge(place, whole, seen)
        except Wrong as why:
            wrong += 1
            print('kill %d, %s: %s' % (number, keep(said, number, store_reading.content_of(place.file('s'))), why), flush=True)
    tell(said, whole, seen)
    return wrong


def main():
    said = arguments()
    if not built(said):
        print('there is no program %s' % said.program)
        return 2
    try:
        with tempfile.TemporaryDirectory(prefix='run-crash-', dir=said.folder) as folder:
            wrong = work(said, folder)
    except (Wrong, subprocess.TimeoutExpired) as why:
        print(why)
        return 1
    print('%d wrong' % wrong if wrong else 'nothing was wrong')
    return 1 if wrong else 0


if __name__ == '__main__':
    sys.exit(main())
