"""What `tools/journal` has to answer of stored journals.

What is wanted was worked out from the lines of the journals, by hand or by the patterns below, never by the tool.
"""
import functools
import json
import os
import re
import shutil
import subprocess
import sys
import tempfile
import unittest
from collections import Counter

TOP = os.path.dirname(os.path.dirname(os.path.abspath(__file__)))
TOOL = os.path.join(TOP, 'tools', 'journal')
STORED = os.path.join(TOP, 'tests', 'journals')
EXAMPLES = os.path.join(TOP, 'crates', 'run_cases', 'data')
PROGRAM = os.path.join(TOP, 'crates', 'dsorun', 'out', 'dsorun')
ORACLE = os.path.join(TOP, '..', 'shared', 'oracle', 'main.py')
# what of the rules the other reading is asked for: all that dsorun runs
STAGE = '16'
# journals of examples, each with the options of its run
OF_EXAMPLES = {'bounded_buffer': ['--seed', '0'], 'broken_connection': [], 'crossed_locks': [], 'faults': [],
               'handover': [], 'long_list': [], 'lost_client': []}
OF_PROGRAMS = ['lost_notifier', 'missed_notification', 'nested_wait', 'own_circle', 'own_wake', 'three_circle']
NAMES = [*OF_EXAMPLES, *OF_PROGRAMS]


def place(name):
    """The stored journal of this name."""
    if name == 'handover':
        return os.path.join(EXAMPLES, name, 'journal.txt')
    return os.path.join(STORED, name + '.txt')


@functools.lru_cache(None)
def lines_of(name):
    with open(place(name), encoding='utf-8') as file:
        return file.read().splitlines()


def run(*words):
    return subprocess.run([TOOL, *words], stdout=subprocess.PIPE, stderr=subprocess.PIPE, encoding='utf-8', check=False)


@functools.lru_cache(None)
def answer(command, name, *options):
    done = run(command, place(name), *options)
    if done.returncode or done.stderr:
        raise AssertionError('%s of %s: %d, %s' % (command, name, done.returncode, done.stderr))
    return done.stdout.rstrip('\n')


def tables(text):
    """The tables of `stats`: (head of the table, head of the row, head of the column) -> the number."""
    cells = {}
    for part in text.split('\n\n'):
        rows = [re.split(' {2,}', line) for line in part.split('\n')]
        for row in rows[1:] if len(rows[0]) > 1 else []:
            cells.update({(rows[0][0], row[0], head): cell for head, cell in zip(rows[0][1:], row[1:])})
    return cells


def count(lines, pattern):
    return sum(len(re.findall(pattern, line)) for line in lines)


class Journals(unittest.TestCase):
    """The stored journals are those of their programs."""

    def makers(self):
        makers = [[PROGRAM]] if os.access(PROGRAM, os.X_OK) else []
        return makers + ([[sys.executable, '-B', ORACLE]] if os.path.exists(ORACLE) else [])

    def words(self, name):
        if name in OF_EXAMPLES:
            folder = os.path.join(EXAMPLES, name)
            return [os.path.join(folder, 'config.toml'), os.path.join(folder, 'program.dso'), *OF_EXAMPLES[name]]
        return [os.path.join(STORED, name + '.toml'), os.path.join(STORED, name + '.dso')]

    def test_are_those_of_their_programs(self):
        if not self.makers():
            self.skipTest('there is neither the proved program nor another reading of the rules')
        for maker in self.makers():
            for name in NAMES:
                with self.subTest(name=name, maker=maker), tempfile.TemporaryDirectory() as folder:
                    made = os.path.join(folder, 'journal')
                    subprocess.run([*maker, 'sim', *self.words(name), '--journal', made], stdout=subprocess.DEVNULL,
                                   env=dict(os.environ, DSO_STAGE=STAGE), check=False)
                    with open(made, encoding='utf-8') as file:
                        self.assertEqual(file.read().splitlines(), lines_of(name))


class Cases(unittest.TestCase):
    def written(self, lines):
        """The name of a file with these lines, which goes with the test."""
        folder = tempfile.mkdtemp()
        self.addCleanup(shutil.rmtree, folder)
        name = os.path.join(folder, 'journal.txt')
        with open(name, 'w', encoding='utf-8') as file:
            file.write(''.join(line + '\n' for line in lines))
        return name

    def part(self, name, most):
        """A file with the first lines of a journal, as of a run that was cut off."""
        return self.written(lines_of(name)[:most])


class Stats(Cases):
    def test_summary_of_handover(self):
        self.assertEqual(answer('stats', 'handover').split('\n\n')[0].split('\n'), [
            'entries 96, clocks up to 67',
            'grants 6, recalls 4, returns 4, flushes 0, objects asked for 3',
            'threads that faulted 0, events refused 0',
            # 3 requests, 3 grants, 2 recalls, 2 returns and a wake, where n0 has 10 messages
            'the busiest lock: m1, 11 messages',
            # lines 46, 62, 64, 66, 83, 85 and 88
            'the busiest object: 1, read and written 7 times',
            # lines 54 and 60 to 68
            'the longest block: 10 events of thread 2.1, from line 54, to line 68'])

    def test_block_that_stays_open(self):
        # the events of lines 54 and 60 to 67, where the one of line 68 would end the block
        told = run('stats', self.part('handover', 67)).stdout
        self.assertIn('the longest block: 9 events of thread 2.1, from line 54, open\n', told)

    def test_entries_and_messages(self):
        kinds = ('idask', 'fault', 'flushed', 'request', 'return', 'commit',
                 'ids', 'object', 'grant', 'recall', 'ack', 'changes', 'wake')
        for name in NAMES:
            lines, cells = lines_of(name), tables(answer('stats', name))
            for node in sorted({line.split()[1] for line in lines}):
                for kind in ('act', 'took', 'flush', 'lose', 'break', 'rejoin'):
                    with self.subTest(name=name, node=node, kind=kind):
                        wanted = count(lines, '^[0-9]+ %s %s ' % (node, kind))
                        self.assertEqual(int(cells['entries', node, kind]), wanted)
            for kind in kinds:
                with self.subTest(name=name, kind=kind):
                    sent = count(lines, ' ; to [sc0-9]+ %s\\b' % kind)
                    taken = count(lines, ' took [sc0-9]+ %s\\b' % kind)
                    found = [int(cells['messages', kind, head]) for head in ('sent', 'taken', 'under way')]
                    self.assertEqual(found, [sent, taken, sent - taken])

    def test_locks_and_objects(self):
        for name in NAMES:
            lines, cells = lines_of(name), tables(answer('stats', name))
            locks = {row for table, row, _ in cells if table == 'locks'}
            for lock in locks:
                with self.subTest(name=name, lock=lock):
                    about = count(lines, ' ; to [sc0-9]+ (request|grant|recall|return|wake) %s\\b' % lock)
                    self.assertEqual(int(cells['locks', lock, 'messages']), about)
                    entered = count(lines, ' event (enter %s (read|write)|resume %s) done' % (lock, lock))
                    self.assertEqual(int(cells['locks', lock, 'entered']), entered)
            for number in {row for table, row, _ in cells if table == 'objects'}:
                with self.subTest(name=name, object=number):
                    found = [int(cells['objects', number, head]) for head in ('read', 'written', 'asked for')]
                    patterns = ('event get %s ', 'event put %s .* done', '; to s fault %s\\b')
                    self.assertEqual(found, [count(lines, pattern % number) for pattern in patterns])

    def test_ten_locks_of_thirteen(self):
        locks = {row for table, row, _ in tables(answer('stats', 'long_list')) if table == 'locks'}
        self.assertEqual(len(locks), 10)
        self.assertEqual(len(set(re.findall(r'request (\w+)', '\n'.join(lines_of('long_list'))))), 13)

    def test_faults(self):
        told = answer('stats', 'faults')
        self.assertIn('threads that faulted 12, events refused 5', told)
        self.assertIn('thread 1.6 ended by ZeroDivide at line 134', told)
        self.assertIn('refused at line 164: thread 1.9, put 1 0 9 refused 9 (WrongLock)', told)


class Why(Cases):
    def check(self, name, *wanted):
        self.assertEqual(answer('why', name).split('\n'), list(wanted))

    def monitor(self, thing, line, place):
        """What is told of a monitor: its object was made in this line, and the report lists it at this place."""
        thread, number = thing.split(' ')
        return 'm%s: the monitor of object %s, of class 0, made by %s at line %d, #%d of the report' % (
            number, number, thread, line, place)

    def test_circle_of_two_clients(self):
        self.check(
            'crossed_locks',
            'thread 1.1 waits for m257 at write (asked for it at line 109): c2 has it at write since line 96, '
            '2.1 is inside since line 100',
            'thread 2.1 waits for m1 at write (asked for it at line 110): c1 has it at write since line 95, '
            '1.1 is inside since line 99',
            'the circle: 1.1 waits for 2.1, 2.1 waits for 1.1',
            self.monitor('1.1 1', 7, 1), self.monitor('2.1 257', 8, 2))

    def test_circle_of_three_with_one_behind(self):
        self.check(
            'three_circle',
            'thread 1.1 waits for m257 at write (asked for it at line 293): c2 has it at write since line 124, '
            '2.1 is inside since line 129',
            'thread 2.1 waits for m513 at write (asked for it at line 259): c3 has it at write since line 175, '
            '3.1 is inside since line 182',
            'thread 3.1 waits for m1 at write (asked for it at line 294): c1 has it at write since line 174, '
            '1.1 is inside since line 180',
            'thread 4.1 waits for m1 at write (asked for it at line 344): c1 has it at write since line 174, '
            '1.1 is inside since line 180; c3 asked for it before',
            'the circle: 1.1 waits for 2.1, 2.1 waits for 3.1, 3.1 waits for 1.1',
            self.monitor('1.1 1', 13, 1), self.monitor('2.1 257', 14, 2), self.monitor('3.1 513', 15, 3))

    def test_circle_in_one_client_without_a_request(self):
        told = "did its last act at line %d, and the journal doesn't tell what it asks next; " \
               'where the run stalled it waits for %s (%s is inside since line %d)'
        self.check('own_circle',
                   'thread 1.1 ' + told % (75, 'm3', '1.2', 70),
                   'thread 1.2 ' + told % (78, 'm1', '1.1', 63),
                   'the circle, where the run stalled: 1.1 waits for 1.2, 1.2 waits for 1.1',
                   self.monitor('1.1 1', 4, 1), self.monitor('1.1 3', 18, 2))

    def test_notification_that_came_before(self):
        self.check('missed_notification',
                   'thread 1.1 waits for a notification of m1 since line 105; '
                   'none came since, the last one before was of 2.1 at line 72',
                   'thread 2.1 ended at line 78',
                   self.monitor('1.1 1', 7, 1))

    def test_woken_but_the_monitor_is_held(self):
        self.check('nested_wait',
                   'thread 1.1 waits for m1 at write (asked for it at line 145): c2 has it at write since line 124, '
                   '2.1 is inside since line 126',
                   'thread 2.1 waits for a notification of m2 since line 140; none came in the whole run',
                   self.monitor('1.1 1', 7, 1), self.monitor('1.1 2', 23, 2))

    def test_notification_of_a_lost_client(self):
        self.check('lost_notifier',
                   'thread 1.1 waits for a notification of m1 since line 65; the last one since, of 2.1 at line 111, '
                   'woke nobody: its client was lost at line 104, before its record was taken',
                   'thread 2.1 ended at line 114, was lost with its client at line 104',
                   self.monitor('1.1 1', 7, 1))

    def test_woken_but_a_thread_beside_is_inside(self):
        self.check('own_wake',
                   'thread 1.1 waits for m1 at write (was woken at line 74), 1.2 is inside since line 71',
                   'thread 1.2 waits for a notification of m3 since line 82; none came in the whole run',
                   self.monitor('1.1 1', 4, 1), self.monitor('1.1 3', 18, 2))

    def test_lease_that_moved_on(self):
        """Client 3 had the lock and gave it back, 1.1 entered it twice and left it once, and 2.1 wants it."""
        record = 'commit 1 3.1 new 0 set 0 out 0 note 0 exit m5'
        told = run('why', self.written([
            '1 c3 act 3.1 ; to s request m5 write', '2 s took c3 request m5 write ; to c3 grant m5 write',
            '3 c3 took s grant m5 write', '4 c3 act 3.1 ; event enter m5 write done',
            '5 c3 act 3.1 ; to s %s ; event exit m5 done' % record, '1 c1 act 1.1 ; to s request m5 write',
            '6 s took c3 %s ; to c3 ack 1' % record, '7 s took c1 request m5 write ; to c3 recall m5',
            '7 c3 took s ack 1', '8 c3 took s recall m5 ; to s return m5 0',
            '9 s took c3 return m5 0 ; to c1 grant m5 write', '10 c1 took s grant m5 write',
            '11 c1 act 1.1 ; event enter m5 write done', '12 c1 act 1.1 ; event enter m5 write done',
            '13 c1 act 1.1 ; event exit m5 done', '1 c2 act 2.1 ; to s request m5 write',
            '10 s took c2 request m5 write ; to c1 recall m5', '14 c1 took s recall m5'])).stdout.split('\n')
        untold = "thread %s did its last act at line %d, and the journal doesn't tell what it asks next; " \
                 'nothing that it tells holds it up'
        self.assertEqual(told, [
            untold % ('1.1', 15),
            'thread 2.1 waits for m5 at write (asked for it at line 16): c1 has it at write since line 11, '
            '1.1 is inside since line 13',
            untold % ('3.1', 5), 'not held up: 1.1, 3.1; the run was cut off',
            'm5: the monitor of object 5', ''])

    def test_resume_gives_back_all_entries(self):
        """1.1 entered the lock twice before its wait, and left it once since."""
        records = ['commit 1 1.1 new 0 set 0 out 0 note 0 wait m5',
                   'commit 2 1.2 new 0 set 0 out 0 note 1 m5 here 1.1 exit m5']
        told = run('why', self.written([
            '1 c1 act 1.1 ; to s request m5 write', '2 s took c1 request m5 write ; to c1 grant m5 write',
            '3 c1 took s grant m5 write', '4 c1 act 1.1 ; event enter m5 write done',
            '5 c1 act 1.1 ; event enter m5 write done', '6 c1 act 1.1 ; to s %s ; event wait m5 done' % records[0],
            '7 c1 act 1.2 ; event enter m5 write done', '8 c1 act 1.2 ; event notify m5 done woke 1.1',
            '9 c1 act 1.2 ; to s %s ; event exit m5 done' % records[1], '10 c1 act 1.1 ; event resume m5 done',
            '11 c1 act 1.1 ; event exit m5 done', '7 s took c1 %s ; to c1 ack 1' % records[0],
            '10 s took c1 %s ; to c1 ack 2' % records[1], '12 c1 took s ack 1', '13 c1 took s ack 2'])).stdout
        self.assertIn('where the run stalled it waits for m5 (1.1 is inside since line 10)\n', told)

    def test_what_became_of_a_notification(self):
        start = 'thread 1.1 waits for a notification of m1 since line 50; the last one since, of 2.1 at line 67, woke '
        # the record goes at line 68, and is taken at line 69
        nobody = "nobody: its record wasn't taken"
        for most, woken in ((67, nobody), (68, nobody), (69, '1.1')):
            told = run('why', self.part('handover', most)).stdout.split('\n')
            self.assertEqual(told[0], start + woken)

    def test_woken_and_not_yet_asked(self):
        told = run('why', self.part('nested_wait', 144)).stdout.split('\n')
        self.assertEqual(told[0], 'thread 1.1 wants m1 at write (was woken at line 144), '
                                  'and its client has to ask for it')

    def test_names_of_locks(self):
        """A thread that waits for the lock of the only root is told of it, and one that waits for a named lock, too."""
        start = ['1 c1 act 1.1 ; to s fault 0', '1 s took c1 fault 0 ; to c1 object 0 roots 1 null',
                 '2 c1 took s object 0 roots 1 null']
        for lock, text in (('n0', 'the lock of root 0, from 0'), ('n3', 'named lock 2, from 0')):
            told = run('why', self.written(start + ['3 c1 act 1.1 ; to s request %s read' % lock])).stdout.split('\n')
            self.assertEqual(told[-2], '%s: %s' % (lock, text))
        told = run('why', self.written(['1 c1 act 1.1 ; to s request n0 read'])).stdout.split('\n')
        self.assertEqual(told[-2], 'n0: a lock with a name')

    def test_objects_by_a_map(self):
        """The report numbers what a map has by rising key; an array is told, and a map."""
        fields = ['false 0 null'] * 256
        fields[0], fields[1] = 'true 9 r3', 'true -4 r4'
        record = ('commit 1 1.1 new 3 2 k5 769 %s 2 3 along 1 0 4 k1 1 null set 1 0 0 r2 out 0 note 0 exit n0' %
                  ' '.join(fields))
        start = ['1 c1 act 1.1 ; event new k5 769 made 2', '2 c1 act 1.1 ; event new along 1 made 3',
                 '3 c1 act 1.1 ; to s %s ; event exit n0 done' % record, '4 s took c1 %s ; to c1 ack 1' % record,
                 '5 c1 took s ack 1']
        for lock, text in (('m2', 'the monitor of object 2, a map, made by 1.1 at line 1, #1 of the report'),
                           ('m3', 'the monitor of object 3, an array of long, made by 1.1 at line 2, #3 of the report'),
                           ('m4', 'the monitor of object 4, #2 of the report')):
            # all of it was answered: it has the lease, and 1.2 is inside
            end = ['6 c1 act 1.1 ; to s request %s write' % lock, '6 s took c1 request %s write ; to c1 grant %s write' %
                   (lock, lock), '7 c1 took s grant %s write' % lock, '8 c1 act 1.2 ; event enter %s write done' % lock]
            told = run('why', self.written(start + end)).stdout.split('\n')
            self.assertEqual(told[-2], '%s: %s' % (lock, text))

    def test_finished(self):
        self.check('handover', 'thread 1.1 ended at line 94', 'thread 2.1 ended at line 71', 'nobody waits')

    def test_cut_off(self):
        told = run('why', self.part('handover', 55)).stdout.split('\n')
        # 2.1 has just asked for m1, and 1.1 is in its wait
        self.assertEqual(told[:2], [
            'thread 1.1 waits for a notification of m1 since line 50; none came in the whole run',
            'thread 2.1 waits for m1 at write (asked for it at line 55): its request is under way'])
        self.assertRegex(told[2], r'^messages are under way \([0-9]+\): the run was cut off$')

    def test_last_ten_events(self):
        told = answer('why', 'faults').split('\n\n')
        lines = lines_of('faults')
        for part in told[:12]:
            head, *events = part.split('\n')
            thread = head.split()[1]
            wanted = [(at, text) for at, text in enumerate(lines, 1)
                      if ' act %s ; ' % thread in text and ' event ' in text]
            with self.subTest(thread=thread):
                self.assertEqual([int(event.split()[0]) for event in events], [at for at, _ in wanted[-10:]])
                for event, (_, text) in zip(events, wanted[-10:]):
                    self.assertIn(text.split(' ; event ')[1], event)
                # faults 8 to 12 are refused where they happen, the others come behind the last act
                mark = 'refused here' if int(thread[2:]) >= 8 else 'the last thing that it did before'
                self.assertEqual(part.count('<- ' + mark), 1 if len(wanted) > 1 else 0)
        self.assertIn('print 6 done   <- the last thing', told[5])
        self.assertIn('put 1 0 9 refused 9   <- refused here', told[8])


class Picture(Cases):
    def data(self, page):
        return json.loads(re.search('^const journal = (.*);$', page, re.M)[1])

    def test_entries(self):
        for name in NAMES:
            with self.subTest(name=name):
                told = self.data(answer('picture', name))
                wanted = [[int(line.split()[0]), at, line] for at, line in enumerate(lines_of(name), 1)]
                self.assertEqual([entry[1:] for entry in told['entries']], wanted)
                # a lane has one entry a clock, and those of one lane are of one node, or of one thread
                lanes = Counter((entry[0], entry[1]) for entry in told['entries'])
                self.assertEqual(set(lanes.values()), {1})
                whose = {(entry[0], self.owner(entry[3])) for entry in told['entries']}
                self.assertEqual(len({lane for lane, _ in whose}), len(whose))

    def owner(self, line):
        _, node, kind, thread, *_ = line.split() + ['']
        return thread if kind == 'act' else node

    def test_arrows(self):
        for name in NAMES:
            page, lines = answer('picture', name), lines_of(name)
            told = self.data(page)
            with self.subTest(name=name):
                self.assertEqual(len(told['letters']), count(lines, ' ; to '))
                self.assertEqual(page.count('<path class="message '), len(told['letters']))
                self.assertEqual(sum(taken >= 0 for _, _, taken, _, _ in told['letters']), count(lines, ' took '))
                for text, sent, taken, client, is_up in told['letters']:
                    to, of = ('s', client) if is_up else (client, 's')
                    self.assertIn('to %s %s' % (to, text), lines[sent].split(' ; '))
                    if taken >= 0:
                        self.assertRegex(lines[taken], '^[0-9]+ %s took %s %s( ;|$)' % (to, of, re.escape(text)))
                        self.assertLess(int(lines[sent].split()[0]), int(lines[taken].split()[0]))

    def test_arrows_stay_in_order(self):
        for name in NAMES:
            ways = {}
            for _, sent, taken, client, is_up in self.data(answer('picture', name))['letters']:
                ways.setdefault((client, is_up), []).append((sent, taken if taken >= 0 else float('inf')))
            for way in ways.values():
                self.assertEqual(way, sorted(way))

    def test_marks(self):
        # each mark with what it stands for in a line; the legend has each once more
        marks = {'bad line': ' refused [0-9]+|^[0-9]+ s (break|lose) ', 'bad ring': ' rejoin ',
                 'bad dot': ' event end [1-9]'}
        for name in NAMES:
            page, lines = answer('picture', name), lines_of(name)
            for classes, pattern in marks.items():
                with self.subTest(name=name, classes=classes):
                    legend = 3 if classes == 'bad line' else 1
                    drawn = len(re.findall('<path class="%s( k[0-9]+)?"' % classes, page))
                    self.assertEqual(drawn - legend, count(lines, pattern))
            with self.subTest(name=name, classes='flush'):
                flushes = len(re.findall('>flush [0-9]+</text>', page))
                self.assertEqual(flushes, count(lines, '^[0-9]+ c[0-9]+ flush '))

    def test_one_colour_a_lock(self):
        for name in NAMES:
            page = answer('picture', name)
            colours = dict(re.findall(r'^\.(k[0-9]+)\{--c:(.*)\}$', page, re.M))
            locks = dict(re.findall('data-lock="(k[0-9]+)" title="[^"]*">([mn][0-9]+)<', page))
            with self.subTest(name=name):
                self.assertEqual(len(set(colours.values())), len(colours))
                self.assertEqual(set(colours), set(locks))
                asked = set(re.findall(' request ([mn][0-9]+)', '\n'.join(lines_of(name))))
                self.assertEqual(set(locks.values()), asked)

    def test_a_thousand_colours(self):
        sys.path.insert(0, os.path.join(TOP, 'tools', 'journal_parts'))
        from colours import colour
        self.assertEqual(len({colour(number) for number in range(1000)}), 1000)

    def test_page_stands_alone(self):
        page = answer('picture', 'faults')
        self.assertNotRegex(page, r'\b(src|href)=|url\(|@import|fetch\(')
        self.assertEqual(set(re.findall(r'https?://[^"]*', page)), {'http://www.w3.org/2000/svg'})
        self.assertNotIn('{{', page)

    def test_some_clocks(self):
        told = self.data(answer('picture', 'handover', '--clocks', '10-20'))
        self.assertEqual([entry[3] for entry in told['entries']],
                         [line for line in lines_of('handover') if 10 <= int(line.split()[0]) <= 20])

    def test_image_of_the_documents(self):
        with open(os.path.join(TOP, 'docs', 'bounded_buffer.svg'), encoding='utf-8') as file:
            stored = file.read().rstrip('\n')
        self.assertEqual(answer('picture', 'bounded_buffer', '--image', '--clocks', '1-136'), stored)
        self.assertLess(len(stored), 300000)


class Refusals(Cases):
    def check(self, lines, told):
        name = self.written(lines)
        for command in ('stats', 'why', 'picture'):
            with self.subTest(command=command, told=told):
                done = run(command, name)
                self.assertEqual((done.returncode, done.stdout), (1, ''))
                self.assertEqual(done.stderr, 'tools/journal: %s, %s\n' % (name, told))

    def test_no_entry(self):
        lines = lines_of('handover')
        self.check(lines[:6] + [''], "line 7: '' where a clock should stand")
        self.check(lines[:3] + ['4 c1 act 1.1 ; event enter n0 done'],
                   "line 4: 'done' where read or write should stand")
        self.check(lines[:3] + ['4 c1 act 1.1 more ; event pause done'], "line 4: 'more' where nothing should stand")
        self.check(lines[:3] + ['4 c1 act 2.1 ; event pause done'], 'line 4: thread 2.1 acts at c1')
        self.check(lines[:3] + ['4 c1 act 1.1 ; event pause done ; to c2 recall n0'],
                   'line 4: c1 sends to a node that it has no connection with')

    def test_message_that_wasnt_sent(self):
        lines = lines_of('handover')
        at = next(at for at, line in enumerate(lines) if ' took s grant ' in line)
        told = "line %d: what %s takes isn't the first message on its way"
        self.check(lines[:at] + [lines[at].replace(' read', ' write')], told % (at + 1, lines[at].split()[1]))
        self.check([lines[at]], told % (1, lines[at].split()[1]))

    def test_no_file(self):
        done = run('why', os.path.join(STORED, 'nowhere.txt'))
        self.assertEqual(done.returncode, 1)
        self.assertIn("can't be read: No such file", done.stderr)

    def test_no_entries(self):
        name = self.written([])
        self.assertIn('entries 0, clocks up to 0', run('stats', name).stdout)
        self.assertEqual(run('why', name).stdout, 'nobody waits\n')
        self.assertIn('0 entries, 0 messages', run('picture', name).stdout)

    def test_words(self):
        for words in ([], ['stats'], ['picture', 'x', '--clocks', '9-3'], ['whom', place('handover')]):
            self.assertEqual(run(*words).returncode, 2)


if __name__ == '__main__':
    unittest.main()
