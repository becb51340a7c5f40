"""Counts what runs of the simulated cluster execute, and measures the memory that they take; prints tables in Markdown.

Instructions are valgrind's (callgrind), and so are bytes asked for (dhat): both are counts, which other work beside
them doesn't change. Peak memory is what the system tells of a run, in MB of a million bytes. Bytes an entry are that
peak less the peak of the same run cut off after one step, by the entries, which are the lines of the journal of a run
of its own. All runs come one after the other, at the lowest priority. With another program of the same rules (--twin)
its figures stand beside, and entries and reports have to be the same. Where they aren't, or a run ends otherwise than
with exit 0, the status is 1; without the program it is 2.
"""
import argparse
import json
import math
import os
import re
import subprocess
import sys
import tempfile

import collect_figures_runs as collecting
import lint_figures_runs as linting
from run_speed_runs import Load, Wrong, built, tell

STEPS = '4000000'
COUNTER = 'class C { long n; synchronized add() { this.n = this.n + 1; } }'
ADDING = 'thread %d { Main.c = new C(); var i = 0; while (i < %d) { Main.c.add(); i = i + 1; } }'
LOADS = [('big', 1000, '`big 1000`'), ('prints', 200000, '200,000 prints'), ('threads', 20, '256 threads'),
         ('chain', 30000, 'a chain of 30,000 objects'), ('flush', 5000, '5,000 flushes'), ('waiters', 0, '240 waiters'),
         ('breaks', 1000, '1,000 breaks')]
STEP, ACT = 'dso_world::world::World::step', 'dso_client::client::Client::act'
MACHINE = ['dso_machine::', 'dso_client::opening::next_request']
UNDER_WAY = ['dso_world::client_entry::say', 'dso_world::server_entry::tell_all', 'dso_world::pump::']
SLOTS = ['dso_world::slot_test::', 'dso_world::step_update::mark_step', 'dso_world::step_table::',
         'dso_world::touched_threads::', 'dso_world::chooser::', 'dso_world::world::World::choose']
ROWS = [  # parts of a run: the functions whose name begins so, with all that they call, or `alone`
    ('the steps (`World::step`)', [STEP], False),
    ('- a client\'s act (`Client::act`)', [ACT], False),
    ('- - the thread\'s machine (`next_request`)', MACHINE, False),
    ('- - what a reply changes (`answered_act::apply`)', ['dso_client::answered_act::apply'], False),
    ('- a client takes a message (`Client::take`)', ['dso_client::client::Client::take'], False),
    ('- the server takes a message (`Server::take`)', ['dso_server::server::Server::take'], False),
    ('- messages put under way and handed over (`say`, `tell_all`, `pump`)', UNDER_WAY, False),
    ('- which slots are open, and which may be touched (`slot_test`, `touched_threads`)', SLOTS, False),
    ('- `World::step` itself, with what is inlined there', [STEP], True),
    ('the history and its play on one heap (`heap_after`)', ['dso_run::replay::heap_after'], False),
    ('reading the texts (`judge_texts`)', ['dso_run::verdict::judge_texts'], False),
]
TWIN_ACT, TWIN_RUN = ['twin::client::Client::act'], ['twin::machine::Machine::run']
LEFT = [  # parts of the program and of the other: functions, and those that are taken out of them again
    ('the thread\'s machine', (MACHINE,), (TWIN_RUN,)),
    ('a client\'s act without it, and what it takes', ([ACT, 'dso_client::client::Client::take'], MACHINE),
     (TWIN_ACT + ['twin::client::Client::take'], TWIN_RUN)),
    ('the server takes a message', (['dso_server::server::Server::take'],), (['twin::server::Server::take'],)),
    ('which slots are open, and the choice of one', (SLOTS,), (['twin::world::World::refresh'],)),
    ('the history, its play and the report', (['dso_run::asked::Asked::write'],),
     (['twin::report::', 'twin::plain::'],)),
]
CRATES = [  # by where instructions stand; maps, lists, memory and copies count with who asks for them
    ('`dso_world`', r'^dso_world::'), ('`dso_client`', r'^dso_client::'),
    ('`dso_hold`, `dso_lease`, `dso_locks`, `dso_table`', r'^(dso_hold|dso_lease|dso_locks|dso_table|lru)::'),
    ('`dso_machine`', r'^dso_machine::'),
    ('`dso_server`, `dso_store`, `dso_wait`', r'^(dso_server|dso_store|dso_wait)::'),
    ('`dso_session`, `dso_txn`, `dso_log`', r'^(dso_session|dso_txn|dso_log)::'),
    ('`dso_legal`, `dso_plain`, `dso_run`, `dso_report`', r'^(dso_legal|dso_plain|dso_run|dso_report)::'),
    ('all else', r'^(dso_(?!lookup|base)|main$|0x|\(below)'),
]
KINDS = [('ordered maps', r'^(std_collections|dso_lookup)'), ('copies of memory', r'mem(cpy|move|set)'),
         ('taking and giving back memory', r'malloc|free|calloc|realloc|rattle_(de)?alloc|unlink_chunk'),
         ('lists', r'^std_alloc'), ('all else', r'')]


def big(number, clients=None):
    """The texts of the generated load, with its own number of clients or with this one."""
    load = Load(number)
    load.clients = clients or load.clients
    return load.config(), load.program()


def turns(number):
    return big(number, 3)


def prints(number):
    """One thread prints so many numbers."""
    return 'clients = 2\n', 'thread 1 { var i = 0; while (i < %d) { print(i); i = i + 1; } }' % number


def threads(number):
    """Sixteen threads of each of sixteen clients count under one lock, with so many turns each."""
    lines = [COUNTER + ' class Main { static ref c; }']
    lines += [ADDING % (client, number) for client in range(1, 17) for _ in range(16)]
    return 'clients = 16\n', '\n'.join(lines)


def list_of(number, config, calls, step):
    """One thread makes a list of so many objects and shares it, another goes through it."""
    return ('clients = 2\n' + config,
            'class N { long v; ref next;%s } class Main { static ref h; } thread 1 { var h = null; var i = 0; '
            'while (i < %d) { var x = new N(); x.v = i; x.next = h; h = x; i = i + 1; } Main.h = h; } '
            'thread 2 { while (Main.h == null) { } var p = Main.h; var s = 0; while (p != null) { %s } print(s); }'
            % (calls, number, step))


def chain(number):
    return list_of(number, '', '', 's = s + p.v; p = p.next;')


def flush(number):
    """The same under locks, by a client that keeps one object."""
    return list_of(number, 'resident = 1\n',
                   ' synchronized get() { return this.v; } synchronized nx() { return this.next; }',
                   's = s + p.get(); p = p.nx();')


def waiters(_):
    """Sixteen threads of each of fifteen clients wait for one lock, until a thread of the sixteenth wakes all."""
    lines = ['class C { long n; long w; synchronized go() { this.w = this.w + 1; while (this.n == 0) { wait(this); } } '
             'synchronized all() { if (this.w < 240) { return false; } this.n = 1; notifyAll(this); return true; } } '
             'class Main { static ref c; }']
    lines += ['thread %d { Main.c = new C(); Main.c.go(); }' % client for client in range(1, 16) for _ in range(16)]
    return 'clients = 16\n', '\n'.join(lines + ['thread 16 { Main.c = new C(); while (!Main.c.all()) { } }'])


def breaks(number, count=3000):
    """Two clients count under one lock, and one's connection breaks behind each of its first messages, so often."""
    config = ''.join('[[break]]\nclient = 1\nafter = %d\n' % after for after in range(number))
    program = [COUNTER + ' class Main { static ref c; }', ADDING % (1, count), ADDING % (2, count)]
    return 'clients = 2\n' + config, '\n'.join(program)


def fewer(number):
    return breaks(number, 1500)


def clients_of(number):
    return max(2, min(16, number // 16))


def own_lock(number):
    """So many threads, each with a lock of its own, share 5,120 turns."""
    lines = [COUNTER + ' class Main { %s }' % ' '.join('static ref c%d;' % root for root in range(min(number, 16)))]
    lines += ['thread %d { var c = new C(); Main.c%d = c; var i = 0; while (i < %d) { c.add(); i = i + 1; } }'
              % (at % clients_of(number) + 1, at % 16, 5120 // number) for at in range(number)]
    return 'clients = %d\n' % clients_of(number), '\n'.join(lines)


def one_lock(number):
    """The same under one lock."""
    lines = [COUNTER + ' class Main { static ref c; }']
    lines += [ADDING % (at % clients_of(number) + 1, 5120 // number) for at in range(number)]
    return 'clients = %d\n' % clients_of(number), '\n'.join(lines)


def made(number):
    """Each block makes an array of so many elements, fills and publishes it: 10,240 values in all."""
    return 'clients = 2\n', (
        'class Box { ref a; synchronized make(k) { var a = new long[k]; var i = 0; '
        'while (i < k) { a[i] = i; i = i + 1; } this.a = a; } } class Main { static ref b; }\n'
        'thread 1 { Main.b = new Box(); var b = Main.b; var j = 0; while (j < %d) { b.make(%d); j = j + 1; } }'
        % (10240 // number, number))


def put(number):
    """Each block puts so many elements of a shared array, of which another client has a copy: 10,240 values in all."""
    return 'clients = 2\n', (
        'class Main { static ref a; }\n'
        'thread 1 { Main.a = new long[256]; var a = Main.a; var i = 0; var j = 0; var n = 0; while (j < %d) { '
        'synchronized (a) { n = 0; while (n < %d) { a[i %% 256] = n; i = i + 1; n = n + 1; } } j = j + 1; } }\n'
        'thread 2 { while (Main.a == null) { } var a = Main.a; synchronized (a) { print(a[0]); } }'
        % (10240 // number, number))


TEXTS = {text.__name__: text for text in (big, turns, prints, threads, chain, flush, waiters, breaks, fewer, own_lock,
                                          one_lock, made, put)}


class Runs:
    """A folder in which programs run, with what was asked of each run."""

    def __init__(self, said, folder):
        self.said, self.folder, self.known = said, folder, {}

    def file(self, name):
        return os.path.join(self.folder, name)

    def words(self, program, load, number, steps=STEPS):
        texts = [self.file('%s%d.%s' % (load, number, end)) for end in 'cp']
        return [program, 'sim'] + texts + ['--steps', steps]

    def once(self, what, load, number, program=None):
        """What is asked of a run, which is made where that wasn't asked before."""
        program = program or self.said.program
        key = what, load, number, program
        if key not in self.known:
            for end, text in zip('cp', TEXTS[load](number)):
                with open(self.file('%s%d.%s' % (load, number, end)), 'w', encoding='ascii') as file:
                    file.write(text)
            self.known[key] = getattr(self, what)(load, number, program)
        return self.known[key]

    def ran(self, words, statuses=(0,)):
        done = subprocess.run(words, stdin=subprocess.DEVNULL, stdout=subprocess.PIPE, stderr=subprocess.PIPE,
                              check=False)
        if done.returncode not in statuses:
            raise Wrong('%s ended with %s: %r' % (' '.join(words), done.returncode, (done.stdout + done.stderr)[:300]))
        return done

    def report(self, load, number, program):
        return self.ran(self.words(program, load, number)).stdout

    def entries(self, load, number, program):
        """How many entries the journal has."""
        return self.lines(self.words(program, load, number))

    def lines(self, words):
        self.ran(words + ['--journal', self.file('journal')])
        with open(self.file('journal'), encoding='ascii') as file:
            return sum(1 for _ in file)

    def profile(self, load, number, program):
        return self.file('%s%d.%s' % (load, number, 'twin' if program == self.said.twin else 'profile'))

    def instructions(self, load, number, program):
        return self.count(self.words(program, load, number), self.profile(load, number, program))[0]

    def count(self, words, profile=None, statuses=(0,)):
        """How many instructions a run executes, and what it prints."""
        words = ['valgrind', '--tool=callgrind', '--callgrind-out-file=' + (profile or self.file('profile'))] + words
        done = self.ran(words, statuses)
        return int(re.search(rb'Collected : (\d+)', done.stderr).group(1)), done.stdout

    def put(self, config, program):
        """Writes two texts, and answers their names."""
        names = [self.file(end) for end in 'cp']
        for name, content in zip(names, (config, program)):
            with open(name, 'w', encoding='ascii') as file:
                file.write(content)
        return names

    def peak(self, words, statuses=(0,)):
        """Peak memory in bytes. A small program has to start the run: the memory of who starts it counts, too."""
        told = self.ran(['/usr/bin/time', '-f', 'peak %M'] + words, statuses).stderr
        return int(re.search(rb'peak (\d+)', told).group(1)) * 1024

    def memory(self, load, number, program):
        """Peak memory, and how much of it comes with the steps."""
        peak = self.peak(self.words(program, load, number))
        return peak, peak - self.peak(self.words(program, load, number, '1'), range(8))

    def an_entry(self, load, number, program=None):
        """How many entries, and how many instructions an entry."""
        entries = self.once('entries', load, number, program)
        return entries, self.once('instructions', load, number, program) / entries


def table(heads, rows):
    """Prints a table, whose numbers have no fraction."""
    tell(heads)
    tell(['---'] * len(heads))
    for row in rows:
        tell([cell if isinstance(cell, str) else '{:,.0f}'.format(cell) for cell in row])
    print(flush=True)


def mega(number):
    return '%.1f MB' % (number / 1e6)


def put_loads(runs):
    """The seven loads, beside the other program where there is one."""
    twin, rows = runs.said.twin, []
    for load, number, name in LOADS:
        entries, count = runs.an_entry(load, number)
        peak, grown = runs.once('memory', load, number)
        if twin is None:
            rows.append([name, entries, count, mega(peak), grown / entries])
            continue
        others, other = runs.an_entry(load, number, twin)
        if entries != others or runs.once('report', load, number) != runs.once('report', load, number, twin):
            raise Wrong('%s: the other program has another report, or %d entries in place of %d'
                        % (name, others, entries))
        least, less = runs.once('memory', load, number, twin)
        rows.append([name, entries, count, other, '%.1f' % (count / other), 'TIME', mega(peak), '%.1f' % (peak / least),
                     grown / entries, less / entries])
    if twin:
        ratios = [float(row[4]) for row in rows]
        mean = math.prod(ratios) ** (1 / len(ratios))
        rows.append(['geometric mean', '', '', '', '%.1f' % mean, 'TIME', '', '', '', ''])
    heads = ['Load', 'Entries', 'Instructions an entry', 'the other\'s', 'Ratio', 'Time', 'Memory', 'Ratio',
             'Bytes an entry', 'the other\'s']
    table(heads if twin else heads[:3] + [heads[6], heads[8]], rows)


GROWTH = [('turns of the generated load', 'turns', (10, 30, 100, 300)),
          ('threads, each on an object of its own', 'own_lock', (2, 16, 64, 256)),
          ('threads, all on one object', 'one_lock', (2, 16, 64, 256)),
          ('objects of the chain', 'chain', (300, 3000, 30000)),
          ('breaks', 'fewer', (0, 10, 100, 1000)),
          ('values a record, of new arrays', 'made', (2, 16, 64, 256)),
          ('values a record, of one array', 'put', (2, 16, 64, 256))]


def listed(numbers):
    return ' / '.join('{:,.0f}'.format(number) for number in numbers)


def put_growth(runs):
    """What an entry costs with more and more of something."""
    programs, rows = [program for program in (runs.said.program, runs.said.twin) if program], []
    for name, load, numbers in GROWTH:
        row = [name, listed(numbers)]
        for program in programs:
            row.append(listed(runs.an_entry(load, number, program)[1] for number in numbers))
        rows.append(row)
    table(['What grows', 'As', 'Instructions an entry', 'the other\'s'][:2 + len(programs)], rows)


def put_entries(runs):
    """What the generated load's entries cost in memory, and their text in instructions."""
    rows = []
    for number in (1000, 4000, 16000):
        entries = runs.once('entries', 'turns', number)
        peak, grown = runs.once('memory', 'turns', number)
        rows.append([number, entries, mega(peak), grown / entries])
    table(['Turns', 'Entries', 'Memory', 'Bytes an entry'], rows)
    rows = []
    for number in (10, 100, 1000):
        entries, count = runs.an_entry('turns', number)
        told, _ = runs.count(runs.words(runs.said.program, 'turns', number) + ['--journal', runs.file('journal')])
        rows.append([number, entries, '%.2f' % (told / entries / count)])
    table(['Turns', 'Entries', 'Instructions with `--journal`, times those without'], rows)


class Profile:
    """What callgrind told of a run: what each function executes, and what each call of one by another comes to."""

    def __init__(self, runs, load, number, program):
        self.own, self.calls = {}, {}
        runs.once('instructions', load, number, program)
        names, at, to, is_call = {}, None, None, False

        def named(text):
            match = re.match(r'\((\d+)\)(?: (.*))?$', text.strip())
            if match.group(2) is not None:
                names[match.group(1)] = re.sub(r"'\d+$", '', match.group(2))
            return names[match.group(1)]

        with open(runs.profile(load, number, program), encoding='latin-1') as file:
            for line in file:
                if line[0] in '0123456789+-*':
                    count = int(line.split()[1])
                    if is_call:
                        self.calls[at, to] = self.calls.get((at, to), 0) + count
                        is_call = False
                    else:
                        self.own[at] = self.own.get(at, 0) + count
                elif line.startswith('fn='):
                    at = named(line[3:])
                elif line.startswith('cfn='):
                    to = named(line[4:])
                elif line.startswith('calls='):
                    is_call = True
        self.total = sum(self.own.values())

    def alone(self, begins):
        """What the functions whose names begin so execute themselves."""
        return sum(count for name, count in self.own.items() if any(name.startswith(begin) for begin in begins))

    def asking(self, name):
        """The function that calls such a shared one the most, or by which that was called that does so."""
        seen = set()
        while re.match('std_|core|dso_lookup|dso_base|rattle_|malloc', name) and name not in seen:
            seen.add(name)
            callers = [(count, at) for (at, to), count in self.calls.items() if to == name and at not in seen]
            name = max(callers)[1] if callers else name
        return name

    def whole(self, begins, without=()):
        """What the functions whose names begin so execute with all that they call, each instruction once."""
        names = {name for name in self.own if any(name.startswith(begin) for begin in begins)}
        less = {name for name in self.own if any(name.startswith(begin) for begin in without)}
        return (sum(self.own[name] for name in names)
                + sum(count for (at, to), count in self.calls.items() if at in names and to not in names)
                - sum(count for (at, to), count in self.calls.items() if at not in less and to in less))

    def by_crate(self):
        """For each row of crates what their own code executes, and maps, lists and memory for it; and that by kind."""
        crate = {}
        for name in self.own:
            crate[name] = next((at for at, (_, form) in enumerate(CRATES) if re.search(form, name)), None)
        shared = [name for name in self.own if crate[name] is None]
        callers = {name: [] for name in shared}
        for (at, to), count in self.calls.items():
            if to in callers and at != to:
                callers[to].append((at, count))
        parts = {name: [0.0] * len(CRATES) for name in shared}
        for _ in range(40):
            for name in shared:
                whole, part = sum(count for _, count in callers[name]), [0.0] * len(CRATES)
                for at, count in callers[name]:
                    if crate[at] is not None:
                        part[crate[at]] += count / whole
                    else:
                        for place, share in enumerate(parts[at]):
                            part[place] += share * count / whole
                parts[name] = part
        own, asked = [0] * len(CRATES), [0.0] * len(CRATES)
        for name, count in self.own.items():
            if crate[name] is not None:
                own[crate[name]] += count
            else:
                for place, share in enumerate(parts[name]):
                    asked[place] += share * count
        kinds = [0] * len(KINDS)
        for name in shared:
            kinds[next(at for at, (_, form) in enumerate(KINDS) if re.search(form, name))] += self.own[name]
        return list(zip(own, asked)), [(kind,) for kind in kinds]


CHOSEN = [('big', 100, '`big 100`'), ('chain', 3000, 'a chain of 3,000'), ('prints', 20000, '20,000 prints')]


def put_parts(runs):
    """Where the instructions go, with all that a part calls and by where they stand."""
    profiles = [Profile(runs, load, number, runs.said.program) for load, number, _ in CHOSEN]
    heads = [head for _, _, head in CHOSEN]
    table(['Part, with all that it calls'] + heads,
          [[name] + ['%.1f %%' % (100 * (profile.alone if alone else profile.whole)(begins) / profile.total)
                     for profile in profiles] for name, begins, alone in ROWS])
    rows, kinds = [[name] for name, _ in CRATES], [[name] for name, _ in KINDS]
    for profile in profiles:
        for places, counts in zip((rows, kinds), profile.by_crate()):
            for place, count in zip(places, counts):
                place.append(' + '.join('%.1f' % (100 * part / profile.total) for part in count) + ' %')
    table(['All parts together'] + heads,
          [['million instructions'] + ['%.1f' % (profile.total / 1e6) for profile in profiles]] + kinds)
    if runs.said.long:
        table(['Crates: own code + maps, lists and memory for it'] + heads, rows)
        for (_, _, head), profile in zip(CHOSEN, profiles):
            print('%s, %d instructions, the greatest by themselves:' % (head, profile.total))
            for name, count in sorted(profile.own.items(), key=lambda pair: -pair[1])[:40]:
                print('    %5.1f %% %s' % (100 * count / profile.total, name))


def put_left(runs):
    """Instructions an entry by part, beside the other program where there is one."""
    programs = [program for program in (runs.said.program, runs.said.twin) if program]
    for load, number in (('turns', 1000), ('chain', 3000)) if runs.said.long else (('turns', 1000),):
        entries = runs.once('entries', load, number)
        profiles = [Profile(runs, load, number, program) for program in programs]
        rows = [[name] + [profile.whole(*one) for profile, one in zip(profiles, (ours, theirs))]
                for name, ours, theirs in LEFT]
        rows.append(['messages under way, the entry, all else'] + [
            profile.total - sum(row[at + 1] for row in rows) for at, profile in enumerate(profiles)])
        rows.append(['all'] + [profile.total for profile in profiles])
        table(['%s %d: part' % (load, number), 'Instructions an entry', 'the other\'s'][:1 + len(programs)],
              [[row[0]] + [count / entries for count in row[1:]] for row in rows])


def put_bytes(runs):
    """What is asked for at the peak, by the functions that ask for it."""
    rows, places = [[name] for name, _ in HELD], []
    for load, number, _ in CHOSEN:
        entries, out = runs.once('entries', load, number), runs.file('dhat')
        profile = Profile(runs, load, number, runs.said.program)
        runs.ran(['valgrind', '--tool=dhat', '--dhat-out-file=' + out] + runs.words(runs.said.program, load, number))
        with open(out, encoding='utf-8') as file:
            told = json.load(file)
        names = [re.sub(r'^0x[0-9A-F]+: | \(in [^)]*\)$', '', name) for name in told['ftbl']]
        sums = [0] * len(HELD)
        for point in told['pps']:
            asked = next((names[at] for at in point['fs'] if not re.match('malloc|realloc|rattle_', names[at])), '')
            who = '%d %s' % (point['gbk'], profile.asking(asked))
            sums[next(at for at, (_, form) in enumerate(HELD) if re.search(form, who))] += point['gb']
            places.append((point['gb'] / entries, load, who))
        for row, count in zip(rows, sums):
            row.append('%.0f' % (count / entries))
    table(['Bytes an entry at the peak'] + [head for _, _, head in CHOSEN], rows)
    if runs.said.long:
        for count, load, who in sorted(places, reverse=True)[:60]:
            print('    %s: %.1f bytes an entry in blocks of %s' % (load, count, who))


def put_lint(runs):
    """The lock checker beside a run of the same texts that is cut off after one step, so that it reads them alone."""
    rows = []
    for at in (2, 5, 6, 7, 8, 17, 19):
        name, make = linting.PROGRAMS[at]
        config, program, methods = make()
        texts = runs.put(config, program)
        reading = runs.count([runs.said.program, 'sim'] + texts + ['--steps', '1'], statuses=range(8))[0]
        checked, answer = runs.count([runs.said.program, 'lint'] + texts)
        if answer != b'lint yes\n':
            raise Wrong('%s: %r' % (name, answer))
        rows.append([name, len(program), methods, '%.1f million' % (reading / 1e6), '%.2f' % (checked / reading)])
    table(['Program', 'Bytes', 'Methods', 'Reading', '`lint`, times that'], rows)


def collected(runs, words, interval):
    """How many instructions a run executes with a collection after so many entries, and how many objects are swept."""
    count, told = runs.count(words + ['--collect', str(interval)])
    return count, int(re.search(rb'^swept (\d+)$', told, re.M).group(1))


def put_collect(runs):
    """Collections over a chain of objects, all behind its making; and runs with collections beside the same without."""
    rows = []
    for objects in (500, 2000, 8000):
        entries = []
        for turns_ in (100, 200, None):
            if turns_ is None:      # four collections, the first one once the chain was dropped
                turns_ = int(100 + 350 * entries[0] / (entries[1] - entries[0]))
            texts = runs.put('resident = 1000000\n' + collecting.LOCKS, collecting.chain(objects, turns_))
            words = [runs.said.program, 'sim'] + texts + ['--steps', STEPS]
            entries.append(runs.lines(words))
        made = entries[2] // entries[0]
        count, swept = collected(runs, words, entries[0])
        rows.append([objects, entries[2], made, swept, (count - runs.count(words)[0]) / made / objects])
    table(['Objects', 'Entries', 'Collections', 'Swept', 'Instructions of a collection, an object'], rows)
    rows = []
    loads = [('drops an object', 'a.next = new Node();', 5000, (10000, 1000, 100)),
             ('drops an array of 256', 'a.next = new ref[256];', 500, (1000, 100))]
    loads += [(name, body, turns_, (1,)) for name, body in collecting.EACH for turns_ in (50, 100, 200)]
    for name, body, turns_, intervals in loads:
        texts = runs.put(collecting.LOCKS, collecting.NODE + collecting.TURNS % (turns_, body))
        words = [runs.said.program, 'sim'] + texts + ['--steps', STEPS]
        entries, without = runs.lines(words), runs.count(words)[0]
        for interval in intervals:
            count, swept = collected(runs, words, interval)
            rows.append([name, turns_, entries, interval, entries // interval, swept, '%.2f' % (count / without)])
    table(['Each turn', 'Turns', 'Entries', '`--collect`', 'Collections', 'Swept', 'Instructions, times those without'],
          rows)


HELD = [  # by how many blocks stand there, and by the function that asked for them
    ('the list of entries', r'^1 dso_world::world'),
    ('events of entries', r'^\d+ dso_world::world'),
    ('messages of entries', r'^\d+ dso_world::(client|server)_entry'),
    ('records, bodies, and what else nodes hold', r'^\d+ dso_(client|server|world|session|table|change|txn|store)'),
    ('blocks of threads, as the pass keeps them', r'^\d+ dso_legal'),
    ('what one entry commits, and the one heap', r'^\d+ dso_(plain|run::replay)'),
    ('all else', r'')]
TABLES = {'loads': put_loads, 'growth': put_growth, 'entries': put_entries, 'parts': put_parts, 'bytes': put_bytes,
          'left': put_left, 'lint': put_lint, 'collect': put_collect}


def arguments():
    parser = argparse.ArgumentParser(prog='tests/sim_figures', description=__doc__.split('\n')[0],
                                     formatter_class=argparse.ArgumentDefaultsHelpFormatter)
    parser.add_argument('--program', help='the program in place of the one that ./dsorun builds')
    parser.add_argument('--twin', help='another program of the same rules, to stand beside')
    parser.add_argument('--tables', default=','.join(TABLES), help='which tables')
    parser.add_argument('--folder', help='leave texts and profiles there')
    parser.add_argument('--long', action='store_true', help='tell the greatest functions, too')
    return parser.parse_args()


def main():
    said = arguments()
    if not built(said):
        print('there is no program %s' % said.program)
        return 2
    os.sched_setscheduler(0, os.SCHED_IDLE, os.sched_param(0))
    said.twin = said.twin and os.path.abspath(said.twin)
    try:
        with tempfile.TemporaryDirectory(prefix='sim-figures-') as folder:
            if said.folder:
                os.makedirs(said.folder, exist_ok=True)
            runs = Runs(said, os.path.abspath(said.folder or folder))
            for name in said.tables.split(','):
                TABLES[name](runs)
    except Wrong as why:
        print(why)
        return 1
    return 0


if __name__ == '__main__':
    sys.exit(main())
