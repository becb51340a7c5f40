"""Runs programs that stand at the limits, each with 512 KiB of stack, and compares what they come to.

Each is run by the two builds of dsorun, or by what is named, and by another program for the same rules, which has the
usual stack. It compares exit status, report and, with --journal, the journal. A line tells the program, the build, both
statuses, the seconds and the peak memory (less than this script's own, some 12 MB, can't be told).
The status is 1 where one differs, 2 for wrong words, and else 0, also where there is nothing to compare with.
"""
import argparse
import filecmp
import os
import resource
import signal
import subprocess
import sys
import tempfile
import time

import large_programs

TOP = os.path.dirname(os.path.dirname(os.path.abspath(__file__)))
OUT = os.path.join(TOP, 'crates', 'dsorun', 'out')
# as LLVM builds it, and as the toolchain's own compiler does (`rt run --backend rattle` gives that one the first name: copy it)
BUILDS = ['dsorun', 'dsorun.by-rattle']
TWIN = os.path.join(TOP, '..', 'twin-target', 'release', 'twin')
# what a program may weigh at most
STEPS = '4000000'
# the status of a run that took too long
TOO_LONG = 'too long'


def arguments():
    parser = argparse.ArgumentParser(prog='tests/large', description=__doc__.split('\n')[0],
                                     epilog='The programs: %s.' % ', '.join(large_programs.PROGRAMS))
    parser.add_argument('programs', nargs='*', metavar='PROGRAM',
                        help='what is run, in place of the builds in crates/dsorun/out: %s' % ', '.join(BUILDS))
    parser.add_argument('--only', action='append', metavar='NAME', choices=sorted(large_programs.PROGRAMS),
                        help='this program alone; may stand several times')
    parser.add_argument('--twin', default=TWIN, help='the other program for the same rules')
    parser.add_argument('--stack', type=int, default=512, metavar='KIB', help='how much stack (512 KiB)')
    parser.add_argument('--seconds', type=int, default=600, help='how long a run may take (600)')
    parser.add_argument('--journal', action='store_true', help='compare the journals too, of some 100 MB')
    parser.add_argument('--keep', metavar='FOLDER', help='put the configurations and programs there, and run nothing')
    said = parser.parse_args()
    for file in said.programs:
        if not is_program(file):
            parser.error('there is no program %s' % file)
    return said


def is_program(file):
    return os.path.isfile(file) and os.access(file, os.X_OK)


def builds(said):
    """The programs that are run, each with a name; those that aren't there are told."""
    if said.programs:
        named = [(os.path.basename(file), os.path.abspath(file)) for file in said.programs]
    else:
        named = [(name, os.path.join(OUT, name)) for name in BUILDS]
    for name, file in named:
        if not is_program(file):
            print('there is no program %s' % file)
    return [(name, file) for name, file in named if is_program(file)]


class Run:
    """What a run came to: its status, the files of its report and its journal, its seconds and its peak memory."""

    def __init__(self, folder, name):
        self.report = os.path.join(folder, name + '.report')
        self.journal = os.path.join(folder, name + '.journal')
        self.status, self.seconds, self.memory = None, 0.0, 0.0

    def words(self, has_journal):
        return ['sim', 'c', 'p', '--steps', STEPS] + (['--journal', self.journal] if has_journal else [])


def waited(child, seconds):
    """(status, use of the machine) of a child, which is ended when it takes longer."""
    signal.signal(signal.SIGALRM, lambda *_: child.kill())
    signal.alarm(seconds)
    _, status, use = os.wait4(child.pid, 0)
    is_late = signal.alarm(0) == 0
    child.returncode = os.waitstatus_to_exitcode(status)
    return TOO_LONG if is_late else child.returncode, use


def run(folder, name, file, stack, said):
    """Runs a program on the files c and p of the folder, with so much stack in KiB; None is as much as there is."""
    made = Run(folder, name)

    def little():
        if stack is not None:
            resource.setrlimit(resource.RLIMIT_STACK, (stack * 1024, stack * 1024))
        resource.setrlimit(resource.RLIMIT_CORE, (0, 0))

    with open(made.report, 'wb') as report:
        began = time.time()
        child = subprocess.Popen([file] + made.words(said.journal), cwd=folder, stdin=subprocess.DEVNULL, stdout=report,
                                 stderr=subprocess.DEVNULL, preexec_fn=little)
        made.status, use = waited(child, said.seconds)
        made.seconds, made.memory = time.time() - began, use.ru_maxrss / 1024
    return made


def is_same(ours, theirs):
    """Whether two files have the same bytes; two that aren't there have."""
    if not (os.path.exists(ours) and os.path.exists(theirs)):
        return os.path.exists(ours) == os.path.exists(theirs)
    return filecmp.cmp(ours, theirs, shallow=False)


def difference(ours, theirs):
    """What differs, in words; nothing where all is the same."""
    parts = [] if ours.status == theirs.status else ['status']
    parts += [] if is_same(ours.report, theirs.report) else ['report']
    parts += [] if is_same(ours.journal, theirs.journal) else ['journal']
    return ' and '.join(parts)


def shown(status):
    """A status in words: a number, or the signal that ended the run."""
    if isinstance(status, int) and status < 0:
        return signal.Signals(-status).name
    return str(status)


def put(folder, name):
    """Writes the configuration and the program of this name."""
    for file, content in zip(('c', 'p'), large_programs.PROGRAMS[name]()):
        with open(os.path.join(folder, file), 'w', encoding='latin-1') as out:
            out.write(content)


def compare(name, programs, said):
    """Runs one program by each build, and gives how many differ."""
    differing = 0
    with tempfile.TemporaryDirectory(prefix='large-') as folder:
        put(folder, name)
        theirs = run(folder, 'theirs', said.twin, None, said)
        for build, file in programs:
            ours = run(folder, 'ours', file, said.stack, said)
            differs = difference(ours, theirs)
            differing += bool(differs)
            print('%-9s %-16s %8s for %s %8.2f s %7.1f MB%s' % (
                name, build, shown(ours.status), shown(theirs.status), ours.seconds, ours.memory,
                '  differs in ' + differs if differs else ''), flush=True)
            for made in (ours.report, ours.journal):
                if os.path.exists(made):
                    os.remove(made)
    return differing


def keep(names, folder):
    """Puts the files of these programs into a folder of each, below this one."""
    for name in names:
        place = os.path.join(folder, name)
        os.makedirs(place, exist_ok=True)
        put(place, name)


def main():
    said = arguments()
    names = said.only or list(large_programs.PROGRAMS)
    if said.keep:
        keep(names, said.keep)
        return 0
    if not is_program(said.twin):
        print('skipped: there is no other program %s (--twin names it)' % said.twin)
        return 0
    said.twin = os.path.abspath(said.twin)
    programs = builds(said)
    if not programs:
        print('skipped: there is nothing to run')
        return 0
    print('%-9s %-16s %8s' % ('program', 'build', 'status'))
    differing = sum(compare(name, programs, said) for name in names)
    print('%d programs by %d builds with %d KiB of stack: %d differ' % (len(names), len(programs), said.stack, differing))
    return 1 if differing else 0


if __name__ == '__main__':
    sys.exit(main())
