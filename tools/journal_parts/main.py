"""The words of tools/journal."""
import argparse
import os
import sys

from entries import read_journal
from page import picture
from stats import stats
from why import why
from words import JournalFault

COMMANDS = {
    'picture': 'a page with a lane for each node and thread, and an arrow for each message',
    'stats': 'counts of entries, messages, locks, objects and blocks',
    'why': 'who waits for what, and what a thread did before it faulted',
}


def clocks(text):
    first, _, last = text.partition('-')
    if not (first.isdecimal() and last.isdecimal() and 1 <= int(first) <= int(last)):
        raise argparse.ArgumentTypeError("'%s' isn't as 100-300" % text)
    return int(first), int(last)


def arguments():
    parser = argparse.ArgumentParser(prog='tools/journal', description='Shows what a journal tells.')
    commands = parser.add_subparsers(dest='command', required=True, metavar='COMMAND')
    for name, told in COMMANDS.items():
        command = commands.add_parser(name, help=told, description='Prints %s.' % told)
        command.add_argument('file', metavar='FILE', help='what `dsorun .. --journal FILE` wrote')
        if name == 'picture':
            command.add_argument('--clocks', type=clocks, metavar='FIRST-LAST', help='draw these clocks alone')
            command.add_argument('--image', action='store_true', help='an SVG in place of a page')
    return parser.parse_args()


def read_file(name):
    with open(name, encoding='utf-8', errors='replace', newline='') as file:
        return file.read()


def answer(said):
    entries = read_journal(read_file(said.file))
    if said.command == 'picture':
        return picture(entries, os.path.basename(said.file), said.clocks, said.image)
    return stats(entries) if said.command == 'stats' else why(entries)


def put(text):
    """Prints a text; where nobody reads on, that is no fault."""
    try:
        sys.stdout.reconfigure(encoding='utf-8')
        print(text, flush=True)
    except BrokenPipeError:
        os.dup2(os.open(os.devnull, os.O_WRONLY), sys.stdout.fileno())


def main():
    said = arguments()
    try:
        text = answer(said)
    except OSError as fault:
        return "tools/journal: %s can't be read: %s" % (said.file, fault.strerror)
    except JournalFault as fault:
        return 'tools/journal: %s, %s' % (said.file, fault)
    put(text)
    return 0


if __name__ == '__main__':
    sys.exit(main())
