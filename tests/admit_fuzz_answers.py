"""Answers rows as the programs of crates/server_cases and crates/connection_cases do, by the other reading of the rules.

`admit_fuzz --by-reading` compares with it in the place of the programs, so that wrong readings need no build.
"""
import sys

import admit_fuzz_frames
import admit_fuzz_words


class Answers:
    """A server with the ends of its clients' connections, new from each line on that is no command."""

    def __init__(self, reading):
        self.reading = reading
        self.anew()

    def anew(self):
        self.server = self.reading.new_server()
        self.ends = {client: self.reading.session.Session(True) for client in admit_fuzz_frames.CLIENTS}

    def answered(self, line):
        """What is printed for the line."""
        name, is_command, command = line.partition(': ')
        if not is_command:
            self.anew()
            return line
        first, _, rest = command.partition(' ')
        return '%s: %s' % (name, self.read_as(rest) if first == 'up' else self.done(int(first), rest))

    def read_as(self, digits):
        return admit_fuzz_words.read_as(self.reading, bytes.fromhex(digits))

    def done(self, client, words):
        word, _, rest = words.partition(' ')
        if word == 'told':
            return admit_fuzz_words.state(self.server, self.ends, client)
        if word == 'break':
            self.ends[client].break_now()
            return 'broken'
        if word == 'posts':
            self.ends[client].send(('ids', int(rest)), 1)
            return 'posted'
        return admit_fuzz_words.admitted(
            *self.reading.admit.admit(self.server, self.ends[client], client, bytes.fromhex(rest)))


def main():
    sys.path.insert(0, sys.argv[1])
    answers = Answers(admit_fuzz_frames.Reading())
    for line in sys.stdin:
        print(answers.answered(line.rstrip('\n')))


if __name__ == '__main__':
    main()
