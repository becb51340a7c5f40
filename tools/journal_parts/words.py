"""The words of one part of a line, read from the front."""
import re
from dataclasses import dataclass


class JournalFault(Exception):
    """What is wrong with a journal, and in which of its lines, from 1."""

    def __init__(self, line, what):
        super().__init__('line %d: %s' % (line, what))


@dataclass(frozen=True, order=True)
class Thread:
    """A thread by its client and its place there, both from 1."""
    client: int
    index: int

    def __str__(self):
        return '%d.%d' % (self.client, self.index)


@dataclass(frozen=True, order=True)
class Lock:
    """A monitor ('m' and its object) or a lock with a name ('n' and its number). Monitors come first."""
    kind: str
    number: int

    def __str__(self):
        return '%s%d' % (self.kind, self.number)


CLASS = re.compile('k[0-9]+|a(long|boolean|text|ref)|roots')
VALUE = re.compile('null|true|false|-?[0-9]+|[tr][0-9]+')
NUMBER = re.compile('[0-9]+')


class Words:
    """Each reading takes the words that it is named for, or tells what stands there instead."""

    def __init__(self, line, text):
        self.line = line
        self.words = text.split(' ')
        self.at = 0

    def fault(self, wanted):
        found = repr(self.words[self.at]) if self.at < len(self.words) else 'nothing'
        return JournalFault(self.line, '%s where %s should stand' % (found, wanted))

    def word(self, wanted):
        if self.at == len(self.words):
            raise self.fault(wanted)
        self.at += 1
        return self.words[self.at - 1]

    def match(self, pattern, wanted):
        if self.at == len(self.words) or not pattern.fullmatch(self.words[self.at]):
            raise self.fault(wanted)
        return self.word(wanted)

    def one_of(self, words):
        if self.at == len(self.words) or self.words[self.at] not in words:
            raise self.fault(' or '.join(words))
        return self.word('a word')

    def number(self, wanted='a number'):
        return int(self.match(NUMBER, wanted))

    def object(self):
        return self.number('an object')

    def lock(self):
        word = self.match(re.compile('[mn][0-9]+'), 'a lock')
        return Lock(word[0], int(word[1:]))

    def level(self):
        return self.one_of(('read', 'write'))

    def thread(self):
        client, index = self.match(re.compile(r'[0-9]+\.[0-9]+'), 'a thread').split('.')
        return Thread(int(client), int(index))

    def node(self):
        """A client's number, or 0 for the server."""
        word = self.match(re.compile('s|c[1-9][0-9]*'), 'a node')
        return 0 if word == 's' else int(word[1:])

    def value(self):
        return self.match(VALUE, 'a value')

    def class_word(self):
        return self.match(CLASS, 'a class')

    def items(self, read):
        """A list: its count, and so many items."""
        return [read() for _ in range(self.number('a count'))]

    def is_over(self):
        return self.at == len(self.words)

    def end(self):
        if not self.is_over():
            raise self.fault('nothing')

    def text_since(self, at):
        return ' '.join(self.words[at:self.at])
