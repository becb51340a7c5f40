"""The counts of a journal."""
from collections import Counter

from entries import DOWN, REQUESTS, UP, fault_name, node_name
from letters import letters_of
from spans import Spans

ENTRY_KINDS = ('act', 'took', 'flush', 'lose', 'break', 'rejoin')
# the messages about a lock
LOCK_KINDS = ('request', 'grant', 'recall', 'return', 'wake')
# how many locks and objects are told
MOST = 10


class Counts:
    """What is counted of a journal, each count in a Counter."""

    def __init__(self, entries):
        self.entries = entries
        self.letters = letters_of(entries)
        self.blocks = Spans(entries).blocks
        self.kinds = Counter((entry.node, entry.kind) for entry in entries)
        self.events = Counter(entry.event.kind for entry in entries if entry.event)
        self.refused = [entry for entry in entries if entry.event and entry.event.is_refused]
        self.faults = [entry for entry in entries
                       if entry.event and entry.event.kind == 'end' and entry.event.fault]
        self.sent = Counter(letter.message.kind for letter in self.letters)
        self.taken = Counter(letter.message.kind for letter in self.letters if letter.taken)
        self.locks = self.count_locks()
        self.objects = self.count_objects()

    def count_locks(self):
        """(lock, what) -> how often; what is the kind of a message about it, `entered` or `waited`."""
        counts = Counter((letter.message.lock, letter.message.kind) for letter in self.letters
                         if letter.message.kind in LOCK_KINDS)
        for event in self.done():
            if event.kind in ('enter', 'resume'):
                counts[event.lock, 'entered'] += 1
            elif event.kind == 'wait':
                counts[event.lock, 'waited'] += 1
        return counts

    def done(self):
        return (entry.event for entry in self.entries if entry.event and entry.event.reply == 'done')

    def count_objects(self):
        """(object, what) -> how often; what is read, written, or the kind of a message about it."""
        counts = Counter()
        for entry in self.entries:
            event = entry.event
            if event and event.kind in ('get', 'put') and not event.is_refused:
                counts[event.object, 'read' if event.kind == 'get' else 'written'] += 1
        for letter in self.letters:
            if letter.message.kind in ('fault', 'flushed'):
                counts[letter.message.object, letter.message.kind] += 1
            elif letter.message.kind == 'changes':
                counts.update((changed, 'changes') for changed in letter.message.changed)
        return counts

    def lock_messages(self, lock):
        return sum(self.locks[lock, kind] for kind in LOCK_KINDS)

    def busy_locks(self):
        """Those with most messages first; of two with as many, the one that was entered more often."""
        locks = {lock for lock, _ in self.locks}
        return sorted(locks, key=lambda lock: (-self.lock_messages(lock), -self.locks[lock, 'entered'], lock))

    def uses(self, number):
        return self.objects[number, 'read'] + self.objects[number, 'written']

    def busy_objects(self):
        """Those that were read and written most often first."""
        return sorted({number for number, _ in self.objects}, key=lambda number: (-self.uses(number), number))

    def longest_block(self):
        """The first of those with most events, or None."""
        return max(self.blocks, key=lambda block: block.count, default=None)


def table(heads, rows):
    """Lines of columns, the first one to the left and the others to the right."""
    texts = [[str(cell) for cell in row] for row in [heads] + rows]
    widths = [max(map(len, column)) for column in zip(*texts)]
    return [('  '.join([row[0].ljust(widths[0])] + [cell.rjust(width) for cell, width in zip(row[1:], widths[1:])]))
            for row in texts]


def summary(counts):
    entries, sent = counts.entries, counts.sent
    lines = ['entries %d, clocks up to %d' % (len(entries), max((entry.clock for entry in entries), default=0)),
             'grants %d, recalls %d, returns %d, flushes %d, objects asked for %d' % (
                 sent['grant'], sent['recall'], sent['return'], sent['flushed'], sent['fault']),
             'threads that faulted %d, events refused %d' % (len(counts.faults), len(counts.refused))]
    for lock in counts.busy_locks()[:1]:
        lines.append('the busiest lock: %s, %d messages' % (lock, counts.lock_messages(lock)))
    for number in counts.busy_objects()[:1]:
        lines.append('the busiest object: %d, read and written %d times' % (number, counts.uses(number)))
    return lines + block_line(counts.longest_block())


def block_line(block):
    if block is None:
        return []
    if block.last is None:
        until = 'open'
    else:
        until = 'to line %d' % block.last.line
    return ['the longest block: %d events of thread %s, from line %d, %s' % (
        block.count, block.thread, block.first.line, until)]


def entries_table(counts):
    nodes = sorted({node for node, _ in counts.kinds})
    rows = [[node_name(node)] + with_sum([counts.kinds[node, kind] for kind in ENTRY_KINDS]) for node in nodes]
    every = [sum(counts.kinds[node, kind] for node in nodes) for kind in ENTRY_KINDS]
    return table(['entries', *ENTRY_KINDS, 'all'], rows + [['all'] + with_sum(every)])


def with_sum(numbers):
    return numbers + [sum(numbers)]


def messages_table(counts):
    rows = [[kind, counts.sent[kind], counts.taken[kind], counts.sent[kind] - counts.taken[kind]]
            for kind in (*UP, *DOWN)]
    return table(['messages', 'sent', 'taken', 'under way'], rows)


def events_table(counts):
    return table(['events', 'all'], [[kind, counts.events[kind]] for kind in REQUESTS if counts.events[kind]])


def locks_table(counts):
    whats = (*LOCK_KINDS, 'entered', 'waited')
    rows = [[lock, counts.lock_messages(lock)] + [counts.locks[lock, what] for what in whats]
            for lock in counts.busy_locks()[:MOST]]
    return table(['locks', 'messages', 'requests', 'grants', 'recalls', 'returns', 'wakes', 'entered', 'waited'], rows)


def objects_table(counts):
    whats = ('read', 'written', 'fault', 'flushed', 'changes')
    rows = [[number] + [counts.objects[number, what] for what in whats] for number in counts.busy_objects()[:MOST]]
    return table(['objects', 'read', 'written', 'asked for', 'flushed', 'changes sent'], rows)


def faults_lines(counts):
    lines = ['thread %s ended by %s at line %d' % (entry.thread, fault_name(entry.event.fault), entry.line)
             for entry in counts.faults]
    return lines + ['refused at line %d: thread %s, %s (%s)' % (
        entry.line, entry.thread, entry.event.text, fault_name(entry.event.fault)) for entry in counts.refused]


def stats(entries):
    """The lines of all counts: a summary, and tables behind it."""
    counts = Counts(entries)
    parts = [summary(counts), faults_lines(counts), entries_table(counts), messages_table(counts),
             events_table(counts), locks_table(counts), objects_table(counts)]
    return '\n\n'.join('\n'.join(part) for part in parts if part)
