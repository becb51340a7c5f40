"""The picture of a journal, in pieces of SVG: time goes down, a row for each clock."""
import shapes
from colours import colour
from labels import label
from lanes import GAP, MARGIN, Lanes
from letters import letters_of
from marks import MARKS, mark, mark_kind
from spans import Spans
from stats import LOCK_KINDS, Counts

# the height of a row, and of what stands above the rows, in pixels
ROW = 16
HEAD = 40
# how far from its mark a label stands
BESIDE = 8
# how many rows apart clocks are written
CLOCKS = 5


class Picture:
    """What is drawn of a journal: its entries of these clocks, each letter with an end there, and each
    span that reaches into them.

    Where it is titled, the text of an entry shows where the pointer rests, without a script."""

    def __init__(self, entries, clocks=None, is_titled=False):
        self.is_titled = is_titled
        every = [entry.clock for entry in entries] or [1]
        self.first, self.last = clocks or (1, max(every))
        self.spans = Spans(entries)
        self.entries = [entry for entry in entries if self.has(entry)]
        self.letters = [letter for letter in letters_of(entries)
                        if self.has(letter.sent) or letter.taken and self.has(letter.taken)]
        self.lanes = Lanes(self.entries, self.spans)
        self.numbers = {lock: number for number, lock in enumerate(Counts(entries).busy_locks())}
        self.height = (self.last - self.first + 1) * ROW + ROW
        self.width = self.lanes.width

    def has(self, entry):
        return self.first <= entry.clock <= self.last

    def y(self, clock):
        return (clock - self.first) * ROW + ROW

    def at(self, entry):
        return self.lanes.of(entry).dot, self.y(entry.clock)

    def lock_class(self, lock):
        return 'k%d' % self.numbers[lock] if lock in self.numbers else ''

    def colour_rules(self):
        return ''.join('.k%d{--c:%s}\n' % (number, colour(number)) for number in range(len(self.numbers)))

    def heads(self):
        """The titles of the nodes and lanes, HEAD high."""
        parts = []
        for group in self.lanes.groups:
            parts.append(shapes.box('group', (group.left, 2), (group.width, HEAD)))
            parts.append(shapes.text('node', group.left + group.width / 2, 15, group.title))
            for lane in group.lanes if group.node else []:
                parts.append(shapes.text('lane ' + lane.side, lane.dot, 32, lane.title))
        parts.append(shapes.text('clock', MARGIN - GAP / 2, 32, 'clock'))
        return ''.join(parts)

    def body(self):
        """All rows."""
        parts = (self.ground(), self.troubles(), self.bars(), self.arrows(), self.marks())
        return '\n'.join('<g>%s</g>' % ''.join(part) for part in parts)

    def ground(self):
        for group in self.lanes.groups:
            yield shapes.box('group', (group.left, 0), (group.width, self.height))
            for lane in group.lanes:
                yield shapes.upright('rail', lane.dot, 0, self.height)
        for clock in range(self.first, self.last + 1):
            if clock % CLOCKS == 0 or clock == self.first:
                yield shapes.text('clock', MARGIN - GAP / 2, self.y(clock) + 3.5, str(clock))

    def troubles(self):
        """The lanes of lost clients, and a line across for each connection that breaks."""
        for entry in self.entries:
            if entry.kind == 'lose':
                group = next(group for group in self.lanes.groups if group.node == entry.peer)
                top = self.y(entry.clock)
                yield shapes.box('lost', (group.left, top), (group.width, self.height - top))
            elif entry.kind == 'break':
                across = shapes.points(*self.at(entry)), shapes.number(self.lanes.by_key[entry.peer].dot)
                yield shapes.path('bad cut', 'M%sH%s' % across)

    def bars(self):
        """The locks that threads are inside, the waits, and the leases of the clients."""
        for hold in self.spans.holds:
            yield from self.bar('hold', hold, hold.thread)
        for lease in self.spans.leases:
            yield from self.bar('lease', lease, lease.client)
        for wait in self.spans.waits:
            ends = self.ends(wait)
            if ends and wait.thread in self.lanes.by_key:
                yield shapes.upright('wait ' + self.lock_class(wait.lock), self.lanes.by_key[wait.thread].dot, *ends)

    def bar(self, word, span, key):
        ends = self.ends(span)
        x = self.lanes.by_key[key].bar(span) if key in self.lanes.by_key else None
        if ends and x is not None:
            yield shapes.upright('%s %s %s' % (word, span.level, self.lock_class(span.lock)), x, *ends)

    def ends(self, span):
        """The rows of a span, or None where it has none here."""
        last = span.last.clock if span.last else self.last + 1
        if span.first.clock > self.last or last < self.first:
            return None
        bottom = self.height if last > self.last else self.y(last)
        return max(0, self.y(span.first.clock)), bottom

    def arrows(self):
        for letter in self.letters:
            message = letter.message
            classes = 'message ' + message.kind
            if message.kind in LOCK_KINDS:
                classes += ' lock ' + self.lock_class(message.lock)
            start = self.end_of(letter.sent)
            if letter.taken:
                yield shapes.arrow(classes, start, self.end_of(letter.taken))
            else:
                lane = self.lanes.by_key[0 if letter.is_up else letter.client]
                yield shapes.stub(classes, start, (lane.dot, start[1] + 2 * ROW))

    def end_of(self, entry):
        """Where the end of a letter is; one outside of the rows is at their edge."""
        lane = self.lanes.by_key.get(entry.thread or entry.node) or self.lanes.by_key[entry.node]
        return lane.dot, min(max(self.y(entry.clock), 0), self.height)

    def marks(self):
        for entry in self.entries:
            drawn = self.mark(entry) + self.text(entry)
            yield shapes.titled(drawn, entry.text) if self.is_titled else drawn

    def mark(self, entry):
        return mark(mark_kind(entry), *self.at(entry), self.lock_class(lock_of(entry)))

    def text(self, entry):
        """Beside the mark; in the lane of the server on the side of the client that it is about."""
        x, y = self.at(entry)
        side = self.lanes.of(entry).side
        if side == 'middle':
            side = 'left' if self.lanes.by_key[entry.peer].side == 'right' else 'right'
        bad = 'bad' if 'bad' in MARKS[mark_kind(entry)][0] else ''
        classes = ' '.join(filter(None, ('label', side, bad, self.lock_class(lock_of(entry)))))
        return shapes.text(classes, x + (BESIDE if side == 'right' else -BESIDE), y + 3.5, label(entry))


def lock_of(entry):
    """The lock that an entry is about, or None."""
    if entry.event:
        return entry.event.lock
    message = entry.message or (entry.sent[0][1] if entry.kind == 'act' else None)
    return message.lock if message and message.kind in LOCK_KINDS else None
