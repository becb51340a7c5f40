"""The lanes of the picture: one for the server, one for each client, one for each thread."""
from labels import label
from words import Thread

# the width of a character, in pixels, as are all widths here
CHARACTER = 6.05
# the room around a dot
DOT = 8
# the widths of the bars: of a lock that a thread is inside, and of a client's lease
HOLD = 6
LEASE = 4
# how many bars a lane has room for
MOST_BARS = 20
# the room between the lanes of two nodes, and that of the clocks on the left
GAP = 14
MARGIN = 44


def places(spans):
    """For each span the first place that is free as long as it lasts, from 0. They come as they begin."""
    found, ends = {}, []
    for span in spans:
        place = next((place for place, end in enumerate(ends) if end <= span.first.line), len(ends))
        ends[place:place + 1] = [span.last.line if span.last else float('inf')]
        found[span] = place
    return found


class Lane:
    """A column. Beside a dot its bars stand on one side and its labels on the other, those of the server on both."""

    def __init__(self, key, title, labels):
        self.key, self.title = key, title
        self.bars, self.bar_width = {}, 0
        self.text = (max([len(title)] + [len(text) for text in labels]) + 1) * CHARACTER
        self.side, self.left = 'right', 0

    def stand(self, side, left):
        self.side, self.left = side, left

    def hold_bars(self, spans, width):
        self.bars, self.bar_width = places(spans), width

    @property
    def gutter(self):
        count = min(MOST_BARS, 1 + max(self.bars.values(), default=-1))
        return count * self.bar_width + DOT

    @property
    def width(self):
        return 2 * (self.text + DOT) if self.side == 'middle' else self.gutter + DOT + self.text

    @property
    def dot(self):
        """Where the middle of its dots is."""
        if self.side == 'middle':
            return self.left + self.width / 2
        return self.left + (self.gutter if self.side == 'right' else self.width - self.gutter)

    def bar(self, span):
        """Where the middle of a bar is; None where there is no room for it."""
        if self.bars[span] >= MOST_BARS:
            return None
        away = DOT / 2 + (self.bars[span] + 0.5) * self.bar_width
        return self.dot + (away if self.side == 'left' else -away)


class Group:
    """The lanes of one node, from left to right."""

    def __init__(self, node, lanes):
        self.node, self.lanes = node, lanes

    @property
    def title(self):
        return 'client %d' % self.node if self.node else 'server'

    @property
    def left(self):
        return self.lanes[0].left

    @property
    def width(self):
        return self.lanes[-1].left + self.lanes[-1].width - self.left


class Lanes:
    """The server stands in the middle, with half of the clients on each side. The lane of a client is next to the
    server, and those of its threads are behind."""

    def __init__(self, entries, spans):
        labels = {0: []}
        for entry in entries:
            labels.setdefault(lane_key(entry), []).append(label(entry))
            for client in clients_of(entry):
                labels.setdefault(client, [])
        self.by_key = {key: Lane(key, lane_title(key), texts) for key, texts in labels.items()}
        self.add_bars(spans)
        self.groups = self.place()
        self.width = self.groups[-1].left + self.groups[-1].width + GAP

    def add_bars(self, spans):
        for key, lane in self.by_key.items():
            if isinstance(key, Thread):
                lane.hold_bars([hold for hold in spans.holds if hold.thread == key], HOLD)
            elif key:
                lane.hold_bars([lease for lease in spans.leases if lease.client == key], LEASE)

    def place(self):
        clients = sorted(key for key in self.by_key if key and not isinstance(key, Thread))
        half = len(clients) // 2
        sides = ['left'] * half + ['middle'] + ['right'] * (len(clients) - half)
        groups, left = [], MARGIN
        for node, side in zip([*clients[:half], 0, *clients[half:]], sides):
            lanes = self.lanes_of(node)
            if side == 'left':
                lanes.reverse()
            for lane in lanes:
                lane.stand(side, left)
                left += lane.width
            groups.append(Group(node, lanes))
            left += GAP
        return groups

    def lanes_of(self, node):
        """The lane of a node, and those of its threads."""
        threads = sorted(key for key in self.by_key if isinstance(key, Thread) and key.client == node)
        return [self.by_key[key] for key in [node, *threads]]

    def of(self, entry):
        return self.by_key[lane_key(entry)]

    def all(self):
        return [lane for group in self.groups for lane in group.lanes]


def lane_key(entry):
    """A thread, the number of a client, or 0 for the server."""
    return entry.thread or entry.node


def clients_of(entry):
    """The clients that an entry names."""
    return [client for client in (entry.node, entry.peer, *(to for to, _ in entry.sent)) if client]


def lane_title(key):
    if isinstance(key, Thread):
        return 'thread %s' % key
    return 'messages' if key else 'server'
