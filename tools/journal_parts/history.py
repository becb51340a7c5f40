"""What the end of a journal leaves of each thread."""
from collections import defaultdict

from letters import letters_of
from queues import Queues
from spans import Spans


class History:
    """A journal, with what it tells at its end."""

    def __init__(self, entries):
        self.entries = entries
        self.letters = letters_of(entries)
        self.spans = Spans(entries)
        self.queues = Queues(entries)
        # thread -> its entries
        self.acts = defaultdict(list)
        # client -> the messages that it took
        self.taken = defaultdict(list)
        for entry in entries:
            if entry.kind == 'act':
                self.acts[entry.thread].append(entry)
            elif entry.kind == 'took' and entry.node:
                self.taken[entry.node].append(entry)

    def threads(self):
        """All threads that acted, by client and place."""
        return sorted(self.acts)

    def last(self, thread):
        return self.acts[thread][-1]

    def end(self, thread):
        """The entry in which it ended, or None."""
        last = self.last(thread)
        return last if last.event and last.event.kind == 'end' else None

    def lost(self, thread):
        """The entry in which the server lost its client, or None."""
        return self.queues.lost.get(thread.client)

    def open_threads(self):
        """The threads that didn't end, of clients that aren't lost."""
        return [thread for thread in self.threads() if not self.end(thread) and not self.lost(thread)]

    def insiders(self, client, lock):
        """Who of the client is inside a lock: its holds, in the order in which they began."""
        return [hold for hold in self.spans.inside.values() if hold.lock == lock and hold.thread.client == client]

    def under_way(self):
        """The letters that nobody took, but for those of lost clients."""
        return [letter for letter in self.letters
                if letter.taken is None and letter.client not in self.queues.lost]

    def answer(self, asked, kind, number=None):
        """The entry in which the client took such a message (of this object) behind the one that asked, or None."""
        return next((entry for entry in self.taken[asked.node] if entry.line > asked.line
                     and entry.message.kind == kind and number in (None, entry.message.object)), None)
