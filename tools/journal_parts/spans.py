"""What lasts from one entry to another: who is inside a lock, who waits, leases, blocks."""


class Span:
    """From the entry `first` to the entry `last`, which is None where the journal ends before it."""

    def __init__(self, first):
        self.first = first
        self.last = None


class Hold(Span):
    """A thread is inside a lock, having entered it `count` times."""

    def __init__(self, first, thread, lock, level):
        super().__init__(first)
        self.thread, self.lock, self.level, self.count = thread, lock, level, 1


class Wait(Span):
    """A thread gave up a monitor that it had entered `count` times; `woken` is the entry that let it go on."""

    def __init__(self, first, thread, lock, count):
        super().__init__(first)
        self.thread, self.lock, self.count = thread, lock, count
        self.woken = None


class Lease(Span):
    """A client has the lease of a lock; `recalled` is the entry in which it took the recall."""

    def __init__(self, first, client, lock, level):
        super().__init__(first)
        self.client, self.lock, self.level = client, lock, level
        self.recalled = None


class Block(Span):
    """A thread's events up to the one with which its record went to the server."""

    def __init__(self, first, thread):
        super().__init__(first)
        self.thread, self.count = thread, 0


class Spans:
    """All spans of a journal, in the order in which they began."""

    def __init__(self, entries):
        self.holds, self.waits, self.leases, self.blocks = [], [], [], []
        # what is open: by thread and lock, by thread, by client and lock, by thread
        self.inside, self.waiting, self.leased, self.in_block = {}, {}, {}, {}
        # each client's own list of the threads that wait on a lock
        self.lists = {}
        for entry in entries:
            self.add(entry)

    def add(self, entry):
        if entry.kind == 'took' and entry.node:
            self.take(entry, entry.message)
        if entry.event:
            self.act(entry, entry.event)
        for _, message in entry.sent:
            self.send(entry, message)

    def take(self, entry, message):
        key = (entry.node, message.lock)
        if message.kind == 'grant':
            self.leased[key] = Lease(entry, entry.node, message.lock, message.level)
            self.leases.append(self.leased[key])
        elif message.kind == 'recall' and key in self.leased:
            self.leased[key].recalled = entry
        elif message.kind == 'wake':
            self.wake(entry, message.thread)

    def send(self, entry, message):
        if message.kind == 'return':
            self.lists.pop((entry.node, message.lock), None)
            lease = self.leased.pop((entry.node, message.lock), None)
            if lease:
                lease.last = entry
        elif message.kind == 'commit':
            block = self.in_block.pop(message.thread, None)
            if block:
                block.last = entry

    def act(self, entry, event):
        if entry.thread not in self.in_block:
            self.in_block[entry.thread] = Block(entry, entry.thread)
            self.blocks.append(self.in_block[entry.thread])
        self.in_block[entry.thread].count += 1
        if event.reply == 'done' and event.kind in ACTS:
            ACTS[event.kind](self, entry, event)
        if event.woken:
            self.wake(entry, event.woken)

    def enter(self, entry, event):
        hold = self.inside.get((entry.thread, event.lock))
        if hold:
            hold.count += 1
        else:
            self.begin_hold(entry, event.lock, event.level)

    def begin_hold(self, entry, lock, level):
        hold = self.inside[entry.thread, lock] = Hold(entry, entry.thread, lock, level)
        self.holds.append(hold)
        return hold

    def exit(self, entry, event):
        hold = self.inside.get((entry.thread, event.lock))
        if hold:
            hold.count -= 1
            if hold.count == 0:
                self.end_hold(entry, hold)

    def end_hold(self, entry, hold):
        hold.last = entry
        del self.inside[hold.thread, hold.lock]

    def wait(self, entry, event):
        hold = self.inside.get((entry.thread, event.lock))
        count = hold.count if hold else 1
        if hold:
            self.end_hold(entry, hold)
        self.waiting[entry.thread] = Wait(entry, entry.thread, event.lock, count)
        self.waits.append(self.waiting[entry.thread])
        self.lists.setdefault((entry.node, event.lock), []).append(entry.thread)

    def resume(self, entry, event):
        hold, wait = self.begin_hold(entry, event.lock, 'write'), self.waiting.pop(entry.thread, None)
        if wait:
            wait.last, hold.count = entry, wait.count

    def notify_all(self, entry, event):
        for thread in self.lists.pop((entry.node, event.lock), []):
            self.wake(entry, thread, is_listed=False)

    def time_out(self, entry, event):
        """A thread in its client's own list goes on at once; any other when the server says so."""
        if entry.thread in self.lists.get((entry.node, event.lock), []):
            self.wake(entry, entry.thread)

    def wake(self, entry, thread, is_listed=True):
        wait = self.waiting.get(thread)
        if wait and not wait.woken:
            wait.woken = entry
        if wait and is_listed and thread in self.lists.get((entry.node, wait.lock), []):
            self.lists[entry.node, wait.lock].remove(thread)


ACTS = {'enter': Spans.enter, 'exit': Spans.exit, 'wait': Spans.wait, 'resume': Spans.resume,
        'notifyall': Spans.notify_all, 'timeout': Spans.time_out}
