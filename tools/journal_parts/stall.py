"""What each thread waits for at the end of a journal, and who has it."""
from typing import NamedTuple, Tuple

from circle import circle
from entries import node_name
from words import Thread


class Need(NamedTuple):
    """What keeps a thread: in words, and the threads that it waits for. `is_free` where nothing does.

    The doubt is 0, or 1 where this stands only if the run stalled, or 2 where the thread then waits for one of several
    locks, so for some of these threads alone."""
    text: str
    behind: Tuple[Thread, ...] = ()
    is_free: bool = False
    doubt: int = 0


class Stall:
    """The needs of the threads that didn't end, of clients that aren't lost."""

    def __init__(self, history):
        self.history = history
        self.under_way = history.under_way()
        self.needs = {thread: self.need(thread) for thread in history.open_threads()}
        self.free = [thread for thread, need in self.needs.items() if need.is_free]
        # whether something could still go on
        self.is_cut_off = bool(self.under_way or self.free)

    def circle(self):
        """The surest circle in which threads wait for each other, with its doubt, or none."""
        for doubt in (0,) if self.is_cut_off else (0, 1, 2):
            threads = circle({thread: need.behind for thread, need in self.needs.items() if need.doubt <= doubt})
            if threads:
                return threads, doubt
        return [], 0

    def need(self, thread):
        last, wait = self.history.last(thread), self.history.spans.waiting.get(thread)
        if last.event is None:
            return self.asked_need(last, last.sent[0][1])
        if wait and not wait.woken:
            return self.wait_need(wait, last)
        if wait:
            return self.lock_need(thread, wait.lock, 'write', 'was woken at line %d' % wait.woken.line)
        return self.untold_need(last)

    def asked_need(self, last, message):
        """Of a thread whose last act asked for something."""
        if message.kind == 'request':
            return self.lock_need(last.thread, message.lock, message.level, 'asked for it at line %d' % last.line)
        if message.kind == 'fault':
            wanted, answer = 'object %d' % message.object, self.history.answer(last, 'object', message.object)
        else:
            wanted, answer = 'ids', self.history.answer(last, 'ids')
        if answer:
            return Need('has %s since line %d' % (wanted, answer.line), is_free=True)
        return Need('waits for %s, which it asked for at line %d' % (wanted, last.line))

    def lock_need(self, thread, lock, level, since):
        """Of a thread that wants to be inside a lock."""
        wish = '%s at %s (%s)' % (lock, level, since)
        if self.is_asked(thread.client, lock):
            text, behind = self.lease_need(thread.client, lock, level)
            return Need('waits for %s: %s' % (wish, text), behind)
        lease = self.history.spans.leased.get((thread.client, lock))
        if lease is None:
            return Need('wants %s, and its client has to ask for it' % wish, is_free=True)
        inside = [hold for hold in self.history.insiders(thread.client, lock) if hold.thread != thread]
        if inside:
            return Need('waits for %s, %s' % (wish, inside_text(inside)), threads_of(inside))
        if (lease.level, level) == ('read', 'write'):
            return Need('waits for %s, which its client has at read' % wish)
        return Need('wants %s, where nobody is inside' % wish, is_free=True)

    def lease_need(self, client, lock, level):
        """Why a client hasn't the lease that it asked for: in words, and who is inside elsewhere."""
        for letter in self.lease_letters(client, lock):
            return 'its %s is under way' % letter.message.kind, ()
        parts, behind = [], []
        ahead = self.history.queues.before(lock, client)
        for holder, (had, granted) in sorted(self.history.queues.holders(lock).items()):
            if holder != client and (ahead or 'write' in (had, level)):
                inside = self.history.insiders(holder, lock)
                behind += threads_of(inside)
                parts.append('%s has it at %s since line %d, %s' % (
                    node_name(holder), had, granted.line, inside_text(inside)))
        if ahead:
            parts.append('%s asked for it before' % ', '.join(map(node_name, ahead)))
        return '; '.join(parts) or 'nobody has it', tuple(behind)

    def wait_need(self, wait, last):
        """Of a thread in a wait that wasn't woken."""
        start = 'waits for a notification of %s since line %d' % (wait.lock, wait.first.line)
        if last.event.kind == 'tick':
            return Need(start + ', with a limit', is_free=True)
        if last.event.kind == 'timeout':
            return Need(start + ', and for the word of the server that its time was up at line %d' % last.line)
        return Need('%s; %s' % (start, self.notification_text(wait)))

    def notification_text(self, wait):
        """What became of the last notification of the lock that a thread waits on."""
        calls = [entry for entry in self.history.entries if is_notification(entry, wait.lock)]
        since = [entry for entry in calls if entry.line > wait.first.line]
        if since:
            return 'the last one since, of %s at line %d, woke %s' % (
                since[-1].thread, since[-1].line, self.woken_text(since[-1]))
        if calls:
            return 'none came since, the last one before was of %s at line %d' % (calls[-1].thread, calls[-1].line)
        return 'none came in the whole run'

    def woken_text(self, call):
        """Whom a notification woke: those in its client's list at once, others as the server took its record."""
        woken = [wait.thread for wait in self.history.spans.waits if wait.woken is call]
        record = next((letter for letter in self.history.letters if letter.sent.line >= call.line
                       and letter.message.kind == 'commit' and letter.message.thread == call.thread), None)
        if record and record.taken:
            woken += [message.thread for _, message in record.taken.sent
                      if message.kind == 'wake' and message.lock == call.event.lock]
        return (', '.join(map(str, woken)) or 'nobody') + self.unheard_text(call, record)

    def unheard_text(self, call, record):
        """Why the server didn't hear of a notification, where it didn't."""
        lost = self.history.lost(call.thread)
        if lost and not (record and record.taken and record.taken.line < lost.line):
            return ': its client was lost at line %d, before its record was taken' % lost.line
        if not (record and record.taken):
            return ": its record wasn't taken"
        return ''

    def untold_need(self, last):
        """Of a thread whose next request isn't in the journal: its client asks for no lock that it has or asked for."""
        start = "did its last act at line %d, and the journal doesn't tell what it asks next" % last.line
        closed = self.closed_locks(last.thread)
        if not closed:
            return Need(start + '; nothing that it tells holds it up', is_free=True)
        told = ' or '.join('%s (%s)' % (lock, text) for lock, (text, _) in sorted(closed.items()))
        behind = tuple(other for _, others in closed.values() for other in others)
        return Need('%s; where the run stalled it waits for %s' % (start, told), behind, doubt=min(len(closed), 2))

    def closed_locks(self, thread):
        """The locks that a thread may have to wait for without a request: lock -> (why, who is inside)."""
        client, closed = thread.client, {}
        for lock in {hold.lock for hold in self.history.spans.inside.values() if hold.thread.client == client}:
            inside = self.history.insiders(client, lock)
            if thread not in threads_of(inside):
                closed[lock] = inside_text(inside), threads_of(inside)
        for letter in self.history.letters:
            lock = letter.message.lock
            if letter.client == client and letter.message.kind == 'request' and self.is_asked(client, lock):
                closed[lock] = self.lease_need(client, lock, letter.message.level)
        return closed

    def is_asked(self, client, lock):
        """Whether a client asked for a lease that it doesn't have yet."""
        return bool(self.lease_letters(client, lock)) or self.history.queues.has_asked(lock, client)

    def lease_letters(self, client, lock):
        """A request or a grant of a lock that is under way."""
        return [letter for letter in self.under_way if letter.client == client and letter.message.lock == lock
                and letter.message.kind in ('request', 'grant')]


def is_notification(entry, lock):
    event = entry.event
    return bool(event) and event.kind in ('notify', 'notifyall') and event.lock == lock and event.reply == 'done'


def threads_of(holds):
    return tuple(hold.thread for hold in holds)


def inside_text(holds):
    if not holds:
        return 'nobody is inside'
    return ' and '.join('%s is inside since line %d' % (hold.thread, hold.first.line) for hold in holds)
