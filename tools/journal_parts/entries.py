"""The entries of a journal, read from its text."""
from typing import NamedTuple, Optional, Tuple

from words import JournalFault, Lock, Thread, Words

# the faults of a thread, by their number
FAULTS = ('', 'NullPointer', 'NoSuchField', 'BadValue', 'BadIndex', 'BadSize', 'ZeroDivide', 'StackOverflow',
          'UnlockedSharedObject', 'WrongLock', 'ReadOnly', 'LockUpgrade', 'IllegalMonitor')


class Body(NamedTuple):
    """An object as it was made, with its class and the words of its values."""
    object: int
    kind: str
    values: Tuple[str, ...]


class Message(NamedTuple):
    """A message: its kind, its text, and what it names where its kind names one."""
    kind: str
    text: str
    lock: Optional[Lock] = None
    level: Optional[str] = None
    object: Optional[int] = None
    thread: Optional[Thread] = None
    # the objects of its sets, one for each set
    changed: Tuple[int, ...] = ()
    # how the block of a record ended
    ending: str = ''
    # what a record made, and what it set: object, field and value
    news: Tuple[Body, ...] = ()
    sets: Tuple[Tuple[int, int, str], ...] = ()


class Event(NamedTuple):
    """What a thread asked and was answered. The fault is that of an end, or of what was refused, else 0."""
    kind: str
    text: str
    reply: str
    lock: Optional[Lock] = None
    level: Optional[str] = None
    object: Optional[int] = None
    fault: int = 0
    # whether it is told true, which a tick and a late timeout are where the thread was woken
    is_true: bool = False
    woken: Optional[Thread] = None

    @property
    def is_refused(self):
        return self.reply == 'refused'


class Entry(NamedTuple):
    """A line of the journal, its number from 1; node 0 is the server."""
    line: int
    text: str
    clock: int
    node: int
    # act, took, flush, lose, break or rejoin
    kind: str
    # who acted
    thread: Optional[Thread] = None
    # whose message was taken, who was lost, whose connection broke or came again; 0 is the server
    peer: Optional[int] = None
    object: Optional[int] = None
    message: Optional[Message] = None
    sent: Tuple[Tuple[int, Message], ...] = ()
    event: Optional[Event] = None


def fault_name(number):
    return FAULTS[number] if number < len(FAULTS) else 'fault %d' % number


def node_name(node):
    return 'c%d' % node if node else 's'


def nothing(_):
    """What was read names nothing."""
    return {}


def body(words):
    return Body(words.object(), words.class_word(), tuple(words.items(words.value)))


def set_field(words):
    return words.object(), words.number('a field'), words.value()


def set_object(words):
    return set_field(words)[0]


def note(words):
    lock = words.lock()
    if words.one_of(('here', 'there', 'all')) == 'here':
        words.thread()
    return lock


def record(words):
    words.number()
    thread = words.thread()
    words.one_of(('new',))
    news = words.items(lambda: body(words))
    words.one_of(('set',))
    sets = words.items(lambda: set_field(words))
    words.one_of(('out',))
    words.items(words.value)
    words.one_of(('note',))
    words.items(lambda: note(words))
    ending, lock = words.one_of(('exit', 'wait', 'timeout', 'end')), None
    if ending == 'end':
        words.number()
    else:
        lock = words.lock()
    return {'thread': thread, 'changed': tuple(number for number, _, _ in sets), 'lock': lock, 'ending': ending,
            'news': tuple(news), 'sets': tuple(sets)}


def returned(words):
    lock = words.lock()
    words.items(words.thread)
    return {'lock': lock}


UP = {
    'idask': nothing,
    'fault': lambda words: {'object': words.object()},
    'flushed': lambda words: {'object': words.object()},
    'request': lambda words: {'lock': words.lock(), 'level': words.level()},
    'return': returned,
    'commit': record,
}
DOWN = {
    'ids': lambda words: nothing(words.number()),
    'object': lambda words: {'object': body(words).object},
    'grant': lambda words: {'lock': words.lock(), 'level': words.level()},
    'recall': lambda words: {'lock': words.lock()},
    'ack': lambda words: nothing(words.number()),
    'changes': lambda words: {'changed': tuple(words.items(lambda: set_object(words)))},
    'wake': lambda words: {'lock': words.lock(), 'thread': words.thread()},
}


def message(words, is_up):
    readings = UP if is_up else DOWN
    at = words.at
    kind = words.one_of(tuple(readings))
    named = readings[kind](words)
    return Message(kind, words.text_since(at), **named)


def new_request(words):
    words.class_word()
    words.number('a size')
    return {}


def get_request(words):
    number = words.object()
    words.number('a field')
    return {'object': number}


def only_lock(words):
    return {'lock': words.lock()}


REQUESTS = {
    'new': new_request,
    'look': lambda words: {'object': words.object()},
    'get': get_request,
    'put': lambda words: {'object': set_object(words)},
    'enter': lambda words: {'lock': words.lock(), 'level': words.level()},
    'exit': only_lock,
    'wait': only_lock,
    'resume': only_lock,
    'tick': only_lock,
    'timeout': only_lock,
    'notify': only_lock,
    'notifyall': only_lock,
    'print': lambda words: nothing(words.value()),
    'pause': nothing,
    'settle': nothing,
    'end': lambda words: {'fault': words.number()},
}


def reply(words):
    kind = words.one_of(('done', 'made', 'seen', 'val', 'local', 'refused'))
    if kind == 'made':
        return kind, {'object': words.object()}
    if kind == 'seen':
        words.class_word()
        words.number('a size')
    if kind == 'val':
        return kind, {'is_true': words.value() == 'true'}
    if kind == 'refused':
        return kind, {'fault': words.number()}
    return kind, {}


def event(words):
    at = words.at
    kind = words.one_of(tuple(REQUESTS))
    named = REQUESTS[kind](words)
    answer, told = reply(words)
    if not words.is_over():
        words.one_of(('woke',))
        told['woken'] = words.thread()
    return Event(kind, words.text_since(at), answer, **dict(named, **told))


def head(words):
    """The clock, the node and what the node took in."""
    clock, node = words.number('a clock'), words.node()
    if node:
        kind = words.one_of(('act', 'took', 'flush', 'rejoin'))
    else:
        kind = words.one_of(('took', 'lose', 'break', 'rejoin'))
    taken = {'clock': clock, 'node': node, 'kind': kind}
    if kind == 'act':
        taken['thread'] = words.thread()
    elif kind == 'took':
        taken['peer'] = words.node()
        taken['message'] = message(words, is_up=node == 0)
    elif kind == 'flush':
        taken['object'] = words.object()
    else:
        taken['peer'] = words.number('a client')
    return taken


def check(entry):
    """Who acts is of the node, and has an event or asks; the server takes of clients and sends to them, a client of the
    server and to it."""
    name, wrong = node_name(entry.node), None
    if entry.kind == 'act' and entry.thread.client != entry.node:
        wrong = 'thread %s acts at %s' % (entry.thread, name)
    elif entry.kind == 'act' and not entry.event and not entry.sent:
        wrong = 'thread %s does nothing' % entry.thread
    elif entry.kind != 'act' and entry.event:
        wrong = '%s has an event and no thread acts' % name
    elif entry.kind == 'took' and (entry.node == 0) == (entry.peer == 0):
        wrong = '%s takes a message of %s' % (name, node_name(entry.peer))
    elif any((entry.node == 0) == (to == 0) for to, _ in entry.sent):
        wrong = '%s sends to a node that it has no connection with' % name
    if wrong:
        raise JournalFault(entry.line, wrong)


def read_entry(line, text):
    first, *parts = text.split(' ; ')
    words = Words(line, first)
    taken = head(words)
    words.end()
    sent, told = [], None
    for part in parts:
        words = Words(line, part)
        if words.one_of(('to', 'event')) == 'to':
            to = words.node()
            sent.append((to, message(words, is_up=to == 0)))
        else:
            told = event(words)
        words.end()
    entry = Entry(line, text, sent=tuple(sent), event=told, **taken)
    check(entry)
    return entry


def read_journal(text):
    """All entries, the first one first. Raises JournalFault at the first line that is none."""
    lines = text.split('\n')
    if lines[-1] == '':
        lines.pop()
    return [read_entry(line, part) for line, part in enumerate(lines, 1)]
