"""The messages of a journal, each with the entry that sent it and the entry that took it."""
from collections import defaultdict, deque
from typing import NamedTuple, Optional

from entries import Entry, Message, node_name
from words import JournalFault


class Letter(NamedTuple):
    """A message on its way between a client and the server. `taken` is None where no entry took it."""
    message: Message
    client: int
    is_up: bool
    sent: Entry
    taken: Optional[Entry]


def letters_of(entries):
    """All letters in the order in which they were sent.

    Between a client and the server, messages are taken in the order in which they were sent. Raises JournalFault where
    an entry takes a message that isn't the first under way."""
    letters, under_way = [], defaultdict(deque)
    for entry in entries:
        if entry.kind == 'took':
            take(letters, under_way, entry)
        for to, message in entry.sent:
            client, is_up = (entry.node, True) if to == 0 else (to, False)
            under_way[client, is_up].append(len(letters))
            letters.append(Letter(message, client, is_up, entry, None))
    return letters


def take(letters, under_way, entry):
    is_up = entry.node == 0
    way = under_way[entry.peer if is_up else entry.node, is_up]
    if not way or letters[way[0]].message != entry.message:
        raise JournalFault(entry.line, "what %s takes isn't the first message on its way" % node_name(entry.node))
    at = way.popleft()
    letters[at] = letters[at]._replace(taken=entry)
