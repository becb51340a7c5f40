"""The mark of an entry: its shape and its class."""
import shapes


def mark_kind(entry):
    """What is marked: one of the words of MARKS."""
    event = entry.event
    if entry.kind != 'act':
        return entry.kind
    if event is None:
        return 'asks'
    if event.is_refused:
        return 'refused'
    if event.kind == 'end':
        return 'fault' if event.fault else 'end'
    return 'acts'


# the word of a mark -> (its class, its shape at a point, what it means)
MARKS = {
    'acts': ('dot', lambda x, y: shapes.circle(x, y, 3.5), 'a thread acts'),
    'asks': ('ring', lambda x, y: shapes.circle(x, y, 3), 'a thread asks the server'),
    'took': ('dot', lambda x, y: shapes.circle(x, y, 2.2), 'a message is taken'),
    'flush': ('ring', lambda x, y: shapes.triangle(x, y, 4), 'an object is flushed'),
    'end': ('dot', lambda x, y: shapes.square(x, y, 3.5), 'a thread ends'),
    'refused': ('bad line', lambda x, y: shapes.cross(x, y, 3.5), 'an event is refused'),
    'fault': ('bad dot', lambda x, y: shapes.square(x, y, 4), 'a thread ends by a fault'),
    'break': ('bad line', lambda x, y: shapes.bolt(x, y, 5), 'a connection breaks'),
    'rejoin': ('bad ring', lambda x, y: shapes.circle(x, y, 3.5), 'it is back'),
    'lose': ('bad line', lambda x, y: shapes.cross(x, y, 6), 'a client is lost'),
}


def mark(word, x, y, classes=''):
    kind, shape, _ = MARKS[word]
    return shapes.path(' '.join(filter(None, (kind, classes))), shape(x, y))
