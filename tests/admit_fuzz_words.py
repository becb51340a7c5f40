"""Writes answers as crates/server_cases writes them, and frames as crates/connection_cases does."""

LEVELS = ('Read', 'Write')
KINDS = {'long': 'Long', 'boolean': 'Bool', 'text': 'Text', 'ref': 'Ref'}
TAKEN = {'done': 'Done', 'gone': 'Gone'}
ANSWERS = {'again': 'Again', 'gap': 'Gap', 'old': 'OldConnection', 'rejoined': 'Rejoined'}


def lock(it):
    return '%s(%d)' % (('Mon', 'Name')[it[0]], it[1])


def thread(it):
    return 'ThreadId { client: %d, index: %d }' % it


def value(it):
    kind = it[0]
    if kind == 'n':
        return 'Null'
    if kind == 'b':
        return 'Bool(true)' if it[1] else 'Bool(false)'
    return '%s(%d)' % ({'l': 'Long', 't': 'Text', 'r': 'Ref'}[kind], it[1])


def class_of(it):
    if it[0] == 'k':
        return 'Plain(%d)' % it[1]
    return 'Array(%s)' % KINDS[it[1]] if it[0] == 'a' else 'Roots'


# answers to bytes

def said(message):
    """A message that was given up; of a return how many threads wait, of a record its number alone."""
    kind = message[0]
    if kind == 'idask':
        return 'IdAsk'
    if kind in ('fault', 'flushed'):
        return '%s(%d)' % (kind.capitalize(), message[1])
    if kind == 'request':
        return 'Request(%s, %s)' % (lock(message[1]), LEVELS[message[2]])
    if kind == 'return':
        return 'Return(%s, %d)' % (lock(message[1]), len(message[2]))
    return 'Commit(%d)' % message[1].seq


def told(message):
    """A message that goes down."""
    kind = message[0]
    if kind == 'ids':
        return 'Ids(%d)' % message[1]
    if kind == 'object':
        number, cls, values = message[1]
        return ' '.join(['Object %d %s' % (number, class_of(cls)), *map(value, values)])
    if kind == 'grant':
        return 'Grant(%s, %s)' % (lock(message[1]), LEVELS[message[2]])
    if kind == 'recall':
        return 'Recall(%s)' % lock(message[1])
    if kind == 'ack':
        return 'Ack(%d)' % message[1]
    if kind == 'changes':
        return ' '.join(['Changes', *('%d.%d=%s' % (o, f, value(v)) for o, f, v in message[1])])
    return 'Wake(%s, %s)' % (lock(message[1]), thread(message[2]))


def fault(what):
    return what[0] if len(what) == 1 else '%s(%d)' % what


def admitted(answer, sent):
    """What is told of a client's bytes, and what is sent to whom."""
    kind = answer[0]
    if kind == 'took':
        taken = answer[1]
        taken = TAKEN[taken] if taken in TAKEN else 'BadMessage(%d)' % taken[1]
        text = 'Took(%s, %s, %d)' % (taken, said(answer[2]), answer[3])
    elif kind == 'badbytes':
        text = 'BadBytes(%s)' % fault(answer[1])
    else:
        text = '%s(%d)' % (ANSWERS[kind], answer[1])
    return ' ; '.join([text, *('%d %s' % (client, told(message)) for client, message in sent)])


def state(server, ends, client):
    """What is told of a client at the end, and of the server where there is none of this number."""
    if client not in ends:
        return 'batches %d' % ((server.ids.next - 1) // 256)
    end, words = ends[client], ('false', 'true')
    return ('lost %s, accepted %d, sent %d, epoch %d, ready %s'
            % (words[server.is_lost(client)], end.accepted, end.sent, end.epoch, words[end.ready]))


# frames

def items(it, word):
    return 'Items { items: [%s] }' % ', '.join(map(word, it))


def body(it):
    return 'Body { object: %d, class: %s, values: %s }' % (it[0], class_of(it[1]), items(it[2], value))


def field_set(it):
    return 'Set { object: %d, field: %d, value: %s }' % (it[0], it[1], value(it[2]))


def note(it):
    choice = it[1]
    whom = 'Here(%s)' % thread(choice[1]) if choice[0] == 'here' else choice[0].capitalize()
    return 'Note { lock: %s, choice: %s }' % (lock(it[0]), whom)


def ending(it, faults):
    if it[0] == 'end':
        names = dict(enumerate(faults))
        return 'End(%s)' % ('Some(%s)' % names.get(it[1], 'a fault that is none') if it[1] else 'None')
    return '%s(%s)' % (it[0].capitalize(), lock(it[1]))


def record(it, faults):
    return ('Txn { seq: %d, thread: %s, news: %s, sets: %s, outs: %s, notes: %s, ending: %s }'
            % (it.seq, thread(it.thread), items(it.news, body), items(it.sets, field_set), items(it.outs, value),
               items(it.notes, note), ending(it.ending, faults)))


def whole(message, faults):
    """A message with all that it holds."""
    if message[0] == 'return':
        return 'Return(%s, %s)' % (lock(message[1]), items(message[2], thread))
    return 'Commit(%s)' % record(message[1], faults) if message[0] == 'commit' else said(message)


def frame(it, data, faults):
    """A frame and its bytes again."""
    if it[0] == 'hello':
        text = 'Hello { epoch: %d, seen: %d, clock: %d }' % it[1:]
    else:
        text = ('Carry { epoch: %d, number: %d, seen: %d, clock: %d, message: %s }'
                % (*it[1:5], whole(it[5], faults)))
    return '%s %s' % (text, data.hex())


def read_as(reading, data):
    """What is told of the bytes of a frame, or why they are none."""
    try:
        return frame(reading.wire.decode_up(data), data, reading.base.FAULTS)
    except reading.wire.WireFault as why:
        return fault(why.what)
