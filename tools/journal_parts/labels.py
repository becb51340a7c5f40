"""The short text beside an entry in the picture."""
from entries import fault_name

# how many characters a label has at most
MOST = 32


def label(entry):
    text = full_label(entry)
    return text if len(text) <= MOST else text[:MOST - 1] + '…'


def full_label(entry):
    if entry.kind == 'act':
        return event_label(entry.event) if entry.event else entry.sent[0][1].text
    if entry.kind == 'took':
        text = message_label(entry.message)
        return text if entry.node else 'c%d %s' % (entry.peer, text)
    if entry.kind == 'flush':
        return 'flush %d' % entry.object
    if entry.kind == 'rejoin':
        return 'c%d is back' % entry.peer if entry.node == 0 else 'the server is back'
    return 'c%d %s' % (entry.peer, 'is lost' if entry.kind == 'lose' else 'breaks off')


def event_label(event):
    """What was asked, and the answer where it isn't only that it was done."""
    asked, _, answer = event.text.rpartition(' ' + event.reply)
    if event.kind == 'end':
        return 'end: ' + fault_name(event.fault) if event.fault else 'end'
    if event.is_refused:
        return '%s: %s' % (asked, fault_name(event.fault))
    if event.reply in ('val', 'made'):
        return '%s =%s' % (asked, answer)
    if event.reply == 'local':
        return asked + ' local'
    return asked + answer if event.woken else asked


def message_label(message):
    """What names the message, without its lists."""
    if message.kind == 'commit':
        ending = '%s %s' % (message.ending, message.lock) if message.lock else message.ending
        return '%s, %s' % (' '.join(message.text.split()[:3]), ending)
    if message.kind == 'changes':
        return 'changes ' + ', '.join(map(str, dict.fromkeys(message.changed)))
    if message.kind == 'return':
        return 'return %s' % message.lock
    if message.kind == 'object':
        return 'object %d' % message.object
    return message.text
