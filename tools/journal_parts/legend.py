"""What the locks that are told stand for: objects and roots, and their numbers in the report."""
import re

# how many fields a map has: the keys' places, and the size; no class of a text has as many
MAP_FIELDS = 769


class Graph:
    """The objects that the server has at the end of a journal: object -> its values by field. Object 0 has the roots."""

    def __init__(self, entries):
        self.values = {0: {}}
        for entry in entries:
            if entry.kind == 'took' and entry.node == 0 and entry.message.kind == 'commit':
                self.apply(entry.message)

    def apply(self, record):
        for body in record.news:
            self.values[body.object] = dict(enumerate(body.values))
        for number, field, value in record.sets:
            self.values.setdefault(number, {})[field] = value

    def named(self, number):
        """The objects that an object shows: of a map by rising key, else by field."""
        values = self.values.get(number, {})
        if len(values) == MAP_FIELDS:
            places = range(0, MAP_FIELDS - 1, 3)
            shown = [value for _, value in sorted((int(values[at + 1]), values[at + 2])
                                                  for at in places if values[at] == 'true')]
        else:
            shown = [values[field] for field in sorted(values)]
        return [int(value[1:]) for value in shown if value.startswith('r')]

    def numbers(self):
        """The numbers that the report gives: breadth first, from the roots."""
        order = {}
        reached = [0]
        for number in reached:
            for other in self.named(number):
                if other not in order:
                    order[other] = len(order) + 1
                    reached.append(other)
        return order


def kind_text(kind, size):
    if size == MAP_FIELDS:
        return 'a map'
    return 'an array of ' + kind[1:] if kind[0] == 'a' else 'of class ' + kind[1:]


def monitor_text(entries, number, order):
    parts = ['the monitor of object %d' % number]
    made = next((entry for entry in entries if entry.event and entry.event.kind == 'new'
                 and entry.event.reply == 'made' and entry.event.object == number), None)
    if made:
        _, kind, size, *_ = made.event.text.split(' ')
        parts += [kind_text(kind, int(size)), 'made by %s at line %d' % (made.thread, made.line)]
    if number in order:
        parts.append('#%d of the report' % order[number])
    return ', '.join(parts)


def name_text(entries, number):
    """Of a lock with a name: the roots come first, and how many there are the object of the roots tells."""
    texts = (message.text for entry in entries for _, message in entry.sent if message.kind == 'object')
    roots = next((int(text.split(' ')[3]) for text in texts if text.startswith('object 0 ')), None)
    if roots is None:
        return 'a lock with a name'
    return 'the lock of root %d, from 0' % number if number < roots else 'named lock %d, from 0' % (number - roots)


def legend_lines(entries, lines, is_whole):
    """A line for each lock that these lines tell. The report's numbers are told where no record is under way."""
    order = Graph(entries).numbers() if is_whole else {}
    told = {(kind, int(number)) for line in lines for kind, number in re.findall(r'\b([mn])([0-9]+)\b', line)}
    return ['%s%d: %s' % (kind, number, monitor_text(entries, number, order) if kind == 'm'
                          else name_text(entries, number)) for kind, number in sorted(told)]
