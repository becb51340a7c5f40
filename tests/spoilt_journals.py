"""Runs whose journal, report or status is spoilt, each in one way that a judge has to tell."""
import re
from collections import namedtuple


class Run(namedtuple('Run', 'status report lines')):
    """What a run came to: its status, its report, and the lines of its journal."""

    def journal(self):
        return ''.join(line + '\n' for line in self.lines).encode('latin-1')

    def with_line(self, place, line):
        return self._replace(lines=self.lines[:place] + [line] + self.lines[place + 1:])

    def without(self, place):
        return self._replace(lines=self.lines[:place] + self.lines[place + 1:])

    def with_more(self, place, line):
        """A line is put in front of the one at this place."""
        return self._replace(lines=self.lines[:place] + [line] + self.lines[place:])

    def exchanged(self, one, other):
        lines = list(self.lines)
        lines[one], lines[other] = lines[other], lines[one]
        return self._replace(lines=lines)

    def in_order(self):
        """The lines by clock and then by node, the server first."""
        def key(line):
            clock, node, _ = head(line)
            return clock, 0 if node == 's' else int(node[1:])
        return self._replace(lines=sorted(self.lines, key=key))

    def places(self, pattern):
        return [place for place, line in enumerate(self.lines) if re.search(pattern, line)]


WAYS = {}


def way(name):
    def named(spoil):
        WAYS[name] = spoil
        return spoil
    return named


def head(line):
    """(clock, node, the rest) of a line."""
    clock, node, rest = line.split(' ', 2)
    return int(clock), node, rest


def pick(chance, things):
    return chance.choice(things) if things else None


def changed(chance, run, pattern, to):
    """One line, in which what the pattern finds is replaced."""
    place = pick(chance, run.places(pattern))
    if place is None:
        return None
    return run.with_line(place, re.sub(pattern, to, run.lines[place], count=1))


def sendings(run):
    """(place of a sending entry, place of the entry that takes it), where one entry alone sends these words before."""
    senders, found = {}, []
    for place, line in enumerate(run.lines):
        parts = line.split(' ; ')
        _, node, rest = head(parts[0])
        if rest.startswith('took '):
            _, of, words = rest.split(' ', 2)
            before = senders.get((of, node, words), [])
            found += [(before[0], place)] if len(before) == 1 else []
        for part in parts[1:]:
            if part.startswith('to '):
                _, to, words = part.split(' ', 2)
                senders.setdefault((node, to, words), []).append(place)
    return found


def more(digits):
    return str(int(digits) + 1)


@way('two entries are swapped across a send')
def swapped(chance, run):
    pair = pick(chance, sendings(run))
    return None if pair is None else run.exchanged(*pair)


@way('the clocks of a send and of its taking are swapped, and so are their places')
def early(chance, run):
    pair = pick(chance, sendings(run))
    if pair is None:
        return None
    (first, node, rest), (last, other, taken) = head(run.lines[pair[0]]), head(run.lines[pair[1]])
    run = run.with_line(pair[0], '%d %s %s' % (first, other, taken))
    return run.with_line(pair[1], '%d %s %s' % (last, node, rest))


@way('a message is taken twice')
def twice(chance, run):
    place = pick(chance, run.places(r' took '))
    return None if place is None else run.with_more(place, run.lines[place])


@way('a message is taken twice, with the next clock')
def twice_later(chance, run):
    place = pick(chance, run.places(r' took '))
    if place is None:
        return None
    clock, node, rest = head(run.lines[place])
    return run._replace(lines=run.lines + ['%d %s %s' % (clock + 1, node, rest)]).in_order()


@way('a clock is one more')
def late(chance, run):
    return moved(chance, run, 1)


@way('a clock is one less')
def soon(chance, run):
    return moved(chance, run, -1)


def moved(chance, run, by):
    place = chance.randrange(len(run.lines)) if run.lines else None
    if place is None:
        return None
    clock, node, rest = head(run.lines[place])
    return run.with_line(place, '%d %s %s' % (clock + by, node, rest))


@way('all clocks of a node from one on are one more')
def shifted(chance, run):
    place = chance.randrange(len(run.lines)) if run.lines else None
    if place is None:
        return None
    node = head(run.lines[place])[1]
    later = [(number, head(line)) for number, line in enumerate(run.lines) if number >= place]
    for number, (clock, of, rest) in later:
        if of == node:
            run = run.with_line(number, '%d %s %s' % (clock + 1, node, rest))
    return run.in_order()


@way('an entry is left out')
def left_out(chance, run):
    return run.without(chance.randrange(len(run.lines))) if needs_all(run) else None


@way('the last entry is left out')
def shorter(_, run):
    return run._replace(lines=run.lines[:-1]) if needs_all(run) else None


def needs_all(run):
    """Whether each entry has to be there: a run that is cut off may be cut off earlier, and one that is finished may
    lack a rejoin, or what a lost client did last."""
    return bool(run.lines) and run.status != 7 and not run.places(r' (s lose|rejoin) ')


@way('two entries are in the order of neither clock nor node')
def unordered(chance, run):
    places = [place for place in range(1, len(run.lines)) if head(run.lines[place - 1])[1] != head(run.lines[place])[1]]
    place = pick(chance, places)
    return None if place is None else run.exchanged(place - 1, place)


@way('a lock is granted to two')
def granted_twice(chance, run):
    return changed(chance, run, r'( s took (c\d+) request (\S+) (\S+)) ; to c\d+ recall \S+', r'\1 ; to \2 grant \3 \4')


@way('a lock is granted to nobody')
def ungranted(chance, run):
    return changed(chance, run, r' ; to c\d+ grant \S+ \S+', '')


@way('a lock is entered and left by another client than it is granted to')
def stolen(chance, run):
    place = pick(chance, run.places(r' act .* event enter \S+ \S+ done'))
    if place is None:
        return None
    clock, node, rest = head(run.lines[place])
    other = 'c%d' % (int(node[1:]) % 3 + 1)
    if other not in {head(line)[1] for line in run.lines}:
        return None
    return run.with_line(place, '%d %s %s' % (clock, other, re.sub(r'act \d+', 'act ' + other[1:], rest)))


@way('a lease is not given back')
def kept(chance, run):
    return changed(chance, run, r' ; to s return .*?(?= ;|$)', '')


@way('a record has another value where it is sent')
def sent_value(chance, run):
    place = pick(chance, run.places(r' act .*; to s commit .* set [1-9]\d* \d+ \d+ -?\d+ '))
    if place is None:
        return None
    return run.with_line(place, other_value(run.lines[place]))


@way('a record has another value where it is sent and where it is taken')
def both_values(chance, run):
    pair = pick(chance, [pair for pair in sendings(run)
                         if re.search(r'; to s commit .* set [1-9]\d* \d+ \d+ -?\d+ ', run.lines[pair[0]])])
    if pair is None:
        return None
    for place in pair:
        run = run.with_line(place, other_value(run.lines[place]))
    return run


def other_value(line):
    """The line with another value of the first field that a record sets."""
    return re.sub(r'( commit .*? set [1-9]\d* \d+ \d+ )(-?\d+) ', lambda m: m.group(1) + more(m.group(2)) + ' ', line,
                  count=1)


@way('a thread reads another value')
def read_value(chance, run):
    place = pick(chance, run.places(r' event get \d+ \d+ val -?\d+$'))
    if place is None:
        return None
    return run.with_line(place, re.sub(r'-?\d+$', lambda m: more(m.group(0)), run.lines[place]))


@way('a thread writes to another field')
def other_field(chance, run):
    place = pick(chance, run.places(r' event put \d+ \d+ '))
    if place is None:
        return None
    line = re.sub(r'( event put \d+ )(\d+)', lambda m: m.group(1) + more(m.group(2)), run.lines[place])
    return run.with_line(place, line)


@way('a change goes to nobody')
def untold(chance, run):
    return changed(chance, run, r' ; to c\d+ changes .*?(?= ;|$)', '')


@way('a waiter is not woken')
def unwoken(chance, run):
    return changed(chance, run, r' ; to c\d+ wake \S+ \S+', '')


@way('a message is sent twice')
def sent_twice(chance, run):
    return changed(chance, run, r'( ; to (s|c\d+) .*?)(?= ;|$)', r'\1\1')


@way('two acts of a thread are swapped')
def reordered(chance, run):
    place = pick(chance, run.places(r' act '))
    if place is None:
        return None
    thread = re.search(r' act (\S+)', run.lines[place]).group(1)
    behind = [other for other in run.places(r' act %s ' % re.escape(thread)) if other > place]
    if not behind:
        return None
    (clock, node, rest), (last, _, then) = head(run.lines[place]), head(run.lines[behind[0]])
    if rest == then:
        return None
    run = run.with_line(place, '%d %s %s' % (clock, node, then))
    return run.with_line(behind[0], '%d %s %s' % (last, node, rest))


@way('two messages of a client are taken in the other order')
def overtaken(chance, run):
    place = pick(chance, run.places(r' s took '))
    if place is None:
        return None
    client = re.search(r' s took (\S+)', run.lines[place]).group(1)
    behind = [other for other in run.places(r' s took %s ' % client) if other > place]
    if not behind or head(run.lines[place])[2] == head(run.lines[behind[0]])[2]:
        return None
    (clock, _, rest), (last, _, then) = head(run.lines[place]), head(run.lines[behind[0]])
    run = run.with_line(place, '%d s %s' % (clock, then))
    return run.with_line(behind[0], '%d s %s' % (last, rest))


@way('an act of a thread that has ended')
def after_the_end(chance, run):
    place = pick(chance, run.places(r' act .*event end \d+ done'))
    if place is None:
        return None
    thread = re.search(r' act (\S+)', run.lines[place]).group(1)
    clock, _, _ = head(run.lines[-1])
    line = '%d c%s act %s ; event pause done' % (clock + 1, thread.split('.')[0], thread)
    return run._replace(lines=run.lines + [line])


@way('a break that is not due')
def broken(chance, run):
    return invented(chance, run, 'break')


@way('a loss that is not due')
def lost(chance, run):
    return invented(chance, run, 'lose')


@way('a rejoin without a break')
def rejoined(chance, run):
    return invented(chance, run, 'rejoin')


def invented(chance, run, what):
    """An entry of the server behind its last one."""
    places = run.places(r'^\d+ s ')
    if not places or run.places(r' s break '):
        return None
    clock = head(run.lines[places[-1]])[0] + 1
    client = pick(chance, sorted({head(line)[1] for line in run.lines} - {'s'}))
    return run._replace(lines=run.lines + ['%d s %s %s' % (clock, what, client[1:])]).in_order()


@way('a break is left out')
def unbroken(chance, run):
    place = pick(chance, run.places(r' s break '))
    return None if place is None else run.without(place)


@way('a loss is left out')
def unlost(chance, run):
    place = pick(chance, run.places(r' s lose '))
    return None if place is None else run.without(place)


@way('a rejoin of the server is left out')
def apart(chance, run):
    place = pick(chance, run.places(r' s rejoin '))
    if place is None:
        return None
    client = run.lines[place].split(' ')[3]
    # what the server takes of the client behind it needs it
    return run.without(place) if run.places(r' s took c%s ' % client)[-1:] > [place] else None


@way('a line of the report is changed')
def misreported(chance, run):
    lines = run.report.split(b'\n')
    place = pick(chance, [place for place, line in enumerate(lines) if re.search(rb'\d', line)])
    if place is None:
        return None
    lines[place] = re.sub(rb'\d+(?!.*\d)', lambda m: b'%d' % (int(m.group(0)) + 1), lines[place])
    return run._replace(report=b'\n'.join(lines))


@way('a line of the report is left out')
def unreported(chance, run):
    lines = run.report.split(b'\n')
    place = chance.randrange(len(lines) - 1)
    return run._replace(report=b'\n'.join(lines[:place] + lines[place + 1:]))


@way('the report is empty')
def silent(_, run):
    return run._replace(report=b'')


@way('the status is another one')
def misjudged(chance, run):
    return run._replace(status=chance.choice([status for status in (0, 6, 7, 9) if status != run.status]))


@way('a line is cut off')
def cut(chance, run):
    place = chance.randrange(len(run.lines)) if run.lines else None
    return None if place is None else run.with_line(place, run.lines[place][:-1])


@way('there are no entries')
def emptied(_, run):
    return run._replace(lines=[]) if run.lines else None
