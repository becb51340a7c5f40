"""The picture as a page by itself, and as an image by itself."""
import json
import os
import re
from html import escape

import shapes
from marks import MARKS, mark
from picture import HEAD, ROW, Picture

FOLDER = os.path.dirname(os.path.abspath(__file__))
# the room of a mark with its meaning in the legend, in pixels, and how many stand in a row
MEANING = 180
MEANINGS = 5
LINE = 18


def part(name):
    with open(os.path.join(FOLDER, name), encoding='utf-8') as file:
        return file.read()


def svg(classes, width, height, inside):
    return '<svg xmlns="http://www.w3.org/2000/svg" class="%s" width="%d" height="%d">%s</svg>' % (
        classes, width, height, inside)


def moved(x, y, inside):
    return '<g transform="translate(%d %d)">%s</g>' % (x, y, inside)


def mark_legend():
    """What the marks mean, in rows of LINE."""
    parts = []
    for at, (word, (_, _, told)) in enumerate(MARKS.items()):
        x, y = 10 + at % MEANINGS * MEANING, LINE * (at // MEANINGS) + LINE / 2
        parts.append(mark(word, x, y) + shapes.text('', x + 12, y + 3.5, told))
    return ''.join(parts)


def legend_height():
    return LINE * -(-len(MARKS) // MEANINGS)


def lock_meaning(lock):
    return 'monitor of object %d' % lock.number if lock.kind == 'm' else 'lock %d of those with a name' % lock.number


def lock_buttons(picture):
    button = '<button class="k%d" data-lock="k%d" title="%s">%s</button>'
    return ''.join(button % (number, number, lock_meaning(lock), lock) for lock, number in picture.numbers.items())


def letter_data(picture):
    """Each letter with its text and the entries of its ends, by their place; -1 is none here."""
    place = {entry.line: at for at, entry in enumerate(picture.entries)}

    def end(entry):
        return place.get(entry.line, -1) if entry else -1

    return [[letter.message.text, end(letter.sent), end(letter.taken), 'c%d' % letter.client, int(letter.is_up)]
            for letter in picture.letters]


def data(picture):
    """What the script of the page knows: the height of a row, the lanes, the entries, and the letters as they are
    drawn."""
    lanes = picture.lanes.all()
    place = {lane.key: at for at, lane in enumerate(lanes)}
    return {
        'row': ROW,
        'first': picture.first,
        'lanes': [[round(lane.left), round(lane.left + lane.width)] for lane in lanes],
        'entries': [[place[picture.lanes.of(entry).key], entry.clock, entry.line, entry.text]
                    for entry in picture.entries],
        'letters': letter_data(picture),
    }


def page(picture, name):
    """The whole page, with its style and its script."""
    pieces = {
        'TITLE': escape(name),
        'STYLE': picture.colour_rules() + part('picture.css') + part('page.css'),
        'COUNTS': '%d entries, %d messages' % (len(picture.entries), len(picture.letters)),
        'LOCKS': lock_buttons(picture),
        'MARKS': svg('heads', MEANING * MEANINGS, legend_height(), mark_legend()),
        'HEADS': svg('heads', picture.width, HEAD, picture.heads()),
        'ROWS': svg('rows', picture.width, picture.height, picture.body()),
        'DATA': json.dumps(data(picture), separators=(',', ':')),
        'SCRIPT': part('page.js'),
    }
    return re.sub('{{([A-Z]+)}}', lambda found: pieces[found[1]], part('page.html'))


def image(picture):
    """One SVG with the legend above the rows."""
    top = legend_height() + LINE
    width, height = max(picture.width, MEANING * MEANINGS), top + HEAD + picture.height
    style = '<style>%s</style>' % (picture.colour_rules() + part('picture.css'))
    return svg('rows', width, height, ''.join((
        style, shapes.box('paper', (0, 0), (width, height)), lock_legend(picture), moved(0, LINE, mark_legend()),
        moved(0, top, picture.heads()), moved(0, top + HEAD, picture.body()))))


def lock_legend(picture):
    """The locks in their colours, as many as there is room for."""
    return ''.join(
        shapes.box('swatch k%d' % number, (5 + number * MEANING * 1.25, 5), (10, 10))
        + shapes.text('', 22 + number * MEANING * 1.25, 14, '%s, %s' % (lock, lock_meaning(lock)))
        for lock, number in picture.numbers.items() if number < MEANINGS - 1)


def picture(entries, name, clocks=None, is_image=False):
    """The page of a journal, or its image."""
    drawn = Picture(entries, clocks, is_titled=is_image)
    return image(drawn) if is_image else page(drawn, name)
