"""The pieces of the picture as SVG."""
from html import escape
from math import hypot


def number(value):
    return ('%.1f' % value).rstrip('0').rstrip('.')


def points(*values):
    return ' '.join(map(number, values))


def path(classes, drawn):
    return '<path class="%s" d="%s"/>' % (classes, drawn)


def box(classes, corner, size):
    """A rectangle by its upper left corner and its width and height."""
    return '<rect class="%s" x="%s" y="%s" width="%s" height="%s"/>' % (classes, *map(number, (*corner, *size)))


def text(classes, x, y, words):
    return '<text class="%s" x="%s" y="%s">%s</text>' % (classes, number(x), number(y), escape(words))


def titled(drawn, words):
    return '<g><title>%s</title>%s</g>' % (escape(words), drawn)


def upright(classes, x, top, bottom):
    return path(classes, 'M%sV%s' % (points(x, top), number(bottom)))


def arrow(classes, start, end, room=5):
    """From one point to another, with a head; both ends keep some room."""
    (x, y), (to_x, to_y) = start, end
    length = hypot(to_x - x, to_y - y) or 1
    across, down = (to_x - x) / length, (to_y - y) / length
    x, y, to_x, to_y = x + room * across, y + room * down, to_x - room * across, to_y - room * down
    back_x, back_y = to_x - 6 * across, to_y - 6 * down
    head = points(back_x - 3 * down, back_y + 3 * across, to_x, to_y, back_x + 3 * down, back_y - 3 * across)
    return path(classes, 'M%sL%sM%s' % (points(x, y), points(to_x, to_y), head))


def stub(classes, start, end):
    """The beginning of an arrow that doesn't arrive, with a cross bar."""
    (x, y), (to_x, to_y) = start, end
    length = hypot(to_x - x, to_y - y) or 1
    across, down = (to_x - x) / length, (to_y - y) / length
    stop_x, stop_y = x + 30 * across, y + 30 * down
    bar = points(stop_x - 4 * down, stop_y + 4 * across, stop_x + 4 * down, stop_y - 4 * across)
    return path(classes, 'M%sL%sM%s' % (points(x + 5 * across, y + 5 * down), points(stop_x, stop_y), bar))


def circle(x, y, radius):
    return 'M%sa%s 0 1 0 %s 0a%s 0 1 0 -%s 0z' % (
        points(x - radius, y), points(radius, radius), number(2 * radius), points(radius, radius), number(2 * radius))


def square(x, y, half):
    return 'M%sh%sv%sh-%sz' % (points(x - half, y - half), number(2 * half), number(2 * half), number(2 * half))


def cross(x, y, half):
    return 'M%sL%sM%sL%s' % (points(x - half, y - half), points(x + half, y + half),
                             points(x - half, y + half), points(x + half, y - half))


def triangle(x, y, half):
    return 'M%sh%sl-%s %sz' % (points(x - half, y - half), number(2 * half), number(half), number(2 * half))


def bolt(x, y, half):
    return 'M%sL%sL%sL%s' % (points(x + half / 2, y - half - 1), points(x - half / 2, y),
                             points(x + half / 2, y), points(x - half / 2, y + half + 1))
