"""One colour a lock."""

# for the busiest; no red, which is for what goes wrong
FIRST = ('#1f77b4', '#e07b00', '#2a9d3a', '#8e44ad', '#0097a7', '#8d6e2b', '#c2349b', '#5c6bc0', '#7a9a01', '#4e342e')


def colour(number):
    """The colour of the lock of this number, from 0: each has another one."""
    if number < len(FIRST):
        return FIRST[number]
    # steps round the colours that aren't red, which never meet
    return 'hsl(%.2f, 60%%, %d%%)' % (30 + number * 137.508 % 300, (28, 60, 24, 52)[number % 4])
