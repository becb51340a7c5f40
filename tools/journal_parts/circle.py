"""Threads that wait for each other in a circle."""


def circle(behind):
    """Threads of which each waits for the next one and the last for the first, or none.

    `behind` has for each thread those that it waits for. Of several circles, a shortest one through the first thread
    that is in one."""
    for first in behind:
        path = way_back(behind, first)
        if path:
            return path
    return []


def way_back(behind, first):
    """The threads on a shortest way from this one to itself, or none."""
    before, reached = {}, [first]
    for thread in reached:
        for other in behind.get(thread, ()):
            if other == first:
                return path_to(before, first, thread)
            if other not in before:
                before[other] = thread
                reached.append(other)
    return []


def path_to(before, first, thread):
    path = [thread]
    while path[-1] != first:
        path.append(before[path[-1]])
    return path[::-1]
