"""Why a run stalled, and what a thread did before it faulted."""
from entries import fault_name
from history import History
from legend import legend_lines
from stall import Stall

# how many of its last events are told of a thread that faulted
LAST = 10
# what is said of a circle, by its doubt
CIRCLES = ('the circle', 'the circle, where the run stalled', 'a circle that there may be, where the run stalled')


def fault_lines(history, thread):
    """The last events of a thread that ended by a fault; the one that it faulted at or behind is marked."""
    events = [entry for entry in history.acts[thread] if entry.event]
    end = events[-1]
    number = end.event.fault
    at = next((entry for entry in reversed(events[:-1])
               if entry.event.kind != 'exit' or entry.event.is_refused), None)
    is_refused = at is not None and at.event.is_refused and at.event.fault == number
    told = 'refused here' if is_refused else 'the last thing that it did before'
    lines = ['thread %s ended by %s (%d) at line %d; its last events:' % (thread, fault_name(number), number, end.line)]
    for entry in events[-LAST:]:
        mark = '   <- ' + told if entry is at else ''
        lines.append('%8d  clock %-6d %s%s' % (entry.line, entry.clock, entry.event.text, mark))
    return lines


def thread_text(history, stall, thread):
    end, lost = history.end(thread), history.lost(thread)
    by = ' by ' + fault_name(end.event.fault) if end and end.event.fault else ''
    parts = ['ended%s at line %d' % (by, end.line)] if end else []
    parts += ['was lost with its client at line %d' % lost.line] if lost else []
    return ', '.join(parts) or stall.needs[thread].text


def circle_line(stall):
    threads, doubt = stall.circle()
    if not threads:
        return []
    start = CIRCLES[doubt]
    pairs = zip(threads, threads[1:] + threads[:1])
    return ['%s: %s' % (start, ', '.join('%s waits for %s' % pair for pair in pairs))]


def cut_line(stall):
    """Whether something could still go on, so that the run didn't stall."""
    if stall.under_way:
        return ['messages are under way (%d): the run was cut off' % len(stall.under_way)]
    if stall.free:
        return ['not held up: %s; the run was cut off' % ', '.join(map(str, stall.free))]
    return []


def stall_lines(history):
    """A line for each thread, the circle, whether something can still go on, and what the locks are."""
    stall = Stall(history)
    lines = ['thread %s %s' % (thread, thread_text(history, stall, thread)) for thread in history.threads()]
    if not stall.needs:
        return lines + ['nobody waits']
    lines += circle_line(stall) + cut_line(stall)
    return lines + legend_lines(history.entries, lines, not stall.under_way)


def why(entries):
    """The last events of each thread that faulted, and who waits for what."""
    history = History(entries)
    parts = [fault_lines(history, thread) for thread in history.threads()
             if history.end(thread) and history.end(thread).event.fault]
    return '\n\n'.join('\n'.join(part) for part in parts + [stall_lines(history)])
