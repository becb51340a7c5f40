"""What a program comes to in some order of its steps, by the other reading of the rules.

The folder of the other reading has to be among those that Python imports from.
"""
import copy

import sim
import world


class Followed(world.World):
    """A simulated cluster that takes the steps of a journal, as far as they are open there."""
    steps_left = iter(())

    def choose(self, seed):
        slot = next(self.steps_left, None)
        if slot is None or slot not in self.slots or not self.flags[self.slots.index(slot)]:
            return None
        return self.slots.index(slot)


def slots_of(lines):
    """The slot of the step that made each line of a journal, but for breaks and rejoins."""
    for line in lines:
        _, node, kind, what = line.split(' ', 3)
        if kind in ('break', 'rejoin'):
            continue
        if node != 's':
            client = int(node[1:])
            if kind == 'act':
                yield 'act', client, int(what.split(' ')[0].split('.')[1])
            else:
                yield ('flush' if kind == 'flush' else 'down'), client
        else:
            client = int(what.split(' ')[0].lstrip('c'))
            yield ('lose' if kind == 'lose' else 'up'), client


def outcome(program, order, steps, stage):
    """(status, report) by the simulated cluster: by round robin for None, by a seed for a number."""
    ran = sim.run_program(program, order, steps, stage, check=False)
    return ran.status, ran.report


def outcome_of_order(program, lines, steps, stage):
    """(status, report) in the order of the steps of a journal. No connection breaks there: in a run in threads a client
    may take what was on the way before a break, which the simulated cluster drops and sends again."""
    unbroken = copy.copy(program)
    unbroken.breaks = []
    Followed.steps_left = slots_of(lines)
    before, sim.World = sim.World, Followed
    try:
        return outcome(unbroken, None, steps, stage)
    finally:
        sim.World = before


def one_outcome(program, seeds, steps, stage):
    """(status, report) where round robin and all these seeds come to the same and none is cut off, or None."""
    first = outcome(program, None, steps, stage)
    if first[0] == 7 or any(outcome(program, seed, steps, stage) != first for seed in range(seeds)):
        return None
    return first
