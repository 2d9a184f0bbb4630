"""The programs that are measured, their schedules, and what the second model says of each part.

As a program it writes each case's three files to a folder of their own, for `crates/speed/out/speed` to be run there by hand.
"""

import os
import sys
from collections import namedtuple

import ax
from generate import at, issue, jz, load, loadc, memory_of, op, program_of, store

ADD, SUB, MUL, DIV, LESS = range(5)
Case = namedtuple("Case", "name program memory schedule")
Done = namedtuple("Done", "rules refusal counter")  # rules or instructions, then how it ended


# Programs. Each but the blocked ones ends in a jump to a number that it has computed, so that the last counter tells a wrong machine.

def counting_loop(turns=200):
    """Each turn loads a cell, adds 1 and stores it; at the end twice the cell is jumped to."""
    return program_of(
        loadc(1, turns), loadc(2, 1), loadc(3, 0), loadc(4, 6), loadc(5, 12), store(3, 3),
        load(6, 3), op(6, 6, 2, ADD), store(3, 6), op(1, 1, 2, SUB), jz(1, 5), jz(3, 4),
        load(6, 3), op(6, 6, 6, ADD), store(3, 6), jz(3, 6)), memory_of(*(None,) * 16)


def straight_line():
    """Operations on the last two results, or on the last and 3: with the jump, 64 instructions."""
    def register(number):
        return 2 + number % 30
    body = [loadc(0, 0), loadc(1, 3), loadc(register(0), 7), loadc(register(1), 11)]
    for number in range(2, 61):
        operation = (ADD, MUL, LESS, SUB, DIV, ADD)[number % 6]
        second = 1 if operation == DIV else register(number - 2)
        body.append(op(register(number), register(number - 1), second, operation))
    return program_of(*body, jz(0, register(60))), memory_of(None, None)


def pointer_chase(loads=1000, cells=1024, stride=389):
    """Each load's result is the next one's address; the cells are one ring."""
    ring = memory_of(*((address + stride) % cells for address in range(cells)))
    return program_of(loadc(1, 5), loadc(2, 0), load(1, 1) * loads, jz(2, 1)), ring


def blocked(loads, behind):
    """Loads of an undefined address, and what stands behind them."""
    return program_of(load(31, 30) * loads, *behind), memory_of(None, None)


# Schedules: issue whenever it is allowed, with the lowest unused tag, and else what a drain would do.

def issue_next(instructions, state):
    """The record of an issue that was done, or None."""
    used = ax.produced(state.templates())
    unused = [tag for tag in range(1, ax.LAST_TAG + 1) if tag not in used]
    for tag in [0] + unused[:1]:
        if ax.issue(instructions, state, tag) == ax.ACCEPTED:
            return issue(tag)
    return None


def drain_next(memory, state):
    """The record of the oldest rule, which was done."""
    for place in range(state.count):
        for rule in sorted(ax.PLACE_RULES):
            if ax.at_place(memory, state, rule, place) == ax.ACCEPTED:
                return at(rule, place)
    raise ValueError("no rule is allowed")


def schedule_of(program, memory):
    """The records up to the issue of the last instruction."""
    instructions, memory, state, schedule = ax.scan_program(program)[1], bytearray(memory), ax.State(), []
    while state.count == 0 or state.templates()[-1].address != len(instructions) - 1:
        schedule.append(issue_next(instructions, state) or drain_next(memory, state))
    return b"".join(schedule)


def cases_of(*programs):
    return [Case(name, program, memory, schedule_of(program, memory)) for name, (program, memory) in programs]


def all_cases():
    return cases_of(("counting loop", counting_loop()), ("straight line", straight_line()), ("pointer chase", pointer_chase()))


def blocked_cases():
    """Tables whose oldest template is blocked: what a drain looks at counts there, and not what it does alone."""
    return cases_of(("nothing allowed", blocked(1, [op(3, 31, 31, ADD)] * 63)),
                    ("constants behind", blocked(1, [loadc(31, 6)] * 63)),
                    ("loads ahead", blocked(32, [op(r, r, r, ADD) for r in range(31)])))


def lengthened(name, program, memory, times):
    """The case in a program and a memory that are so many times 64 long; what is added is never reached."""
    schedule = schedule_of(program, memory)
    return Case(name, program + loadc(0, 0) * (64 * times - len(program) // 8), memory + memory_of(None) * (64 * times - len(memory) // 8), schedule)


def length_cases(times):
    """Of the run, whose schedule is so many times as long too; and of the drain, whose rules the table limits."""
    return {"run": lengthened("counting loop", *counting_loop(50 * times), times), "drain": lengthened("straight line", *straight_line(), times)}


def expected(case):
    """What each part does once."""
    memory, state = bytearray(case.memory), ax.State()
    ran = ax.run(case.program, memory, case.schedule, state)
    run = Done(ran.accepted, int(ran.refusal), str(state.counter))
    drained = ax.drain(case.program, memory, state)
    drain = Done(drained.applied, drained.blocked[1] if drained.blocked else 0, str(state.counter))
    executed = ax.in_order_run(case.program, bytearray(case.memory), ran.issued)
    return {"run": run, "drain": drain,
            "inorder": Done(executed.executed, int(executed.stop), str(executed.machine.counter))}


def write_files(case, folder):
    for name in ("program", "memory", "schedule"):
        with open(os.path.join(folder, name + ".ax"), "wb") as file:
            file.write(getattr(case, name))


def main(folder):
    for case in all_cases() + blocked_cases():
        own = os.path.join(folder, case.name.replace(" ", "_"))
        os.makedirs(own, exist_ok=True)
        write_files(case, own)


if __name__ == "__main__":
    if len(sys.argv) != 2:
        sys.exit("usage: PYTHONPATH=model python3 bench/cases.py DIR")
    main(sys.argv[1])
