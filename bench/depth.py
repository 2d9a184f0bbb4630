"""Prints how many bytes of stack each public entry takes, the most over inputs that lead through all of its paths."""

import copy
import os
import sys
from collections import namedtuple

sys.path[:0] = [os.path.join(os.path.dirname(os.path.abspath(__file__)), "..", "model")]

import ax
import cases
import hosts
import watch
from generate import (at, encode_state, issue, jz, load, loadc, loadpc, memory_of, op, program_of, state_of, store, t_jz, t_load, t_op, t_store,
                      t_value)

Input = namedtuple("Input", "name program memory schedule state")
Deepest = namedtuple("Deepest", "own host by")

# Every kind of instruction, and words of ten digits, for each of which `put_decimal` calls itself. Nothing else does, so longer input goes no deeper.
KINDS = (loadc(1, 4000000000), loadpc(2), op(3, 0, 0, 1), load(4, 0), store(0, 5), jz(0, 0))
PROGRAM = program_of(*KINDS) + loadc(6, 7) * (ax.PLACES - len(KINDS))
MEMORY = memory_of(*(4294967295 - cell for cell in range(8)))

METHOD = """
Bytes, the return address with them: the lowest stack pointer while the call is run one instruction at a time, and the lowest byte written on a painted stack.
alone: in a program that calls this entry and no other, so that all it rests on can be compiled into it; together: in one that calls them all.
host: the frame of the function that calls it, which holds the answer and, where they are handed over by value, the state's copies; not in the others.
by: the input that takes the most. What every call answered was compared with the second model."""


# Inputs.

def full_table(memory_template, last):
    """64 templates, or one less: at places 0 to 3 one that can be forwarded and committed, one to retire, an Op, a Load or a Store; then Ops that wait."""
    first = [t_value(1, 7), t_value(2, 8, 1), t_op(3, 5, 6, 2, 2), memory_template]
    waiting = [t_op(tag, ax.Tag(1), ax.Tag(3), tag % 5, tag) for tag in range(5, ax.PLACES)]
    registers = [(r, ax.Tag(1) if r == 0 else ax.Tag(4 + r) if r < 20 else 4000000000 + r) for r in range(ax.REGISTERS)]
    return state_of(first + waiting + last, registers)


LOADING = full_table(t_load(4, 0, 3), [t_jz(0, 5, 9)])
STORING = full_table(t_store(0, None, 3), [t_jz(1, 5, 9)])
OPEN = full_table(t_load(4, 0, 3), [])
KNOWN = state_of(registers=[(r, 0) for r in range(ax.REGISTERS)])


def counted(counter, state):
    other = copy.deepcopy(state)
    other.counter = counter
    return other


def rule_inputs():
    """Each rule but issue where it is accepted, and where it is refused."""
    places = ((2, LOADING, 2, 4), (3, LOADING, 0, 1), (4, LOADING, 0, 1), (5, LOADING, 1, 0), (6, LOADING, 3, 2), (7, STORING, 3, 2),
              (8, LOADING, 63, 62), (9, STORING, 63, 62))
    for rule, state, accepted, refused in places:
        name = ax.Rule(rule).name.lower().replace("_", "-")
        yield Input(name, PROGRAM, MEMORY, at(rule, accepted), state)
        yield Input(name + " refused", PROGRAM, MEMORY, at(rule, refused), state)
    yield Input("no template", PROGRAM, MEMORY, at(2, 70), LOADING)


def issue_inputs():
    for counter, name in enumerate(("Loadc", "Loadpc", "Op", "Load", "Store")):
        yield Input("issue of a " + name, PROGRAM, MEMORY, issue(0 if name == "Store" else 64), counted(counter, OPEN))
    yield Input("issue of a Jz", PROGRAM, MEMORY, issue(0), counted(5, OPEN))
    yield Input("issue refused", PROGRAM, MEMORY, issue(1), counted(0, OPEN))
    yield Input("issue at a stall", PROGRAM, MEMORY, issue(64), LOADING)


def refused_inputs():
    """What the checks refuse: length, program, memory, state; and a malformed record."""
    record = at(2, 2)
    yield Input("bad length", PROGRAM[1:], MEMORY, record, LOADING)
    yield Input("bad program", PROGRAM[:-8] + bytes([9] * 8), MEMORY, record, LOADING)
    yield Input("bad memory", PROGRAM, MEMORY[:-8] + bytes([9] * 8), record, LOADING)
    yield Input("unsound", PROGRAM, MEMORY, record, counted(0, LOADING))
    yield Input("bad record", PROGRAM, MEMORY, bytes([9] * 4), LOADING)


def input_of(case, started=True):
    """A case of the speed measurements, from the start, or from what its run leaves."""
    memory, state = bytearray(case.memory), ax.State()
    if not started:
        ax.run(case.program, memory, case.schedule, state)
    return Input(case.name, case.program, bytes(memory), case.schedule, state)


def short_cases():
    """All nine rules, a full table, and blocked tables, in runs that are short enough to be stepped through."""
    return cases.cases_of(("counting loop", cases.counting_loop(3)), ("straight line", cases.straight_line())) + cases.blocked_cases()


def step_inputs():
    return [*rule_inputs(), *issue_inputs(), *refused_inputs()]


def run_inputs():
    inputs = [input_of(case) for case in short_cases()[:3]]
    assert set(inputs[0].schedule[::4]) == set(range(1, 10)), "the counting loop has all nine rules"
    refused = inputs[0]._replace(name="counting loop, refused", schedule=inputs[0].schedule + at(2, 63))
    return [*inputs, refused, *rule_inputs(), *refused_inputs()]


def drain_inputs():
    tables = [input_of(case, started=False) for case in short_cases()]
    return [*tables, *table_inputs()]


def report_inputs():
    return [*(input_of(case) for case in short_cases()[:3]), *refused_inputs()]


def instruction_inputs():
    names = ("Loadc", "Loadpc", "Op", "Load", "Store", "Jz")
    inputs = [Input(name, PROGRAM, MEMORY, b"", counted(counter, KNOWN)) for counter, name in enumerate(names)]
    return [*inputs, Input("undefined", PROGRAM, MEMORY, b"", counted(3, ax.State())), *refused_inputs()]


def table_inputs():
    tables = (("with a jump", LOADING), ("with a no-jump", STORING), ("ten-digit counter", counted(4000000000, OPEN)))
    return [*(Input(name, PROGRAM, MEMORY, b"", state) for name, state in tables), *refused_inputs()]


INPUTS = {"renaming::step": step_inputs, "renaming::run": run_inputs, "renaming::drain": drain_inputs, "inorder::run": instruction_inputs,
          "inorder::step": instruction_inputs, "judge::refusal_at": rule_inputs, "report::report": report_inputs}  # any other has table_inputs


# What the second model answers.

def machine_of(state):
    return ax.Machine(0 if state.counter == ax.STALL else state.counter, tuple(None if ax.is_tag(r) else r for r in state.registers))


def drain_answer(given, memory, state):
    drained = ax.drain(given.program, memory, state)
    return drained.blocked[1] if drained.blocked else drained.refusal


def contents_answer(lines):
    return len("".join(line + "\n" for line in lines))


ANSWERS = {
    "renaming::step": lambda i, m, s: ax.checked_step(i.program, m, i.schedule, s)[0],
    "renaming::run": lambda i, m, s: ax.run(i.program, m, i.schedule, s).refusal,
    "renaming::drain": drain_answer,
    "inorder::run": lambda i, m, s: ax.in_order_run(i.program, m, 20, machine_of(s)).stop,
    "inorder::step": lambda i, m, s: ax.in_order_run(i.program, m, 1, machine_of(s)).stop,
    "inorder::enter": lambda i, m, s: ax.check(i.program, m)[0],
    "entry::enter": lambda i, m, s: ax.check(i.program, m, b"", s)[0],
    "sound::is_sound": lambda i, m, s: 0 if ax.sound(s, len(i.program) // 8) else 4,
    "judge::refusal_at": lambda i, m, s: ax.at_place(m, s, i.schedule[0], i.schedule[1]),
    "report::report": lambda i, m, s: len(ax.report(i.program, m, i.schedule)),
    "report::contents": lambda i, m, s: contents_answer(ax.content_lines(s.counter, s.registers, m)),
    "listing::list": lambda i, m, s: ax.listing(i.program, bytearray(32768))[2],
    "kernel::check": lambda i, m, s: ax.check(i.program, m)[0],
    "isa::scan": lambda i, m, s: ax.check(i.program, b"")[0],
    "cells::scan": lambda i, m, s: ax.check(b"", m)[0],
    "lines::put_counter": lambda i, m, s: contents_answer(ax.content_lines(s.counter, [], b"")),
    "lines::put_registers": lambda i, m, s: contents_answer(ax.content_lines(0, s.registers, b"")[1:]),
}


# Measuring.

def write_input(given, folder):
    os.makedirs(folder, exist_ok=True)
    cases.write_files(given, folder)
    with open(os.path.join(folder, "state.ax"), "wb") as file:
        file.write(encode_state(given.state))


def measured(entry, symbol, program, given, folder):
    """One call, whose answer must be the second model's."""
    write_input(given, folder)
    number = hosts.ENTRIES.index(entry) + 1
    call, printed = watch.watched(program, hosts.caller(number), symbol, [str(number)], folder)
    wanted = str(int(ANSWERS[entry.name](given, bytearray(given.memory), copy.deepcopy(given.state))))
    if printed != wanted:
        sys.exit("DIFFERENT ANSWERS: %s, %s: the second model has %s, and the library %s" % (entry.name, given.name, wanted, printed))
    return Deepest(call.own, call.host, given.name)


def deepest(maker, module, entry):
    """The most that the entry takes in the program of a module."""
    symbol, program = hosts.symbol(module, entry), os.path.join(maker.folder, "program")
    maker.build(module, [symbol, hosts.caller(hosts.ENTRIES.index(entry) + 1)], program)
    calls = [measured(entry, symbol, program, given, os.path.join(maker.folder, "input")) for given in INPUTS.get(entry.name, table_inputs)()]
    return max(calls, key=lambda call: call.own)


def main(folder):
    maker = hosts.Maker(os.getcwd(), folder)
    together = maker.module(hosts.ENTRIES)
    print("%-22s%9s%10s%8s  %s" % ("entry", "alone", "together", "host", "by"))
    for entry in hosts.ENTRIES:
        first, second = deepest(maker, maker.module([entry]), entry), deepest(maker, together, entry)
        by = max(first, second, key=lambda call: call.own).by
        print("%-22s%9d%10d%8d  %s" % (entry.name, first.own, second.own, max(first.host, second.host), by), flush=True)
    print(METHOD)


if __name__ == "__main__":
    main(sys.argv[1])
