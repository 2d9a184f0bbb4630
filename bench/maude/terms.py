"""A case as Maude terms, with the commands that measure it."""

import os

import ax
from ax import Code, Rule

RULES = os.path.join(os.path.dirname(os.path.abspath(__file__)), "ax.maude")
NAMES = {Rule.OPERATE: "operate", Rule.FORWARD: "forward", Rule.COMMIT: "commit", Rule.RETIRE: "retire",
         Rule.LOAD: "load", Rule.STORE: "store", Rule.JUMP: "jump", Rule.NO_JUMP: "no-jump"}
CHUNK = 16  # Maude takes much longer to read one long term than many short ones


def instruction(i):
    if i.code == Code.LOADC:
        return "r(%d) := Loadc(%d)" % (i.r, i.constant)
    if i.code == Code.LOADPC:
        return "r(%d) := Loadpc" % i.r
    if i.code == Code.OP:
        return "r(%d) := Op(%s, r(%d), r(%d))" % (i.r, ax.OPERATIONS[i.constant][0], i.r1, i.r2)
    if i.code == Code.LOAD:
        return "r(%d) := Load(r(%d))" % (i.r, i.r1)
    return "%s(r(%d), r(%d))" % ("Jz" if i.code == Code.JZ else "Store", i.r1, i.r2)


def cell(memory, address):
    value = ax.load_cell(memory, address)
    return "Cell(%d, %s)" % (address, "⊥" if value is None else value)


def schedule(case):
    """Each record's rule, with the tag of the template that stands at its place."""
    instructions, memory, state = ax.scan_program(case.program)[1], bytearray(case.memory), ax.State()
    for record in ax.records(case.schedule, 4):
        rule, place, tag, _ = record
        if rule == Rule.ISSUE:
            yield "issue(t(%d))" % tag
        elif rule in (Rule.STORE, Rule.JUMP, Rule.NO_JUMP):
            yield NAMES[rule]
        else:
            yield "%s(t(%d))" % (NAMES[rule], state.places[place].tag)
        assert ax.step(instructions, memory, state, record) == ax.ACCEPTED


def constants(name, sort, parts, between, end):
    """One constant for each chunk, which ends in the next chunk's; the first has the bare name."""
    parts = list(parts)
    starts = range(0, len(parts), CHUNK)
    names = [name] + ["%s%d" % (name, number) for number in range(1, len(starts) + 1)]
    lines = ["  ops %s : -> %s ." % (" ".join(names), sort)]
    for number, start in enumerate(starts):
        chunk = parts[start:start + CHUNK] + [names[number + 1]]
        lines.append("  eq %s = %s ." % (names[number], between.join(chunk)))
    return lines + ["  eq %s = %s ." % (names[-1], end)]


def module(case):
    """The case's program, memory and schedule, and the terms that the parts start with."""
    instructions = ax.scan_program(case.program)[1]
    lines = ["load %s" % RULES, "mod CASE is", "  protecting PARTS ."]
    program = ("Inst(%d, %s)" % (address, instruction(i)) for address, i in enumerate(instructions))
    lines += constants("program", "PROG", program, " | ", "ε")
    cells = (cell(case.memory, address) for address in range(len(case.memory) // 8))
    lines += constants("memory", "MEM", cells, " | ", "ε")
    lines += constants("sequence", "SCHEDULE", schedule(case), " ; ", "end")
    return lines + [
        "  ops base start reached : -> SYS .",
        "  eq base = Sys(memory, Proc(0, registers(32), program)) .",
        "  eq start = Sys(memory, Proc(0, registers(32), ε, program, 0)) .",
        "  eq reached = from-zero(run(sequence, start)) .",
        "endm"]


def command(part, times, issued):
    """What has Maude do a part so many times."""
    return {"run": "rewrite runs(%d, done(0, 0), sequence, start) ." % times,
            "drain": "rewrite drains(%d, done(0, 0), reached, reached) ." % times,
            "inorder": "rewrite executions(%d, done(0, 0), %d, base) ." % (times, issued)}[part]
