"""Writes the cases in bulk and what the second model says the bulk program prints for them.

The file is a record of 8 bytes whose word is the number of cases, then the cases. A case is a record with its kind, a byte and
a word; then four parts, each behind a record whose word is its length: the program, the memory or output that is lent, the
schedule, and what else the kind is given. The kinds:

0  the report of a program, a memory and a schedule
1  an in-order run of as many instructions as the word says
2  a run, then a drain, from the state in the last part, each with the templates, counter and registers that it leaves
3  a step for each record of the schedule, from the state in the last part, each with the templates, counter and registers that it leaves
4  what is read of a program and of a memory: both judged, and what stands at the address in the word
5  the instruction in the last part, written to the output
6  the value in the last part, stored at the address in the word
7  the listing of a program, in the output
8  the operation in the byte, on the two values in the last part
"""

import copy
import itertools
import struct
import sys

import ax
from ax import JZ, LOAD, OP, STALL, STORE, VALUE, Rule, Tag, Template

SEED = 0x9E3779B97F4A7C15
LAST = (1 << 32) - 1
EIGHTH = 1 << 29  # eight times this wraps to 0 in 32 bits
BUDGET = 1000  # for the in-order run of the same program and memory behind each report
NAMES = ("", "Loadc", "Loadpc", "Op", "Jz", "Load", "Store")  # of the instructions, by their codes
CORNERS = (0, 1, 2, 3, 7, 65535, 65536, (1 << 31) - 1, 1 << 31, (1 << 31) + 1, LAST - 6, LAST - 1, LAST)
KINDS = (VALUE, OP, JZ, LOAD, STORE)  # in the order of their numbers in the file


class Random:
    """A xorshift generator of our own, so the cases don't change with the Python version."""

    def __init__(self, seed=SEED):
        self.state = seed
        for _ in range(20):  # so that neighbouring seeds part
            self.below(2)

    def below(self, limit):
        x = self.state
        x ^= (x << 13) % (1 << 64)
        x ^= x >> 7
        x ^= (x << 17) % (1 << 64)
        self.state = x
        return (x >> 16) % (1 << 32) % limit

    def choose(self, items):
        return items[self.below(len(items))]

    def chance(self, percent):
        return self.below(100) < percent

    def shuffled(self, items):
        rest = list(items)
        return [rest.pop(self.below(len(rest))) for _ in range(len(rest))]


# Records.

def instruction(code, r, r1, r2, constant):
    return struct.pack("<BBBBI", code, r, r1, r2, constant)


def loadc(r, constant):
    return instruction(1, r, 0, 0, constant)


def loadpc(r):
    return instruction(2, r, 0, 0, 0)


def op(r, r1, r2, operation):
    return instruction(3, r, r1, r2, operation)


def jz(r1, r2):
    return instruction(4, 0, r1, r2, 0)


def load(r, r1):
    return instruction(5, r, r1, 0, 0)


def store(r1, r2):
    return instruction(6, 0, r1, r2, 0)


def program_of(*instructions):
    return b"".join(instructions)


def memory_of(*values):
    return b"".join(struct.pack("<II", 0, 0) if v is None else struct.pack("<II", 1, v) for v in values)


def issue(tag):
    return bytes((1, 0, tag, 0))


def issues(*tags):
    return b"".join(issue(tag) for tag in tags)


def at(rule, place):
    return bytes((rule, place, 0, 0))


def with_byte(buffer, index, byte):
    return buffer[:index] + bytes((byte,)) + buffer[index + 1:]


# States.

def t_value(tag, value, address=0):
    return Template(address, VALUE, tag, 0, value, None)


def t_op(tag, first, second, operation=0, address=0):
    return Template(address, OP, tag, operation, first, second)


def t_jz(first, second, address=0):
    return Template(address, JZ, 0, 0, first, second)


def t_load(tag, first, address=0):
    return Template(address, LOAD, tag, 0, first, None)


def t_store(first, second, address=0):
    return Template(address, STORE, 0, 0, first, second)


def state_of(templates=(), registers=(), counter=None, count=None):
    """A state; registers as (number, content) pairs; stalled by itself when the last is a Jz."""
    state = ax.State()
    state.places[:len(templates)] = templates
    state.count = len(templates) if count is None else count
    for number, content in registers:
        state.registers[number] = content
    ends_in_jz = len(templates) > 0 and templates[-1].kind == JZ
    state.counter = counter if counter is not None else STALL if ends_in_jz else 0
    return state


# The file's form: records of 8 bytes, each with four bytes and a word. A state's part is the counter's record and a row of four
# records for each place: the register of that number, the template, its two operands. Rows of zeros at the end are left out.

ROW = 32


def encode_content(content):
    if isinstance(content, Tag):
        return struct.pack("<BBHI", 2, content.number, 0, 0)
    return struct.pack("<II", 0, 0) if content is None else struct.pack("<II", 1, content)


def encode_template(t):
    head = struct.pack("<BBBBI", KINDS.index(t.kind), t.tag, t.operation, 0, t.address)
    return head + encode_content(t.first) + encode_content(t.second)


def encode_state(state, stored=0):
    """At least the given number of rows."""
    stalled = state.counter == STALL
    counter = struct.pack("<BBHI", stalled, state.count, 0, 0 if stalled else state.counter)
    registers = state.registers + [None] * (ax.PLACES - ax.REGISTERS)
    rows = [encode_content(content) + encode_template(t) for content, t in zip(registers, state.places)]
    while len(rows) > stored and not any(rows[-1]):
        rows.pop()
    return counter + b"".join(rows)


def decode_content(data):
    mark, tag, word = struct.unpack("<BBxxI", data)
    return (None, word, Tag(tag))[mark]


def decode_template(data):
    kind, tag, operation, address = struct.unpack("<BBBxI", data[:8])
    return Template(address, KINDS[kind], tag, operation, decode_content(data[8:16]), decode_content(data[16:24]))


def decode_state(data):
    state = ax.State()
    stalled, state.count, address = struct.unpack("<BBxxI", data[:8])
    state.counter = STALL if stalled else address
    rows = [data[start:start + ROW] for start in range(8, len(data), ROW)]
    rows += [bytes(ROW)] * (ax.PLACES - len(rows))
    state.registers = [decode_content(row[:8]) for row in rows[:ax.REGISTERS]]
    state.places = [decode_template(row[8:]) for row in rows]
    return state


def encode_case(kind, parts, byte=0, word=0):
    """The case's record, and each part behind its own."""
    head = struct.pack("<BBHI", kind, byte, 0, word)
    return head + b"".join(struct.pack("<II", 0, len(part)) + part for part in parts)


def decode_case(data):
    """The kind, the byte, the word and the four parts."""
    kind, byte, word = struct.unpack("<BBxxI", data[:8])
    parts, start = [], 8
    while start < len(data):
        length = struct.unpack("<xxxxI", data[start:start + 8])[0]
        parts.append(data[start + 8:start + 8 + length])
        start += 8 + length
    return kind, byte, word, parts


class Cases:
    """The cases, each already in the file's form."""

    def __init__(self):
        self.encoded = []

    def add(self, kind, program=b"", lent=b"", schedule=b"", rest=b"", byte=0, word=0):
        self.encoded.append(encode_case(kind, (program, lent, schedule, rest), byte, word))

    def report(self, program, memory, schedule):
        """The same program and memory run in order too."""
        self.add(0, program, memory, schedule)
        self.in_order(program, memory, BUDGET)

    def in_order(self, program, memory, budget):
        self.add(1, program, memory, word=budget)

    def handed(self, program, memory, schedule, state, stored=0):
        self.add(2, program, memory, schedule, encode_state(state, stored))

    def steps(self, program, memory, schedule, state=None):
        self.add(3, program, memory, schedule, encode_state(state or ax.State()))

    def look(self, program, memory, address):
        self.add(4, program, memory, word=address)

    def write(self, fields, output):
        self.add(5, lent=output, rest=fields)

    def store(self, memory, address, value):
        self.add(6, lent=memory, rest=encode_content(value), word=address)

    def listing(self, program, room):
        """The output holds dots before."""
        self.add(7, program, b"." * room)

    def operate(self, operation, first, second):
        self.add(8, rest=encode_content(first) + encode_content(second), byte=operation)

    def all_kinds(self, program, memory, schedule):
        """The same three buffers in each kind of run, from the start state."""
        self.report(program, memory, schedule)
        self.in_order(program, memory, 100)
        self.handed(program, memory, schedule, ax.State())


# What the bulk program prints, worked out from the file's bytes alone. Each takes a case's byte, word and parts, memory as a bytearray.

def content_text(content):
    """A dash where it is undefined."""
    if isinstance(content, Tag):
        return "t%d" % content.number
    return "-" if content is None else "%d" % content


def content_lines(counter, registers, memory):
    """As the report has them; nothing where the memory isn't whole cells."""
    return ax.content_lines(counter, registers, memory) if ax.whole(memory, 8, ax.MEMORY_LIMIT) else []


def state_lines(state, memory):
    """A line for each template, with all of its fields, then the contents."""
    lines = ["%d: %s %d %d %s %s" % (t[:4] + (content_text(t.first), content_text(t.second)))
             for t in state.templates()]
    return lines + content_lines(state.counter, state.registers, memory)


def report_lines(byte, word, program, memory, schedule, rest):
    return ax.report(program, memory, schedule).splitlines()


def in_order_lines(byte, word, program, memory, schedule, rest):
    answer = ax.in_order_run(program, memory, word)
    line = "executed %d stop %d record %d" % answer[:3]
    return [line] + content_lines(answer.machine.counter, answer.machine.registers, memory)


def run_lines(byte, word, program, memory, schedule, rest):
    state = decode_state(rest)
    lines = ["accepted %d issued %d refused %d record %d" % ax.run(program, memory, schedule, state)]
    lines += state_lines(state, memory)
    refusal, number, applied, blocked = ax.drain(program, memory, state)
    address, refusal = blocked or (0, refusal)
    lines.append("drained %d address %d refused %d record %d" % (applied, address, refusal, number))
    return lines + state_lines(state, memory)


def step_lines(byte, word, program, memory, schedule, rest):
    """The last record may be short."""
    state, lines = decode_state(rest), []
    for record in ax.records(schedule, 4):
        lines.append("refused %d record %d" % ax.checked_step(program, memory, record, state))
        lines += state_lines(state, memory)
    return lines


def reading_text(reading):
    refusal, i = reading
    return "refused %d" % refusal if refusal else "%s %d %d %d %d" % ((NAMES[i.code],) + i[1:])


def look_lines(byte, word, program, memory, schedule, rest):
    refusal = ax.address_refusal(memory, word)
    loaded = "refused %d" % refusal if refusal else content_text(ax.load_cell(memory, word))
    return ["read " + reading_text(ax.read_instruction(program)), "fetch " + reading_text(ax.fetch(program, word)),
            "program %d record %d" % ax.check(program, b""), "memory %d record %d" % ax.check(b"", memory),
            "load " + loaded]


def bytes_line(name, refusal, buffer):
    return " ".join([name] + ["%d" % number for number in (refusal, *buffer)])


def write_lines(byte, word, program, output, schedule, rest):
    refusal = ax.write_instruction(ax.Instruction(*struct.unpack("<BBBBI", rest)), output)
    return [bytes_line("write", refusal, output)]


def store_lines(byte, word, program, memory, schedule, rest):
    refusal = ax.address_refusal(memory, word)
    if not refusal:
        ax.store_cell(memory, word, decode_content(rest))
    return [bytes_line("store", refusal, memory)]


def listing_lines(byte, word, program, output, schedule, rest):
    answer = ax.listing(program, output)
    return ["listed %d record %d bytes %d" % answer, output.decode("ascii")]


def operate_lines(byte, word, program, memory, schedule, rest):
    return ["result " + content_text(ax.result(byte, decode_content(rest[:8]), decode_content(rest[8:])))]


LINES = (report_lines, in_order_lines, run_lines, step_lines, look_lines, write_lines, store_lines, listing_lines,
         operate_lines)  # by their kinds


def case_text(data):
    """What is printed for one encoded case."""
    kind, byte, word, (program, memory, schedule, rest) = decode_case(data)
    lines = LINES[kind](byte, word, program, bytearray(memory), schedule, rest)
    return "".join(line + "\n" for line in lines)


# Random programs, schedules and states.

def random_constant(rng, length, cells):
    ranges = (4, length + 1, cells + 1, 0, 0)
    limit = rng.choose(ranges)
    if limit:
        return rng.below(limit)
    return rng.choose(CORNERS) if rng.chance(70) else rng.below(1 << 32)


def random_instruction(rng, registers, addresses, length, cells):
    """Operands and destinations from the registers; data addresses mostly from the addresses."""
    r, r1, r2 = (rng.choose(registers) for _ in range(3))
    code = rng.choose("ccpoooojllss")
    if code == "c":
        return loadc(r, random_constant(rng, length, cells))
    if code == "p":
        return loadpc(r)
    if code == "o":
        return op(r, r1, r2, rng.below(5))
    if code == "j":
        return jz(r1, r2)
    if rng.chance(70):
        r1 = rng.choose(addresses)
    return load(r, r1) if code == "l" else store(r1, r2)


def straight_program(rng, cells):
    """Some registers loaded first, then anything."""
    length = 4 + rng.below(8)
    registers = tuple(range(1 + rng.below(5))) if rng.chance(80) else (0, 1, 15, 30, 31)
    start = [loadc(r, random_constant(rng, length, cells)) for r in registers if rng.chance(85)]
    rest = [random_instruction(rng, registers, registers, length, cells) for _ in range(length)]
    return program_of(*(start + rest)[:length])


def loop_program(rng, cells):
    """A backward loop of a few turns around a random body, with its exit and something after."""
    body = 1 + rng.below(4)
    turns = 1 + rng.below(3)
    start = [loadc(0, turns), loadc(1, 1), loadc(2, 5), loadc(3, 5 + body + 3), loadc(4, 0)]
    registers = (0, 1, 4, 5, 6) if rng.chance(30) else (5, 6, 7)
    inner = [random_instruction(rng, registers, (0, 1, 4), 8, cells) for _ in range(body)]
    end = [op(0, 0, 1, 1), jz(0, 3), jz(4, 2)]
    after = [random_instruction(rng, (0, 5, 6), (1, 4), 8, cells) for _ in range(rng.below(3))]
    return program_of(*(start + inner + end + after))


def random_program(rng, cells):
    return straight_program(rng, cells) if rng.chance(60) else loop_program(rng, cells)


def random_memory(rng):
    count = rng.choose((0, 1, 2, 2, 3, 4))
    return memory_of(*(None if rng.chance(40) else random_constant(rng, 5, 3) for _ in range(count)))


def fitting_tag(rng, instructions, state):
    """A tag the next issue takes: 0, the lowest unused or any unused one."""
    if state.counter == STALL or state.counter >= len(instructions):
        return 0
    if instructions[state.counter].code in (ax.Code.JZ, ax.Code.STORE):
        return 0
    unused = [tag for tag in range(1, 65) if tag not in ax.produced(state.templates())]
    return (unused[0] if rng.chance(50) else rng.choose(unused)) if unused else 0


def try_issue(rng, instructions, state):
    tag = fitting_tag(rng, instructions, state)
    return issue(tag) if ax.issue(instructions, state, tag) == ax.ACCEPTED else None


def allowed_record(rng, instructions, memory, state, issue_percent):
    """Applies one allowed rule, chosen at random, and answers its record (None if there is none)."""
    if rng.chance(issue_percent):
        record = try_issue(rng, instructions, state)
        if record is not None:
            return record
    for rule, place in rng.shuffled(itertools.product(range(2, 10), range(state.count))):
        if ax.at_place(memory, state, rule, place) == ax.ACCEPTED:
            return at(rule, place)
    return try_issue(rng, instructions, state) if issue_percent else None


def allowed_schedule(rng, program, memory, state, steps, issue_percent):
    """A schedule of allowed rules; state and memory are left as they are after it."""
    instructions, schedule = ax.scan_program(program)[1], []
    for _ in range(steps):
        record = allowed_record(rng, instructions, memory, state, issue_percent)
        if record is None:
            break
        schedule.append(record)
    return b"".join(schedule)


def oldest_first(memory, state):
    """The records of the oldest-first drain; state and memory are left drained."""
    schedule = []
    while True:
        for place, rule in itertools.product(range(state.count), range(2, 10)):
            if ax.at_place(memory, state, rule, place) == ax.ACCEPTED:
                schedule.append(at(rule, place))
                break
        else:
            return schedule


def damaged_schedule(rng, schedule):
    """The schedule with one record changed, repeated, dropped or exchanged with its neighbour."""
    entries = ax.records(schedule, 4)
    if not entries:
        return bytes((rng.below(11), rng.below(3), rng.below(3), 0))
    number, how = rng.below(len(entries)), rng.below(5)
    if how <= 1:
        byte, limits = rng.below(4), (11, 70, 70, 2)
        entries[number] = with_byte(entries[number], byte, rng.below(limits[byte]))
    elif how == 2:
        entries.insert(number, entries[number])
    elif how == 3:
        del entries[number]
    else:
        entries[number - 1], entries[number] = entries[number], entries[number - 1]
    return b"".join(entries)


def random_records(rng, number):
    """Records with small numbers: mostly well formed, often refused."""
    entries = []
    for _ in range(number):
        rule = 1 + rng.below(9)
        entries.append(issue(rng.below(4)) if rule == 1 or rng.chance(40) else at(rule, rng.below(4)))
    return b"".join(entries)


def random_operand(rng, tags):
    choice = rng.below(5)
    if choice == 0:
        return None
    if choice <= 2 or not tags:
        return rng.choose((0, 0, 1, 2, 3, LAST))
    return Tag(rng.choose(tags))


def random_template(rng, kind, tag, tags, length):
    """A template of the kind whose operands wait on the tags at most."""
    address = rng.below(length)
    first, second = random_operand(rng, tags), random_operand(rng, tags)
    if kind == VALUE:
        return t_value(tag, random_operand(rng, ()), address)
    if kind == OP:
        return t_op(tag, first, second, rng.below(5), address)
    if kind == LOAD:
        return t_load(tag, first, address)
    return Template(address, kind, 0, 0, first, second)


def sound_state(rng, length):
    """Any sound state, also ones no schedule reaches."""
    fresh, tags, templates = rng.shuffled(range(1, 65)), [], []
    for _ in range(rng.below(7) if length else 0):
        kind = rng.choose((VALUE, VALUE, OP, OP, LOAD, STORE))
        templates.append(random_template(rng, kind, fresh.pop(), tags, length))
        tags = ax.produced(templates)
    if length and rng.chance(30):
        templates.append(random_template(rng, JZ, 0, tags, length))
    registers, free = [], rng.shuffled(tags)
    for number in rng.shuffled(range(32))[:rng.below(7)]:
        use_tag = free and rng.chance(70)
        registers.append((number, Tag(free.pop()) if use_tag else random_operand(rng, ())))
    counter = None
    if not templates or templates[-1].kind != JZ:
        counter = rng.choose((0, 1, length // 2, length // 2, length, LAST))
    return state_of(templates, registers, counter)


def damage_template(rng, state, length):
    """One template, or the place after the last, changed in one field."""
    place = rng.below(min(state.count + 1, 64))
    t = state.places[place]
    tag = rng.choose((0, 1, 2, 64, 65, 255))
    fields = {"address": rng.choose((0, length, LAST))}
    if t.kind in (VALUE, OP, LOAD):
        fields["tag"] = tag
    if t.kind == OP:
        fields["operation"] = rng.choose((4, 5, 255))
    if t.kind != VALUE:
        fields["first"] = Tag(tag)
    if t.kind in (OP, JZ, STORE):
        fields["second"] = Tag(tag)
    field = rng.choose(sorted(fields))
    state.places[place] = t._replace(**{field: fields[field]})


def damage_state(rng, state, length):
    """One thing changed; the state may still be sound."""
    how = rng.below(7)
    if how == 0:
        state.count = rng.choose((state.count + 1, max(state.count - 1, 0), 64, 65, 255))
    elif how == 1:
        state.counter = rng.below(length + 1) if state.counter == STALL else STALL
    elif how == 2:
        state.registers[rng.below(32)] = Tag(rng.choose((0, 1, 2, 3, 64, 65, 255)))
    elif how == 3 and state.count >= 2:
        place = 1 + rng.below(state.count - 1)
        state.places[place - 1:place + 1] = state.places[place - 1:place + 1][::-1]
    else:
        damage_template(rng, state, length)


# Groups of cases. First the examples of the scope paper.

FULL_RUN = program_of(loadc(1, 6), loadc(2, 0), op(3, 1, 2, 3), op(4, 1, 1, 0), store(2, 4))
FULL_SCHEDULE = issues(1, 2, 3, 4, 0)
TWO_UNDEFINED = memory_of(None, None)


def operation_program(first, second, operation):
    return program_of(loadc(1, first), loadc(2, second), op(3, 1, 2, operation))


def examples(cases, rng):
    cases.all_kinds(FULL_RUN, TWO_UNDEFINED, FULL_SCHEDULE)
    pairs = ((LAST, 1, 0), (0, 1, 1), (LAST - 6, 2, 3), (7, 0, 3), (LAST, 0, 4), (65536, 65536, 2))
    for first, second, operation in pairs:  # P1 to P6
        cases.all_kinds(operation_program(first, second, operation), b"", issues(1, 2, 3))
    seven = bytes((1, 1, 0, 0, 6, 0, 0, 0))
    cases.all_kinds(seven, b"", issue(1))  # P7
    cases.all_kinds(with_byte(seven, 2, 1), b"", issue(1))  # P8
    cases.handed(op(1, 1, 1, 0), b"", issue(1), state_of(registers=((1, 5),)))  # P9
    for tail in (b"", at(2, 0), at(2, 0) + at(4, 0), at(2, 0) + at(4, 0) + at(5, 0)):
        cases.handed(op(1, 1, 1, 0), b"", issue(1) + tail, state_of(registers=((1, 5),)))
    cases.report(seven, b"", issue(1) + at(5, 0))  # P10
    cases.handed(seven, b"", at(5, 0), state_of((t_value(1, 6),), ((1, Tag(1)),), 1))
    cases.report(program_of(loadc(1, 0), store(1, 1), load(2, 1)), memory_of(7), issues(1, 0, 2) + at(6, 2))  # P11
    cases.handed(seven, memory_of(7), at(6, 1), state_of((t_store(0, 1), t_load(1, 0))))
    cases.handed(seven * 2, b"", at(9, 1), state_of((t_value(1, 6), t_jz(7, Tag(1), 1))))  # P12
    cases.handed(seven, b"", at(9, 0), state_of((t_jz(7, Tag(1)),)))  # no producer: not sound
    cases.all_kinds(load(1, 2), memory_of(None), issue(1))
    cases.all_kinds(program_of(loadc(31, 5), op(0, 31, 31, 0)), b"", issues(64, 1))
    cases.all_kinds(program_of(loadc(1, 1), load(2, 1)), memory_of(3, 4), issues(1, 2))
    cases.all_kinds(program_of(loadc(1, 2), load(2, 1)), memory_of(3, 4), issues(1, 2))


def easy_to_get_wrong(cases, rng):
    """Renaming, commits after a later rename, tags in use, waiting targets, holders."""
    twice = program_of(loadc(1, 5), loadc(1, 6), op(1, 1, 1, 0), op(2, 1, 1, 2))
    tails = (at(4, 0), at(4, 1), at(3, 0), at(5, 0), at(4, 1) + at(4, 0), at(5, 0) + at(4, 0), at(5, 0) + at(5, 0))
    for number, tail in itertools.product((2, 3, 4), tails):
        cases.report(twice, b"", issues(*range(1, number + 1)) + tail)
    for tail in (issue(1), at(4, 0) + issue(1), at(4, 0) + at(5, 0) + issue(1), issue(2) + issue(1),
                 issue(2) + at(5, 0) + issue(1), issue(2) + at(4, 1) + issue(2)):
        cases.report(twice, b"", issue(1) + tail)
    several = program_of(loadc(0, 4), op(1, 0, 0, 0), op(2, 0, 1, 1), op(3, 1, 0, 2), store(0, 0), load(4, 0))
    for tail in (b"", at(3, 0), at(3, 0) + at(3, 0), at(3, 0) + at(2, 1) + at(3, 1) + at(3, 1),
                 at(3, 0) + at(4, 0) + at(5, 0), at(3, 0) + at(5, 0), at(4, 0) + at(5, 0)):
        cases.report(several, memory_of(*(None,) * 5), issues(1, 2, 3, 4, 0, 5) + tail)
    target = program_of(loadc(1, 7), load(2, 9), jz(1, 2), loadpc(3))
    for tail in (at(9, 2), at(3, 0) + at(9, 2) + issue(3), at(3, 0) + at(8, 2), at(3, 0) + at(9, 2) + at(9, 2)):
        cases.report(target, b"", issues(1, 2, 0) + tail)
    undefined = program_of(loadc(1, 7), jz(1, 9), loadc(2, 0), jz(2, 9))
    cases.all_kinds(undefined, b"", issues(1, 0) + at(3, 0) + at(9, 1) + issues(2, 0))


# Operations.

def five_operations(first, second):
    return program_of(loadc(1, first), loadc(2, second), *(op(3 + n, 1, 2, n) for n in range(5)))


def operations(cases, rng):
    for number, (first, second) in enumerate(itertools.product(CORNERS, CORNERS)):
        program = five_operations(first, second)
        if number % 2 == 0:
            cases.report(program, b"", issues(*range(1, 8)))
        else:
            cases.in_order(program, b"", 100)
    for _ in range(60):
        first, second = (rng.below(1 << 32) >> rng.below(31) for _ in range(2))
        first, second = ((LAST + 1 - x) % (1 << 32) if rng.chance(50) else x for x in (first, second))
        cases.report(five_operations(first, second), b"", issues(*range(1, 8)))
        cases.in_order(five_operations(second, first), b"", 7)
    for operation in range(5):  # undefined operands overwrite a word
        start = [loadc(r, 6) for r in range(1, 5)]
        ops = [op(2, 1, 9, operation), op(3, 9, 1, operation), op(4, 9, 9, operation)]
        cases.all_kinds(program_of(*(start + ops)), b"", issues(*range(1, 8)))
        state = state_of((t_op(1, None, 6, operation), t_op(2, Tag(1), Tag(1), operation)), ((5, Tag(2)), (6, 1)))
        cases.handed(loadpc(0), b"", at(2, 0) + at(3, 0) + at(2, 1), state)


# Malformed records and buffers of a wrong size.

GOOD = (loadc(3, 6), loadpc(3), op(3, 4, 5, 4), jz(4, 5), load(3, 4), store(4, 5))
FILL = loadc(1, 1)


def placed(record, where, fill):
    """Three records with the given one first, in the middle or last."""
    return b"".join(record if number == where else fill for number in range(3))


def malformed_instructions(cases, rng):
    changes = [(byte, value) for byte in (1, 2, 3) for value in (1, 31, 32, 255)]
    changes += [(byte, value) for byte in (4, 5, 6, 7) for value in (1, 255)]
    for number, (record, (byte, value)) in enumerate(itertools.product(GOOD, changes)):
        program = placed(with_byte(record, byte, value), number % 3, FILL)
        if number % 5 == 4:
            cases.in_order(program, b"", 3)
        else:
            cases.report(program, b"", issues(1, 2, 3))
    for code, where in itertools.product((0, 7, 8, 129, 255), range(3)):
        cases.report(placed(with_byte(bytes(8), 0, code), where, FILL), b"", b"")
    for where in range(3):
        bad = placed(bytes(8), where, FILL)
        cases.all_kinds(bad, b"", issue(1))
        cases.all_kinds(bad[:8] + bytes(8) + bad[16:], b"", issue(1))
    for operation in (4, 5, 255, 256, 1 << 16, 1 << 24, 1 << 31, LAST):
        cases.report(op(1, 2, 3, operation), b"", issue(1))


def malformed_cells(cases, rng):
    good = (memory_of(None), memory_of(0), memory_of(9))
    for number, (cell, byte, value) in enumerate(itertools.product(good, range(8), (1, 2, 255))):
        memory = placed(with_byte(cell, byte, value), number % 3, memory_of(5))
        cases.report(program_of(loadc(0, number % 3), load(1, 0)), memory, issues(1, 2))
    for where in range(3):
        bad = placed(memory_of(None)[:7] + b"\1", where, memory_of(5))
        cases.all_kinds(FILL, bad, issue(1))
        cases.all_kinds(FILL, bad[:16] + bytes((2, 0, 0, 0, 0, 0, 0, 0)), issue(1))


def malformed_schedules(cases, rng):
    memory, state = bytearray(TWO_UNDEFINED), ax.State()
    ax.run(FULL_RUN, memory, FULL_SCHEDULE, state)
    schedule = FULL_SCHEDULE + b"".join(oldest_first(memory, state))
    cases.all_kinds(FULL_RUN, TWO_UNDEFINED, schedule)
    for index in range(len(schedule)):
        for value in ((0, 10, 255), (1, 4), (1, 66), (1, 255))[index % 4]:
            cases.report(FULL_RUN, TWO_UNDEFINED, with_byte(schedule, index, value))
    for rule in (0, 10, 128, 255):
        for where in range(3):
            cases.report(FILL * 3, b"", placed(at(rule, 0), where, issue(where + 1)))
    for rule, index in itertools.product(range(1, 10), (1, 2, 3)):
        record = with_byte(at(rule, 0), index, 1)
        cases.handed(FILL, b"", record, state_of((t_value(7, 5),), ((1, Tag(7)),)))


def wrong_sizes(cases, rng):
    good = (FULL_RUN, TWO_UNDEFINED, FULL_SCHEDULE)
    for file in range(3):
        size = 4 if file == 2 else 8
        for length in tuple(range(1, size)) + (size + 1, 2 * size - 1):
            buffers = list(good)
            buffers[file] = (buffers[file] * 2)[:length]
            cases.report(*buffers)
            if length in (1, size - 1, size + 1):
                cases.all_kinds(*buffers)
    for buffers in itertools.product(*((buffer, b"") for buffer in good)):
        cases.all_kinds(*buffers)
    cases.in_order(b"", b"", 0)
    cases.in_order(b"", b"", LAST)


def order_of_checks(cases, rng):
    """Each mixture of wrong size, malformed and good in the three files, with and without soundness."""
    programs = (FULL_RUN, FULL_RUN[:39], FULL_RUN[:16] + bytes(8))
    memories = (TWO_UNDEFINED, TWO_UNDEFINED[:15], memory_of(1) + bytes((2, 0, 0, 0, 0, 0, 0, 0)))
    schedules = (FULL_SCHEDULE, FULL_SCHEDULE[:19], FULL_SCHEDULE[:4] + bytes(4))
    for program, memory in itertools.product(programs, memories):
        cases.in_order(program, memory, 100)
        for schedule in schedules:
            cases.report(program, memory, schedule)
            cases.handed(program, memory, schedule, ax.State())
            cases.handed(program, memory, schedule, state_of(registers=((0, Tag(1)),)))


# Refusals 5 to 18, each first, in the middle and last.

def issue_scenarios():
    """(program, memory, what is accepted first, the refused record)"""
    writes = FILL * 4
    branch = program_of(loadc(1, 0), loadc(2, 50), jz(1, 2), FILL)
    filled = issues(*range(1, 65))
    jumped = issues(1, 2, 0) + at(3, 0) + at(3, 1) + at(8, 2)
    yield from ((writes, b"", issues(1, 2), record) for record in (at(0, 0), at(10, 0), at(5, 0)[:3] + b"\1",
                                                                  bytes((1, 1, 3, 0)), bytes((4, 1, 1, 0))))
    yield b"", b"", b"", issue(1)  # 6
    yield FILL * 2, b"", issues(1, 2), issue(3)
    yield branch, b"", jumped, issue(3)
    yield branch, b"", issues(1, 2, 0), issue(3)  # 7
    yield jz(1, 2), b"", issue(0), issue(0)
    yield FILL * 65, b"", filled, issue(64)  # 8
    yield FILL * 65, b"", filled, issue(65)
    yield FILL * 64 + store(1, 1), b"", filled, issue(0)
    yield from ((writes, b"", issues(64, 1), issue(tag)) for tag in (0, 1, 64, 65, 255))  # 9
    yield writes, b"", issues(5, 6) + at(4, 1), issue(6)
    yield writes, b"", b"", issue(0)
    yield program_of(FILL, jz(1, 1)), b"", issue(1), issue(2)
    yield program_of(FILL, store(1, 1)), b"", issue(1), issue(1)
    yield program_of(FILL, store(1, 1)), b"", issue(1), issue(2)


def value_scenarios():
    chain = program_of(loadc(1, 5), op(2, 1, 3, 0), op(4, 3, 2, 1), op(5, 2, 2, 2), loadc(1, 6))
    all_five = issues(1, 2, 3, 4, 5)
    for rule, place in itertools.product(range(2, 10), (5, 63, 64, 255)):  # 10
        if rule == 2 or place == 5:
            yield chain, b"", all_five, at(rule, place)
    yield chain, b"", b"", at(5, 0)
    for rule in (2, 6, 7, 8, 9):  # 11
        yield chain, b"", all_five, at(rule, 0)
    for rule in (3, 4, 5, 6, 7, 8, 9):
        yield chain, b"", all_five, at(rule, 1)
    for place in (1, 2, 3):  # 12
        yield chain, b"", all_five, at(2, place)
    yield chain, b"", all_five, at(4, 0)  # 13
    yield chain, b"", all_five, at(3, 4)
    yield chain, b"", all_five + at(3, 0), at(3, 0)
    yield chain, b"", all_five + at(4, 4), at(4, 4)
    yield chain, b"", all_five, at(5, 0)  # 14: a later template, a register, then both
    yield chain, b"", all_five, at(5, 4)
    yield chain, b"", issues(1, 2), at(5, 0)
    yield chain, b"", all_five + at(3, 0) + at(2, 1) + at(4, 1), at(5, 1)


def access_scenarios():
    memory = memory_of(4, None)
    start = program_of(loadc(1, 0), loadc(2, 2), loadc(3, LAST))
    ready = issues(1, 2, 3) + b"".join(at(4, p) for p in range(3))
    pairs = ((store(1, 3), load(4, 1)), (load(4, 1), load(5, 1)), (load(4, 1), store(1, 3)), (store(1, 3), store(1, 3)))
    for first, second in pairs:  # 15
        tag = 4 if first[0] == 5 else 0
        accepted = ready + issue(tag) + issue(5 if second[0] == 5 else 0)
        yield start + first + second, memory, accepted, at(second[0] + 1, 4)
    for access in (load(4, 2), store(2, 1), load(4, 3), store(3, 1), load(4, 9), store(9, 1)):  # 17, 17, 16
        yield start + access, memory, ready + issue(4 if access[0] == 5 else 0), at(access[0] + 1, 3)
    waiting = issues(1, 2, 3)
    for access in (load(4, 1), store(1, 9), store(9, 1), store(1, 2)):  # 12
        yield start + access, memory, waiting + issue(4 if access[0] == 5 else 0), at(access[0] + 1, 3)


def branch_scenarios():
    start = program_of(loadc(1, 0), loadc(2, 7))
    ready = issues(1, 2) + at(4, 0) + at(4, 1) + issue(0)
    for r1, r2, rule in ((1, 2, 9), (2, 1, 8), (2, 9, 8), (9, 1, 8), (9, 1, 9), (1, 9, 8)):  # 18, 18, 18, 16, 16, 16
        yield start + jz(r1, r2) + FILL, b"", ready, at(rule, 2)
    for r1, r2, rule in ((1, 9, 8), (1, 9, 9), (1, 2, 8)):  # 12
        yield start + jz(r1, r2) + FILL, b"", issues(1, 2, 0), at(rule, 2)
    yield start + jz(1, 2) + FILL, b"", issues(1, 2, 0) + at(3, 0), at(8, 2)


def refusals(cases, rng):
    """Each scenario with the refused record last, in the middle, first before others, and alone; and as steps."""
    scenarios = itertools.chain(issue_scenarios(), value_scenarios(), access_scenarios(), branch_scenarios())
    for program, memory, accepted, refused in scenarios:
        state, after = ax.State(), bytearray(memory)
        answer = ax.run(program, after, accepted, state)
        assert answer.refusal == ax.ACCEPTED
        tail = b"".join(oldest_first(bytearray(after), copy.deepcopy(state))[:2]) or issue(60)
        cases.report(program, memory, accepted + refused)
        cases.report(program, memory, accepted + refused + tail)
        cases.handed(program, bytes(after), refused + tail, state)
        if state.count < 10:
            cases.handed(program, bytes(after), refused, state)
            cases.steps(program, bytes(after), refused, state)


# Every rule on every kind, and every mixture of operands, from handed states.

TWO = program_of(loadc(1, 6), loadpc(2))


def rules_on_kinds(cases, rng):
    alone = (t_value(1, 3), t_op(1, 3, 4), t_jz(0, 1), t_load(1, 1), t_store(1, 3))
    for template, rule in itertools.product(alone, range(2, 10)):
        for before in ((), (t_value(2, None, 1),)):
            state = state_of(before + (template,), ((7, Tag(1)),) if template.tag else ())
            cases.handed(TWO, memory_of(4, None), at(rule, len(before)), state)


def branch_operands(cases, rng):
    for producer in (t_value(1, 0), t_load(1, 9)):
        for first, second in itertools.product((0, 1, LAST, None, Tag(1)), (0, 5, EIGHTH, None, Tag(1))):
            for rule in (8, 9):
                if producer.kind == VALUE or Tag(1) in (first, second):
                    state = state_of((producer, t_jz(first, second, 1)))
                    cases.handed(TWO, b"", at(rule, 1) + issue(2), state)


def holders(cases, rng):
    """A tag held near and far, by each operand of each kind, with retire and forward before and after."""
    makers = (lambda t: t_op(2, t, 1), lambda t: t_op(2, 1, t), lambda t: t_op(2, t, t), lambda t: t_load(2, t),
              lambda t: t_store(t, 1), lambda t: t_store(1, t), lambda t: t_jz(t, 1), lambda t: t_jz(1, t))
    schedules = (at(5, 0), at(3, 0) + at(5, 0), at(3, 0) + at(3, 0))
    for number, (make, distance) in enumerate(itertools.product(makers, (0, 1, 3))):
        between = tuple(t_value(10 + n, n) for n in range(distance))
        state = state_of((t_value(1, 1),) + between + (make(Tag(1)),))
        cases.handed(TWO, memory_of(4, None), schedules[0], state)
        cases.handed(TWO, memory_of(4, None), schedules[1 + number % 2], state)
    far = [t_value(tag, tag) for tag in range(1, 64)]
    for last in (t_op(64, 1, Tag(1)), t_store(Tag(1), 1), t_jz(1, Tag(1))):
        cases.handed(TWO, memory_of(4, None), at(5, 0) + at(3, 0), state_of(far + [last]))
        cases.handed(TWO, memory_of(4, None), at(3, 0) + at(5, 0) + issue(1), state_of(far + [last]))


def access_operands(cases, rng):
    addresses = (0, 1, 2, EIGHTH, LAST, None, Tag(1))
    earlier = ((), (t_op(2, 1, 1),), (t_load(2, 0),), (t_store(0, 8),))
    for address, before in itertools.product(addresses, earlier):
        templates = (t_value(1, 1),) + before
        state = state_of(templates + (t_load(3, address, 1),), ((0, Tag(3)),))
        cases.handed(TWO, memory_of(4, None), at(6, len(templates)), state)
        for data in (5, None, Tag(1)):
            state = state_of(templates + (t_store(address, data, 1),))
            cases.handed(TWO, memory_of(4, None), at(7, len(templates)), state)


def issue_operands(cases, rng):
    """Counter, room and tag mixed, for instructions that write and those that don't."""
    full = [t_value(tag, tag) for tag in range(1, 65)]
    for record in (FILL, store(1, 1), jz(1, 1)):
        for counter, tag in itertools.product((0, 1, 2, EIGHTH, LAST), (0, 1, 2, 64, 65, 255)):
            state = state_of((t_value(1, 9),), counter=counter)
            cases.handed(TWO[:8] + record, b"", issue(tag), state)
    for counter, tag in ((0, 0), (0, 1), (0, 64), (0, 65), (2, 0), (LAST, 1), (1, 0), (1, 1)):
        cases.handed(FILL + store(1, 1), b"", issue(tag) + at(5, 63), state_of(full, counter=counter))
    cases.handed(TWO, b"", issue(0), state_of(full[:63] + [t_jz(1, 1)]))
    for tag in (0, 1, 65):
        cases.handed(TWO, b"", issue(tag), state_of((t_jz(1, 1),)))
    for rule, place in itertools.product((3, 4, 5), (0, 31, 63, 64, 255)):
        cases.handed(TWO, b"", at(rule, place) + issue(1), state_of(full, ((5, Tag(64)), (6, Tag(1)))))


# Soundness, one clause at a time.

def sound_edges():
    """Pairs of program and state that are just sound."""
    full = [t_value(tag, tag) for tag in range(1, 65)]
    yield TWO, state_of(full)
    yield TWO, state_of((t_value(64, 0, 1), t_op(1, Tag(64), Tag(64), 4, 1)), ((0, Tag(1)), (31, Tag(64))))
    yield TWO, state_of(counter=LAST)
    yield b"", state_of()
    yield b"", state_of((), ((0, 1), (31, LAST)), LAST)
    yield TWO, state_of((t_load(1, 0), t_load(2, Tag(1)), t_store(Tag(2), Tag(1)), t_jz(Tag(2), Tag(1))))
    yield TWO, state_of((t_value(1, None),))


def unsound_tags():
    for tag in (0, 65, 255):
        for template in (t_value(tag, 1), t_op(tag, 1, 1), t_load(tag, 0)):
            yield TWO, state_of((template,))
            yield TWO, state_of((template,), ((3, Tag(tag)),))
    pair = (t_value(1, 1), t_op(1, 1, 1), t_load(1, 0))
    for first, second in itertools.product(pair, pair):
        yield TWO, state_of((first, t_value(2, 2), second))
    for tag in (0, 2, 64, 65, 255):
        yield TWO, state_of((t_value(1, 1),), ((31, Tag(tag)),))
        yield TWO, state_of((), ((0, Tag(tag)),))
    for r1, r2 in ((0, 31), (1, 2), (30, 31)):
        yield TWO, state_of((t_value(1, 1), t_value(2, 1)), ((r1, Tag(2)), (r2, Tag(2))))
    yield TWO, state_of((t_store(0, 0),), ((4, Tag(0)),))


def operand_edges():
    waiting = (lambda t: t_op(2, t, 1), lambda t: t_op(2, 1, t), lambda t: t_load(2, t), lambda t: t_store(t, 1),
               lambda t: t_store(1, t), lambda t: t_jz(t, 1), lambda t: t_jz(1, t))
    for make, tag in itertools.product(waiting, (0, 1, 2, 3, 65)):
        yield TWO, state_of((t_value(1, 1), make(Tag(tag))))
    for make in waiting[:5]:
        yield TWO, state_of((make(Tag(1)), t_value(1, 1)))


def unsound_stalls():
    branch = t_jz(1, 1)
    yield TWO, state_of((), counter=STALL)
    yield TWO, state_of((t_value(1, 1),), counter=STALL)
    yield TWO, state_of((t_store(1, 1),), counter=STALL)
    yield TWO, state_of((branch,), counter=0)
    yield TWO, state_of((t_value(1, 1), branch), counter=1)
    yield TWO, state_of((branch, branch))
    yield TWO, state_of((branch, t_value(1, 1)))
    yield TWO, state_of((branch, t_value(1, 1)), counter=STALL)
    yield TWO, state_of((branch, t_value(1, 1), branch))
    yield TWO, state_of((t_value(1, 1), branch, t_value(2, 1)))
    yield TWO, state_of((t_value(1, 1), branch), count=1)
    yield TWO, state_of((t_value(1, 1), branch), count=1, counter=0)


def field_edges():
    for address in (1, 2, 3, EIGHTH, LAST):
        for template in (t_value(1, 1, address), t_op(1, 1, 1, 0, address), t_load(1, 0, address),
                         t_store(0, 0, address), t_jz(1, 1, address)):
            yield TWO, state_of((template,))
    yield TWO, state_of((t_value(1, 1), t_value(2, 1, 2), t_value(3, 1)))
    yield b"", state_of((t_value(1, 1),))
    for operation in (4, 5, 6, 128, 255):
        yield TWO, state_of((t_op(1, 1, 1, operation),))
        yield TWO, state_of((t_value(2, 1), t_op(1, 1, 1, operation), t_value(3, 1)))


def blank_edges():
    others = (ax.BLANK._replace(address=1), ax.BLANK._replace(tag=1), ax.BLANK._replace(first=0), t_value(3, 7),
              ax.BLANK._replace(kind=OP), t_jz(None, None), t_load(0, None), t_store(None, None), ax.BLANK)
    for other, place in itertools.product(others, (1, 2, 63)):
        state = state_of((t_value(1, 1),))
        state.places[place] = other
        yield TWO, state
    for count in (2, 3, 63, 64, 65, 128, 255):
        yield TWO, state_of((t_value(1, 1),), count=count)
    for count in (0, 1, 64, 65, 255):
        yield TWO, state_of((), count=count)
    full = [t_value(tag, tag) for tag in range(1, 65)]
    for count in (0, 63, 65, 66, 255):
        yield TWO, state_of(full, count=count)
    for count in (64, 65):
        yield TWO, state_of([t_store(0, tag) for tag in range(64)], count=count)


def soundness(cases, rng):
    groups = (sound_edges(), unsound_tags(), operand_edges(), unsound_stalls(), field_edges(), blank_edges())
    for program, state in itertools.chain(*groups):
        cases.handed(program, memory_of(4, None), issue(60), state, rng.choose((0, 0, 3)))
        cases.steps(program, memory_of(4, None), bytes(4), state)  # 4 comes before 5
    for stored in (0, 1, 5, 64):
        cases.handed(TWO, memory_of(4), b"", state_of((t_value(1, 1),), ((0, Tag(1)),)), stored)


# Sizes and stops.

def sizes(cases, rng):
    tall = program_of(loadc(1, 0), loadc(2, 1023), jz(1, 2)) + FILL * 1020 + loadpc(9)
    jumped = issues(1, 2, 0) + at(3, 0) + at(3, 1) + at(8, 2) + issue(64)
    cases.report(tall, b"", jumped + issue(63))
    cases.in_order(tall, b"", 100)
    cases.report(tall + FILL, b"", jumped)
    cases.in_order(tall + FILL, b"", 100)
    cases.report(tall[:8184] + bytes(8), b"", jumped)
    ends = program_of(loadc(1, 1023), loadc(2, 1024), load(3, 1), store(1, 2), load(4, 2))
    wide = memory_of(*(None,) * 1023 + (77,))
    cases.report(ends, wide, issues(1, 2, 3, 0, 4))
    cases.in_order(ends, wide, 100)
    cases.report(ends, wide + memory_of(None), issues(1, 2, 3, 0, 4))
    cases.in_order(ends, wide + memory_of(None), 100)
    cases.report(ends, wide[:8184] + bytes((0, 0, 0, 0, 0, 0, 0, 1)), b"")
    cases.report(FILL, b"", bytes(4 * ax.SCHEDULE_LIMIT))
    cases.report(FILL, b"", bytes(4 * (ax.SCHEDULE_LIMIT + 1)))
    for number in (63, 64, 65):
        for length in (64, 65):
            cases.report(FILL * length, b"", issues(*range(1, number + 1)))
    chain = loadc(1, 1) + op(1, 1, 1, 0) * 63  # every template waits on the one before
    cases.report(chain, b"", issues(*range(64, 0, -1)))
    cases.report(chain, b"", issues(*range(64, 0, -1)) + at(3, 0) + at(2, 63))
    cases.in_order(chain, b"", LAST)


def stops(cases, rng):
    """A drain that ends at each kind of stop, with others waiting behind it."""
    start = program_of(loadc(1, 0), loadc(2, 2), loadc(3, 7))
    behind = program_of(op(5, 4, 1, 0), loadpc(6), op(7, 6, 6, 0), store(1, 5), load(8, 1), loadc(1, 9))
    accesses = (load(4, 9), load(4, 2), store(9, 3), store(2, 3), load(4, 1), store(1, 9))
    for first, second in itertools.product(accesses, (b"",) + accesses):
        program = start + first + second + behind
        tags = [0 if program[n] in (4, 6) else n // 8 + 1 for n in range(0, len(program), 8)]
        cases.report(program, memory_of(5, None), issues(*tags))
        cases.in_order(program, memory_of(5, None), 100)
        cases.handed(program, memory_of(5, None), issues(*tags[:-4]), ax.State())
    for r1, r2 in itertools.product((1, 3, 8, 9), repeat=2):
        program = start + load(8, 2) + jz(r1, r2) + behind
        for memory in (memory_of(5, None), memory_of(5, None, 0), memory_of(5, None, None)):
            cases.report(program, memory, issues(1, 2, 3, 4, 0))
            cases.in_order(program, memory, 100)


def jumps_and_memory(cases, rng):
    """Jumps out and to itself, wrapping addresses, undefined words stored and loaded."""
    for target in (0, 2, 3, 4, 5, 1023, 1024, EIGHTH, EIGHTH + 1, 1 << 31, LAST):
        program = program_of(loadc(1, 0), loadc(2, target), jz(1, 2), FILL)
        cases.report(program, b"", issues(1, 2, 0) + at(3, 0) + at(3, 1) + at(8, 2) + issue(3))
        cases.in_order(program, b"", 7)
        cases.in_order(program, b"", 3)
    for address in (0, 1, 2, 3, 1023, 1024, EIGHTH, EIGHTH + 1, 1 << 31, LAST):
        for access in (load(3, 1), store(1, 1), store(1, 9)):
            program = program_of(loadc(1, address), access, load(4, 1))
            cases.report(program, memory_of(5, None, 6), issues(1, 0 if access[0] == 6 else 2, 3))
            cases.in_order(program, memory_of(5, None, 6), 100)
    program = program_of(loadc(0, 0), load(1, 0), store(0, 9), load(1, 0), op(2, 1, 1, 0), store(0, 0), load(3, 0))
    cases.all_kinds(program, memory_of(5), issues(1, 2, 0, 3, 4, 0, 5))
    cases.all_kinds(program, memory_of(None), issues(1, 2, 0, 3, 4, 0, 5))
    for budget in range(9):
        cases.in_order(program, memory_of(5), budget)


# Random cases.

def random_in_order(cases, rng, program, memory):
    stops_soon = ax.in_order_run(program, bytearray(memory), 5000).stop != 0
    budgets = (0, 1, 2 + rng.below(20), 2 + rng.below(20), 5000, LAST if stops_soon else 4999)
    cases.in_order(program, memory, rng.choose(budgets))


def random_runs(cases, rng):
    """Allowed, damaged and wild schedules from the start state, and the same programs in order."""
    for number in range(380):
        memory = random_memory(rng)
        program = random_program(rng, len(memory) // 8)
        steps = rng.choose((3, 8, 15, 25))
        schedule = allowed_schedule(rng, program, bytearray(memory), ax.State(), steps, rng.choose((10, 40, 70, 95)))
        cases.report(program, memory, schedule)
        random_in_order(cases, rng, program, memory)
        if number % 2 == 0:
            cases.report(program, memory, damaged_schedule(rng, schedule))
        if number % 8 == 1:
            cases.report(program, memory, random_records(rng, 6))
        if number % 16 == 3:
            cases.report(program, memory, bytes(rng.below(256) for _ in range(4 * rng.below(4))))


def long_runs(cases, rng):
    """Many templates at once, and long schedules over loops."""
    for number in range(24):
        memory = random_memory(rng)
        program = loop_program(rng, len(memory) // 8) if number % 2 else straight_program(rng, len(memory) // 8) * 6
        schedule = allowed_schedule(rng, program, bytearray(memory), ax.State(), 150, (45, 60, 80, 98)[number % 4])
        cases.report(program, memory, schedule)
        cases.in_order(program, memory, len([1 for record in ax.records(schedule, 4) if record[0] == 1]))


def reached_states(cases, rng):
    """States reached by allowed rules, then handed over whole or damaged."""
    for number in range(240):
        memory = bytearray(random_memory(rng))
        program, state = random_program(rng, len(memory) // 8), ax.State()
        allowed_schedule(rng, program, memory, state, 1 + rng.below(20), rng.choose((40, 60, 90)))
        after, reached = bytearray(memory), copy.deepcopy(state)
        schedule = allowed_schedule(rng, program, after, reached, rng.choose((0, 2, 6, 12)), rng.choose((5, 40, 80)))
        if number % 5 == 0:
            schedule = damaged_schedule(rng, schedule)
        cases.handed(program, bytes(memory), schedule, state)
        if number % 3 == 0:
            damage_state(rng, state, len(program) // 8)
            cases.handed(program, bytes(memory), schedule, state)


def any_sound_states(cases, rng):
    """Sound states no schedule need reach, with every sort of schedule."""
    for number in range(240):
        memory, program = random_memory(rng), random_program(rng, 2)[:8 * rng.choose((1, 2, 4, 8))]
        state = sound_state(rng, len(program) // 8)
        reached = copy.deepcopy(state)
        steps, issue_percent = rng.choose((0, 3, 6)), rng.choose((5, 50))
        schedule = allowed_schedule(rng, program, bytearray(memory), reached, steps, issue_percent)
        if number % 4 == 0:
            schedule = random_records(rng, 4)
        cases.handed(program, memory, schedule, state)
        if number % 3 == 0:
            damage_state(rng, state, len(program) // 8)
            cases.handed(program, memory, schedule, state)


# What is called alone: operations, the records of programs and memory, the listing.

def operation_calls(cases, rng):
    """P1 to P6 first; then the corners of Div and Less, numbers that are no operation, and undefined operands."""
    words = ((0, LAST, 1), (1, 0, 1), (3, LAST - 6, 2), (3, 7, 0), (4, LAST, 0), (2, 65536, 65536), (3, 1 << 31, LAST),
             (3, 7, LAST - 1), (3, LAST - 6, LAST - 1), (3, 1 << 31, 1), (3, 1 << 31, 0), (4, 0, LAST),
             (4, 1 << 31, (1 << 31) - 1), (4, 7, 7), (2, LAST, LAST), (0, (1 << 31) - 1, 1), (5, 1, 1), (255, 1, 1))
    for operation, first, second in words:
        cases.operate(operation, first, second)
    for operation, (first, second) in itertools.product(range(6), ((None, 1), (1, None), (None, None))):
        cases.operate(operation, first, second)


def instruction_records(cases, rng):
    """P7 and P8 first; then codes, operations, the highest register and the next, each byte set to 1, and lengths."""
    seven = bytes((1, 1, 0, 0, 6, 0, 0, 0))
    alone = [seven, with_byte(seven, 2, 1), op(1, 2, 3, 4), op(1, 2, 3, 5), op(1, 2, 3, 255)]
    alone += [with_byte(bytes(8), 0, code) for code in (0, 7, 255)]
    fields = ((1, 1), (2, 1), (3, 1), (3, 2), (3, 3), (4, 2), (4, 3), (5, 1), (5, 2), (6, 2), (6, 3))
    alone += [with_byte(bytes((code,)) + bytes(7), byte, r) for code, byte in fields for r in (31, 32)]
    alone += [with_byte(record, byte, 1) for record in GOOD for byte in range(1, 8)]
    for record in alone + [b"", seven[:7], seven + bytes(1), bytes(9)]:
        cases.look(record, b"", 0)


def cell_records(cases, rng):
    cells = [with_byte(cell, byte, 1) for cell in (memory_of(None), memory_of(5)) for byte in range(8)]
    for cell in cells + [with_byte(bytes(8), 0, 2), with_byte(memory_of(5), 0, 255)]:
        cases.look(b"", cell, 0)


def largest_buffers(cases, rng):
    """Programs and memories of the largest size and around it; the first malformed record is named, behind a wrong length."""
    bad = bytes((7, 0, 0, 0, 0, 0, 0, 0))
    for length in (7, 8, 9, 8193, 8200):
        cases.look((loadpc(0) * 1025)[:length], bytes(length), 0)
    for address in (0, 1023, 1024, LAST):
        cases.look(loadpc(0) * 1024, bytes(8192), address)
    for places, lengths in (((1023,), (8184, 8192, 8200)), ((512, 1023), (8192,)), ((0, 512, 1023), (8, 9, 8192))):
        program, memory = loadpc(0) * 1025, bytes(8200)
        for place in places:
            program = program[:8 * place] + bad + program[8 * place + 8:]
            memory = memory[:8 * place] + bad + memory[8 * place + 8:]
        for length in lengths:
            cases.look(program[:length], memory[:length], places[-1] if length > 9 else 0)
    cases.look(loadpc(0) * 1023 + bad, b"", 1022)


def written_instructions(cases, rng):
    """Outputs that are too short, whole and longer; then malformed instructions, behind a short output."""
    for size in (7, 8, 10):
        cases.write(loadc(1, 6), b"\t" * size)
    for fields in (loadc(1, 305419896), loadc(31, LAST), loadpc(5), op(1, 2, 3, 4), jz(1, 2), load(4, 1), store(2, 4)):
        cases.write(fields, b"\t" * 10)
    for size in (7, 10):
        cases.write(loadc(32, 6), b"\t" * size)
    for fields in (loadpc(32), op(32, 0, 0, 0), op(0, 32, 0, 0), op(0, 0, 32, 0), op(0, 0, 0, 5), jz(32, 0), jz(0, 32),
                   load(32, 0), load(0, 32), store(32, 0), store(0, 32)):
        cases.write(fields, b"\t" * 8)


def loads_and_stores(cases, rng):
    """The first, the last and no cell, of three and of the most; memory is printed byte by byte after a store."""
    three, words = memory_of(None, None, None), memory_of(7, 305419896, LAST)
    cases.look(b"", b"", 0)
    for memory, address in itertools.product((three, words), (0, 1, 2, 3, LAST)):
        cases.look(b"", memory, address)
        for value in (305419896, LAST, None):
            cases.store(memory, address, value)
    largest = memory_of(*(None,) * 1023 + (6,))
    for address in (1022, 1023, 1024):
        cases.look(b"", largest, address)
    cases.store(bytes(8192), 1023, 6)
    cases.store(bytes(8192), 1024, 6)


def listings(cases, rng):
    """The scope paper's lines, the other words, rooms that just fit and don't, a malformed record, the longest listing."""
    cases.listing(FULL_RUN + program_of(jz(1, 2), load(4, 1), loadpc(5)), 248)
    cases.listing(program_of(loadc(31, LAST), op(10, 31, 0, 1), op(0, 10, 9, 2), op(1, 2, 3, 4)), 124)
    bad = loadc(1, 6) + bytes(8)
    for length, room in ((0, 0), (0, 5), (8, 30), (8, 31), (8, 40), (9, 62), (16, 62), (16, 61)):
        cases.listing(bad[:length], room)
    for count, room in ((1024, 31744), (1024, 31743), (1025, 31775)):
        cases.listing(loadc(31, LAST) * count, room)


# Single steps, with templates, counter and registers after each.

def full_run_by_steps(cases, rng):
    """The scope paper's run rule by rule; what is refused before any rule; 64 issues and one more."""
    memory, state = bytearray(TWO_UNDEFINED), ax.State()
    ax.run(FULL_RUN, memory, FULL_SCHEDULE, state)
    cases.steps(FULL_RUN, TWO_UNDEFINED, FULL_SCHEDULE + b"".join(oldest_first(memory, state)))
    two = program_of(loadc(1, 6), loadc(2, 0))
    cases.steps(two, TWO_UNDEFINED, issue(1)[:3])
    cases.steps(two[1:], TWO_UNDEFINED, issue(1))
    cases.steps(two, TWO_UNDEFINED[1:], issue(1))
    bad_cell = bytes((2, 0, 0, 0, 0, 0, 0, 0)) + memory_of(None)
    cases.steps(two, bad_cell, bytes(4))  # 3 before 5
    cases.steps(loadc(1, 6) + loadc(32, 0), bad_cell, bytes(4))  # 2 before 3
    for record in (bytes(4), at(10, 0), bytes((1, 1, 1, 0)), bytes((5, 0, 1, 0)), bytes((1, 0, 1, 1))):
        cases.steps(two, TWO_UNDEFINED, record)
    for length in (64, 65):
        cases.handed(loadc(1, 6) * length, TWO_UNDEFINED, issues(*range(1, 66)), ax.State())


def issue_steps(cases, rng):
    """What issue refuses, 6 to 9, and what it takes just beside that."""
    jump = program_of(loadc(1, 0), loadc(2, 1000), jz(1, 2))
    cases.steps(b"", TWO_UNDEFINED, issue(1))
    cases.steps(loadc(1, 6), TWO_UNDEFINED, issues(1, 2))
    cases.steps(loadc(1, 6), TWO_UNDEFINED, issue(1), state_of([t_value(tag, 6) for tag in range(1, 65)]))
    cases.steps(program_of(loadc(1, 6), jz(1, 1)), TWO_UNDEFINED, issues(1, 0, 2))
    cases.steps(jump, TWO_UNDEFINED, issue(1) + at(4, 0) + issue(2) + at(4, 1) + issue(0) + at(8, 2) + issue(3))
    for tag in (0, 1, 64, 65):
        cases.steps(loadc(1, 6) * 2, TWO_UNDEFINED, issues(1, tag))
    cases.steps(loadc(1, 6) * 2, TWO_UNDEFINED, issue(1) + at(4, 0) + issue(1))
    cases.steps(loadc(1, 6) * 2, TWO_UNDEFINED, issue(1) + at(4, 0) + at(5, 0) + issue(1))
    for record, tag in itertools.product((jz(1, 2), store(1, 2)), (0, 1)):
        cases.steps(record, TWO_UNDEFINED, issue(tag))


def value_steps(cases, rng):
    """10 to 14: no template there, another kind, operands that are tags, nobody and somebody who holds the tag."""
    waiting = program_of(loadc(1, 7), op(2, 1, 3, 0), jz(1, 2))
    for record in (at(2, 1), at(5, 255), at(3, 0)):
        cases.steps(waiting, TWO_UNDEFINED, issue(1) + record)
    for rule, place in ((2, 0), (3, 1), (4, 1), (5, 1), (6, 0), (7, 0), (8, 1), (9, 0), (2, 2)):
        cases.steps(waiting, TWO_UNDEFINED, issues(1, 2, 0) + at(rule, place))
    for tail in (at(2, 1), at(3, 0) + at(2, 1), at(3, 0) + at(3, 0), at(3, 0) + at(4, 0) + at(4, 0), at(3, 0) + at(5, 0),
                 at(3, 0) + at(4, 0) + at(5, 0), at(4, 0) + at(5, 0)):
        cases.steps(waiting, TWO_UNDEFINED, issues(1, 2) + tail)
    cases.steps(program_of(loadc(1, 7), op(2, 3, 1, 0)), TWO_UNDEFINED, issues(1, 2) + at(2, 1))
    for record in (at(4, 0), at(5, 0)):  # r1 is renamed by the second
        cases.steps(program_of(loadc(1, 6), loadc(1, 7)), TWO_UNDEFINED, issues(1, 2) + record)


def branch_steps(cases, rng):
    """12, 16 and 18: a condition and a target that are known, waiting or undefined."""
    seven = program_of(loadc(1, 7), op(2, 1, 3, 0), jz(1, 2))
    zero = program_of(loadc(1, 0), op(2, 1, 1, 3), jz(1, 2))
    for rule in (8, 9):
        cases.steps(seven, TWO_UNDEFINED, issues(1, 2, 0) + at(rule, 2))
        for program in (seven, zero):
            cases.steps(program, TWO_UNDEFINED, issues(1, 2, 0) + at(3, 0) + at(rule, 2))
        cases.steps(program_of(loadc(1, 0), jz(2, 1)), TWO_UNDEFINED, issues(1, 0) + at(rule, 1))
    cases.steps(zero, TWO_UNDEFINED, issues(1, 2, 0) + at(3, 0) + at(2, 1) + at(3, 1) + at(8, 2))


def access_steps(cases, rng):
    """12 and 15 to 17, the last cell and one past it; and drains that end blocked."""
    for address in (1, 2):
        for access, tag, rule in ((load(2, 1), 2, 6), (store(1, 2), 0, 7)):
            program = loadc(1, address) + access
            cases.steps(program, TWO_UNDEFINED, issues(1, tag) + at(rule, 1))
            cases.steps(program, TWO_UNDEFINED, issues(1, tag) + at(3, 0) + at(rule, 1))
            cases.handed(program, TWO_UNDEFINED, issues(1, tag), ax.State())
    data = loadc(1, 0) + store(2, 1)
    cases.steps(data, TWO_UNDEFINED, issues(1, 0) + at(7, 1))
    cases.steps(data, TWO_UNDEFINED, issues(1, 0) + at(3, 0) + at(7, 1))
    cases.steps(program_of(loadc(1, 0), store(1, 1), load(2, 1)), TWO_UNDEFINED, issues(1, 0, 2) + at(6, 2))
    cases.steps(program_of(loadc(1, 0), load(2, 1), store(1, 1)), TWO_UNDEFINED, issues(1, 2, 0) + at(7, 2))
    cases.steps(load(1, 2), TWO_UNDEFINED, issue(1) + at(6, 0))
    cases.handed(load(1, 2), TWO_UNDEFINED, issue(1), ax.State())
    cases.handed(loadpc(1) + jz(1, 2), TWO_UNDEFINED, issues(1, 0, 2), ax.State())


def unsound_steps(cases, rng):
    """States of two templates or none, each but four wrong in one thing, with a record that is malformed: 4 comes before 5."""
    two, words = program_of(loadc(1, 6), loadc(2, 0)), ((0, 1), (1, 2))
    sixes = (t_value(1, 6), t_value(2, 6))
    branch = t_jz(7, 0)
    states = [state_of((t_value(1, 6), t_op(2, Tag(1), 1, 4)), ((0, Tag(1)), (1, Tag(2))), 2)]
    states += [state_of((t_value(tag, 6), t_value(2, 6)), words, 2) for tag in (0, 2, 64, 65)]
    states += [state_of(sixes, registers, 2) for registers in (((0, Tag(3)), (1, 2)), ((0, Tag(1)), (1, Tag(1))))]
    states += [state_of((t_op(1, Tag(tag), 1), t_value(2, 6)), words, 2) for tag in (1, 2)]
    states += [state_of(sixes, words, 2, count) for count in (1, 65)]
    states += [state_of((t_op(1, 0, 1, 5), t_value(2, 6)), words, 2), state_of((t_value(1, 6), branch), words)]
    states += [state_of((t_value(1, 6), branch), words, 2), state_of(sixes, words, STALL)]
    states += [state_of((branch, branch), words), state_of((), words, 9)]
    for state in states:
        cases.steps(two, TWO_UNDEFINED, bytes(4), state)
    cases.steps(b"", TWO_UNDEFINED, bytes(4), state_of(sixes, words, 2))
    cases.handed(FULL_RUN, TWO_UNDEFINED, issue(1), state_of((), words, STALL))


GROUPS = (
    examples, easy_to_get_wrong, operations, malformed_instructions, malformed_cells, malformed_schedules,
    wrong_sizes, order_of_checks, refusals, rules_on_kinds, branch_operands, holders, access_operands,
    issue_operands, soundness, sizes, stops, jumps_and_memory, random_runs, long_runs, reached_states, any_sound_states,
    operation_calls, instruction_records, cell_records, largest_buffers, written_instructions, loads_and_stores, listings,
    full_run_by_steps, issue_steps, value_steps, branch_steps, access_steps, unsound_steps,
)


def all_cases():
    """Every case, in the file's form; each group has its own fixed seed."""
    cases = Cases()
    for number, group in enumerate(GROUPS):
        group(cases, Random(SEED + number))
    return cases.encoded


def main(data_path, text_path):
    cases = all_cases()
    with open(data_path, "wb") as data:
        data.write(struct.pack("<II", 0, len(cases)) + b"".join(cases))
    with open(text_path, "w", encoding="ascii", newline="\n") as text:
        for number, case in enumerate(cases):
            text.write("case %d\n%s" % (number, case_text(case)))


if __name__ == "__main__":
    if len(sys.argv) != 3:
        sys.exit("usage: python3 generate.py DATA STDOUT")
    main(sys.argv[1], sys.argv[2])
