"""A second model of the AX processor: both machines, their runs and the report, in the papers' words."""

from collections import namedtuple
from enum import IntEnum

REGISTERS, PLACES, LAST_TAG = 32, 64, 64
PROGRAM_LIMIT, MEMORY_LIMIT = 1024, 1024
SCHEDULE_LIMIT = 16384  # in the report only: a run takes a schedule of any length
LISTING_BYTES = 31  # what a listing needs for each instruction
WORDS = 1 << 32
STALL = "stall"
ACCEPTED = 0


class Refusal(IntEnum):
    """The numbers for no, each with the scope paper's words."""
    BUFFER = 1  # a buffer isn't whole records, is over its limit, or an output is too short
    INSTRUCTION = 2  # a malformed instruction
    CELL = 3  # a malformed cell
    UNSOUND = 4  # state not sound
    RECORD = 5  # malformed schedule record
    NO_INSTRUCTION = 6  # issue: no instruction there
    STALLED = 7  # issue: stalled
    FULL = 8  # issue: 64 templates
    TAG = 9  # issue: tag wrong or in use
    NO_TEMPLATE = 10  # no template at the place
    KIND = 11  # not of the rule's kind
    WAITING = 12  # a needed operand is a tag
    NO_HOLDER = 13  # nothing holds the tag to forward or commit
    HELD = 14  # retire: the tag is held
    EARLIER = 15  # an earlier Load or Store
    UNDEFINED = 16  # undefined address, condition or taken target
    OUTSIDE = 17  # address outside memory
    CONDITION = 18  # jump with non-zero condition, or no-jump with zero


# Values and operations. A value is None (undefined) or an int from 0 to 2^32 - 1 (a word).

def signed(word):
    """The word read as two's complement."""
    return word - WORDS if word >= WORDS // 2 else word


def divide(first, second):
    """Rounds toward zero; a zero divisor gives undefined."""
    if second == 0:
        return None
    a, b = signed(first), signed(second)
    size = abs(a) // abs(b)
    return (size if (a < 0) == (b < 0) else -size) % WORDS


OPERATIONS = (
    ("Add", lambda first, second: (first + second) % WORDS),
    ("Sub", lambda first, second: (first - second) % WORDS),
    ("Mul", lambda first, second: (first * second) % WORDS),
    ("Div", divide),
    ("Less", lambda first, second: 1 if signed(first) < signed(second) else 0),
)


def result(operation, first, second):
    """The value of an operation on two values; a number that is no operation makes no word (docs/DECISIONS.md)."""
    if first is None or second is None or operation >= len(OPERATIONS):
        return None
    return OPERATIONS[operation][1](first, second)


# Records.

def whole(buffer, size, limit=None):
    """Whether the buffer (None: a file that can't be opened) is whole records within its limit."""
    if buffer is None or len(buffer) % size != 0:
        return False
    return limit is None or len(buffer) // size <= limit


def records(buffer, size):
    return [bytes(buffer[start:start + size]) for start in range(0, len(buffer), size)]


class Code(IntEnum):
    LOADC, LOADPC, OP, JZ, LOAD, STORE = 1, 2, 3, 4, 5, 6


Instruction = namedtuple("Instruction", "code r r1 r2 constant")

USED = {  # the fields each code uses; every other field must be zero
    Code.LOADC: ("r", "constant"), Code.LOADPC: ("r",), Code.OP: ("r", "r1", "r2", "constant"),
    Code.JZ: ("r1", "r2"), Code.LOAD: ("r", "r1"), Code.STORE: ("r1", "r2"),
}


def well_formed(instruction):
    if instruction.code not in USED:
        return False
    for field in ("r", "r1", "r2", "constant"):
        if field not in USED[instruction.code] and getattr(instruction, field) != 0:
            return False
    if max(instruction.r, instruction.r1, instruction.r2) >= REGISTERS:
        return False
    return instruction.code != Code.OP or instruction.constant < len(OPERATIONS)


def read_instruction(record):
    """The refusal (0 if none) and the instruction read from exactly 8 bytes."""
    if len(record) != 8:
        return Refusal.BUFFER, None
    instruction = Instruction(*record[0:4], int.from_bytes(record[4:8], "little"))
    return (ACCEPTED, instruction) if well_formed(instruction) else (Refusal.INSTRUCTION, None)


def write_instruction(instruction, output):
    """Fills the first 8 bytes of the output and answers the refusal (0 if none)."""
    if len(output) < 8:
        return Refusal.BUFFER
    if not well_formed(instruction):
        return Refusal.INSTRUCTION
    output[0:8] = bytes(instruction[0:4]) + instruction.constant.to_bytes(4, "little")
    return ACCEPTED


def fetch(program, address):
    """The refusal (0 if none) and the instruction at an address; 2 where it is malformed (docs/DECISIONS.md)."""
    if address >= len(program) // 8:
        return Refusal.NO_INSTRUCTION, None
    return read_instruction(records(program, 8)[address])


def scan_program(program):
    """The number of the first malformed instruction, or None; and the instructions."""
    instructions = [read_instruction(record)[1] for record in records(program, 8)]
    return (instructions.index(None) if None in instructions else None), instructions


def scan_memory(memory):
    """The number of the first malformed cell, or None: mark, three zeros, word (0 if undefined)."""
    for number, cell in enumerate(records(memory, 8)):
        if cell[0] > 1 or any(cell[1:4]) or (cell[0] == 0 and any(cell[4:8])):
            return number
    return None


# Memory: a bytearray of cells, kept in the records' form throughout.

def load_cell(memory, address):
    """The value of a cell; another mark than 1 is undefined (docs/DECISIONS.md)."""
    cell = memory[8 * address:8 * address + 8]
    return int.from_bytes(cell[4:8], "little") if cell[0] == 1 else None


def store_cell(memory, address, value):
    mark, word = (0, 0) if value is None else (1, value)
    memory[8 * address:8 * address + 8] = bytes((mark, 0, 0, 0)) + word.to_bytes(4, "little")


def address_refusal(memory, address):
    """Why the value can't be used as a data address (0 if it can)."""
    if address is None:
        return Refusal.UNDEFINED
    return Refusal.OUTSIDE if address >= len(memory) // 8 else ACCEPTED


# Listing.

def listing_line(address, i):
    """One line of the listing, with its newline."""
    if i.code == Code.LOADC:
        text = "r%d := Loadc(%d)" % (i.r, i.constant)
    elif i.code == Code.LOADPC:
        text = "r%d := Loadpc" % i.r
    elif i.code == Code.OP:
        text = "r%d := %s(r%d,r%d)" % (i.r, OPERATIONS[i.constant][0], i.r1, i.r2)
    elif i.code == Code.JZ:
        text = "Jz(r%d,r%d)" % (i.r1, i.r2)
    elif i.code == Code.LOAD:
        text = "r%d := Load(r%d)" % (i.r, i.r1)
    else:
        text = "Store(r%d,r%d)" % (i.r1, i.r2)
    return "%d: %s\n" % (address, text)


def listing(program, output):
    """Writes the text at the start of the output: refusal, record number, bytes written."""
    if not whole(program, 8, PROGRAM_LIMIT) or len(output) < LISTING_BYTES * (len(program) // 8):
        return Refusal.BUFFER, 0, 0
    malformed, instructions = scan_program(program)
    if malformed is not None:
        return Refusal.INSTRUCTION, malformed, 0
    text = "".join(listing_line(a, i) for a, i in enumerate(instructions)).encode("ascii")
    output[0:len(text)] = text
    return ACCEPTED, 0, len(text)


# The in-order machine.

Machine = namedtuple("Machine", "counter registers")
InOrderRun = namedtuple("InOrderRun", "executed stop record machine")
IN_ORDER_START = Machine(0, (None,) * REGISTERS)


def jz_step(machine, condition, target):
    """A target is needed only by a taken jump."""
    if condition is None or (condition == 0 and target is None):
        return machine, Refusal.UNDEFINED
    return machine._replace(counter=target if condition == 0 else machine.counter + 1), ACCEPTED


def in_order_step(program, memory, machine):
    """One instruction: the next machine and the stop (0 if none); a stop changes nothing."""
    if machine.counter >= len(program):
        return machine, Refusal.NO_INSTRUCTION
    i = program[machine.counter]
    first, second = machine.registers[i.r1], machine.registers[i.r2]
    if i.code == Code.JZ:
        return jz_step(machine, first, second)
    if i.code in (Code.LOAD, Code.STORE) and address_refusal(memory, first):
        return machine, address_refusal(memory, first)
    registers = list(machine.registers)
    if i.code == Code.LOADC:
        registers[i.r] = i.constant
    elif i.code == Code.LOADPC:
        registers[i.r] = machine.counter
    elif i.code == Code.OP:
        registers[i.r] = result(i.constant, first, second)
    elif i.code == Code.LOAD:
        registers[i.r] = load_cell(memory, first)
    else:
        store_cell(memory, first, second)
    return Machine(machine.counter + 1, tuple(registers)), ACCEPTED


def in_order_run(program, memory, number, machine=IN_ORDER_START):
    """At most the given number of instructions, after the checks 1 to 3; memory changes in place."""
    refusal, record = check(program, memory)
    if refusal:
        return InOrderRun(0, refusal, record, machine)
    instructions = scan_program(program)[1]
    for executed in range(number):
        machine, stop = in_order_step(instructions, memory, machine)
        if stop:
            return InOrderRun(executed, stop, 0, machine)
    return InOrderRun(number, ACCEPTED, 0, machine)


# The renaming machine's state. A register or operand holds None, a word or a Tag.

Tag = namedtuple("Tag", "number")
VALUE, OP, JZ, LOAD, STORE = "value", "Op", "Jz", "Load", "Store"  # the kinds of template

# A value template keeps its value as first operand; what a kind doesn't use is 0 or None.
Template = namedtuple("Template", "address kind tag operation first second")
BLANK = Template(0, VALUE, 0, 0, None, None)


class State:
    """Counter (an address or STALL), registers, and 64 places of which the first count are templates."""

    def __init__(self):
        self.counter = 0
        self.registers = [None] * REGISTERS
        self.count = 0
        self.places = [BLANK] * PLACES

    def templates(self):
        return self.places[:self.count]

    def remove(self, place):
        """Later templates move down one place; the freed place is left blank."""
        self.places = self.places[:place] + self.places[place + 1:] + [BLANK]
        self.count -= 1


def is_tag(content):
    return isinstance(content, Tag)


def holds(template, tag):
    return Tag(tag) in (template.first, template.second)


def produced(templates):
    """The tags the templates produce, oldest first."""
    return [t.tag for t in templates if t.kind in (VALUE, OP, LOAD)]


def differ(numbers):
    return len(set(numbers)) == len(numbers)


def operands_sound(templates):
    """Each operand tag has a producer at an earlier place."""
    for place, t in enumerate(templates):
        for operand in (t.first, t.second):
            if is_tag(operand) and operand.number not in produced(templates[:place]):
                return False
    return True


def stall_sound(counter, templates):
    """Stall holds exactly when the last template is a Jz, and no other is."""
    last_is_jz = len(templates) > 0 and templates[-1].kind == JZ
    return (counter == STALL) == last_is_jz and all(t.kind != JZ for t in templates[:-1])


def sound(state, program_length):
    """Every clause of soundness."""
    if state.count > PLACES:
        return False
    templates, tags = state.templates(), produced(state.templates())
    held = [content.number for content in state.registers if is_tag(content)]
    return (all(1 <= tag <= LAST_TAG for tag in tags) and differ(tags)
            and all(tag in tags for tag in held) and differ(held)
            and operands_sound(templates) and stall_sound(state.counter, templates)
            and all(t.address < program_length for t in templates)
            and all(t.operation < len(OPERATIONS) for t in templates if t.kind == OP)
            and all(place == BLANK for place in state.places[state.count:]))


# The nine rules. Each answers its refusal (0 if none); a refusal changes nothing.

class Rule(IntEnum):
    ISSUE, OPERATE, FORWARD, COMMIT, RETIRE, LOAD, STORE, JUMP, NO_JUMP = 1, 2, 3, 4, 5, 6, 7, 8, 9


def new_template(i, address, registers, tag):
    """The template of an instruction, with the operands' present contents."""
    first, second = registers[i.r1], registers[i.r2]
    if i.code == Code.LOADC:
        return Template(address, VALUE, tag, 0, i.constant, None)
    if i.code == Code.LOADPC:
        return Template(address, VALUE, tag, 0, address, None)
    if i.code == Code.OP:
        return Template(address, OP, tag, i.constant, first, second)
    if i.code == Code.LOAD:
        return Template(address, LOAD, tag, 0, first, None)
    return Template(address, JZ if i.code == Code.JZ else STORE, 0, 0, first, second)


def issue(program, state, tag):
    if state.counter == STALL:
        return Refusal.STALLED
    if state.counter >= len(program):
        return Refusal.NO_INSTRUCTION
    if state.count >= PLACES:
        return Refusal.FULL
    i = program[state.counter]
    writes = i.code not in (Code.JZ, Code.STORE)
    if writes and (not 1 <= tag <= LAST_TAG or tag in produced(state.templates())):
        return Refusal.TAG
    if not writes and tag != 0:
        return Refusal.TAG
    state.places[state.count] = new_template(i, state.counter, state.registers, tag)
    state.count += 1
    if writes:
        state.registers[i.r] = Tag(tag)  # only now: the operands are already read
    state.counter = STALL if i.code == Code.JZ else state.counter + 1
    return ACCEPTED


def become_value(state, place, value):
    t = state.places[place]
    state.places[place] = Template(t.address, VALUE, t.tag, 0, value, None)


def operate(memory, state, place):
    t = state.places[place]
    if is_tag(t.first) or is_tag(t.second):
        return Refusal.WAITING
    become_value(state, place, result(t.operation, t.first, t.second))
    return ACCEPTED


def forward(memory, state, place):
    """Fills every later template, both operands."""
    tag, value = state.places[place].tag, state.places[place].first
    later = [p for p in range(place + 1, state.count) if holds(state.places[p], tag)]
    for p in later:
        t = state.places[p]
        first = value if t.first == Tag(tag) else t.first
        second = value if t.second == Tag(tag) else t.second
        state.places[p] = t._replace(first=first, second=second)
    return ACCEPTED if later else Refusal.NO_HOLDER


def commit(memory, state, place):
    """Fills the register that holds the tag, if any: a later instruction may have renamed it."""
    tag, value = state.places[place].tag, state.places[place].first
    if Tag(tag) not in state.registers:
        return Refusal.NO_HOLDER
    state.registers[state.registers.index(Tag(tag))] = value
    return ACCEPTED


def retire(memory, state, place):
    tag = state.places[place].tag
    if Tag(tag) in state.registers or any(holds(t, tag) for t in state.templates()[place + 1:]):
        return Refusal.HELD
    state.remove(place)
    return ACCEPTED


def access_refusal(memory, state, place):
    """What load and store share: 15, 12 (a Store needs its data too), 16, 17."""
    t = state.places[place]
    if any(earlier.kind in (LOAD, STORE) for earlier in state.places[:place]):
        return Refusal.EARLIER
    if is_tag(t.first) or is_tag(t.second):
        return Refusal.WAITING
    return address_refusal(memory, t.first)


def load(memory, state, place):
    refusal = access_refusal(memory, state, place)
    if not refusal:
        become_value(state, place, load_cell(memory, state.places[place].first))
    return refusal


def store(memory, state, place):
    refusal = access_refusal(memory, state, place)
    if not refusal:
        store_cell(memory, state.places[place].first, state.places[place].second)
        state.remove(place)
    return refusal


def needed_refusal(content):
    """Why a condition or target can't be used (0 if it can)."""
    if is_tag(content):
        return Refusal.WAITING
    return Refusal.UNDEFINED if content is None else ACCEPTED


def jump(memory, state, place):
    t = state.places[place]
    refusal = needed_refusal(t.first)
    if not refusal and t.first != 0:
        refusal = Refusal.CONDITION
    refusal = refusal or needed_refusal(t.second)
    if not refusal:
        state.remove(place)
        state.counter = t.second
    return refusal


def no_jump(memory, state, place):
    """Doesn't look at the target."""
    t = state.places[place]
    refusal = needed_refusal(t.first)
    if not refusal and t.first == 0:
        refusal = Refusal.CONDITION
    if not refusal:
        state.remove(place)
        state.counter = t.address + 1
    return refusal


PLACE_RULES = {  # for each rule but issue: the kind of template it needs, and what it does
    Rule.OPERATE: (OP, operate), Rule.FORWARD: (VALUE, forward), Rule.COMMIT: (VALUE, commit),
    Rule.RETIRE: (VALUE, retire), Rule.LOAD: (LOAD, load), Rule.STORE: (STORE, store),
    Rule.JUMP: (JZ, jump), Rule.NO_JUMP: (JZ, no_jump),
}


def at_place(memory, state, rule, place):
    """A rule other than issue, at a place."""
    if place >= state.count:
        return Refusal.NO_TEMPLATE
    kind, apply = PLACE_RULES[rule]
    if state.places[place].kind != kind:
        return Refusal.KIND
    return apply(memory, state, place)


def step(program, memory, state, record):
    """One schedule record on a sound state: the refusal (0 if accepted)."""
    rule, place, tag, zero = record
    if not 1 <= rule <= 9 or zero != 0 or (place if rule == Rule.ISSUE else tag) != 0:
        return Refusal.RECORD
    return issue(program, state, tag) if rule == Rule.ISSUE else at_place(memory, state, rule, place)


# Steps, runs and drains of any state. State and memory are changed in place, by the accepted part only.

Run = namedtuple("Run", "accepted issued refusal record")
Drain = namedtuple("Drain", "refusal record applied blocked")  # blocked: (address, refusal) or None


def check(program, memory, schedule=b"", state=None):
    """The checks 1 to 4, made once: refusal (0 if none) and record number."""
    if not (whole(program, 8, PROGRAM_LIMIT) and whole(memory, 8, MEMORY_LIMIT) and whole(schedule, 4)):
        return Refusal.BUFFER, 0
    if scan_program(program)[0] is not None:
        return Refusal.INSTRUCTION, scan_program(program)[0]
    if scan_memory(memory) is not None:
        return Refusal.CELL, scan_memory(memory)
    if state is not None and not sound(state, len(program) // 8):
        return Refusal.UNSOUND, 0
    return ACCEPTED, 0


def checked_step(program, memory, record, state):
    """The checks 1 to 4, then one record of exactly 4 bytes: refusal (0 if none) and record number."""
    refusal, number = (Refusal.BUFFER, 0) if len(record) != 4 else check(program, memory, record, state)
    return (refusal, number) if refusal else (step(scan_program(program)[1], memory, state, record), 0)


def run(program, memory, schedule, state):
    """Steps until the first refused record."""
    refusal, number = check(program, memory, schedule, state)
    if refusal:
        return Run(0, 0, refusal, number)
    instructions, accepted, issued = scan_program(program)[1], 0, 0
    for record in records(schedule, 4):
        refusal = step(instructions, memory, state, record)
        if refusal:
            break
        accepted += 1
        issued += 1 if record[0] == Rule.ISSUE else 0
    return Run(accepted, issued, refusal, 0)


def drain_step(memory, state):
    """The lowest allowed rule at the lowest place that has one; whether there was any."""
    for place in range(state.count):
        for rule in sorted(PLACE_RULES):
            if at_place(memory, state, rule, place) == ACCEPTED:
                return True
    return False


def drain(program, memory, state):
    """Oldest first until no rule other than issue is allowed."""
    refusal, number = check(program, memory, b"", state)
    if refusal:
        return Drain(refusal, number, 0, None)
    applied = 0
    while drain_step(memory, state):
        applied += 1
    if state.count == 0:
        return Drain(ACCEPTED, 0, applied, None)
    oldest = state.places[0]
    rule = {LOAD: Rule.LOAD, STORE: Rule.STORE, JZ: Rule.JUMP}[oldest.kind]
    return Drain(ACCEPTED, 0, applied, (oldest.address, at_place(memory, state, rule, 0)))


# The report of one run in full.

def content_lines(counter, registers, memory):
    """Counter, then each register and each cell that isn't undefined."""
    lines = ["pc %s" % counter]
    for number, content in enumerate(registers):
        if is_tag(content):
            lines.append("r%d t%d" % (number, content.number))
        elif content is not None:
            lines.append("r%d %d" % (number, content))
    for address in range(len(memory) // 8):
        if load_cell(memory, address) is not None:
            lines.append("m%d %d" % (address, load_cell(memory, address)))
    return lines


def drained_lines(program, memory, state):
    """Drains, then says how it ended and what is left."""
    answer = drain(program, memory, state)
    if answer.blocked is None:
        first = "drained %d" % answer.applied
    else:
        first = "blocked %d by %d after %d" % (answer.blocked + (answer.applied,))
    return [first] + content_lines(state.counter, state.registers, memory)


def refused_input(program, memory, schedule):
    """File, refusal and record number of refused input, or None."""
    limits = ((program, 8, PROGRAM_LIMIT), (memory, 8, MEMORY_LIMIT), (schedule, 4, SCHEDULE_LIMIT))
    for file, (buffer, size, limit) in enumerate(limits, 1):
        if not whole(buffer, size, limit):
            return file, Refusal.BUFFER, 0
    refusal, number = check(program, memory)
    return ({Refusal.INSTRUCTION: 1, Refusal.CELL: 2}[refusal], refusal, number) if refusal else None


def report(program, memory, schedule):
    """The text printed for the three files, from the start state."""
    refused = refused_input(program, memory, schedule)
    if refused is not None:
        return "input %d %d %d\n" % refused
    memory, state = bytearray(memory), State()
    answer = run(program, memory, schedule, state)
    lines = ["accepted %d refused %d" % (answer.accepted, answer.refusal), "issued %d" % answer.issued]
    return "".join(line + "\n" for line in lines + drained_lines(program, memory, state))
