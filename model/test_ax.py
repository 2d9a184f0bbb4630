"""Tests of the second model against the scope paper's examples and against itself."""

import copy
import unittest

import ax
import generate as g
from ax import STALL, Instruction, Machine, Refusal, State, Tag
from generate import at, issue, issues, jz, load, loadc, loadpc, memory_of, op, program_of, state_of, store
from generate import t_jz, t_load, t_op, t_store, t_value

LAST = (1 << 32) - 1
ADD, SUB, MUL, DIV, LESS = range(5)


def run(program, memory, schedule, state=None):
    """The run's answer, the state and the memory after it."""
    state, memory = state or State(), bytearray(memory)
    return ax.run(program, memory, schedule, state), state, memory


def refusal(program, memory, schedule, state=None):
    return run(program, memory, schedule, state)[0].refusal


def report_lines(program, memory, schedule):
    return ax.report(program, memory, schedule).splitlines()


class Refusals(unittest.TestCase):
    def test_numbers(self):
        self.assertEqual([int(r) for r in Refusal], list(range(1, 19)))


class Operations(unittest.TestCase):
    def test_p1_to_p6(self):
        self.assertEqual(ax.result(ADD, 4294967295, 1), 0)
        self.assertEqual(ax.result(SUB, 0, 1), 4294967295)
        self.assertEqual(ax.result(DIV, 4294967289, 2), 4294967293)
        self.assertIsNone(ax.result(DIV, 7, 0))
        self.assertEqual(ax.result(LESS, 4294967295, 0), 1)
        self.assertEqual(ax.result(MUL, 65536, 65536), 0)

    def test_division_corners(self):
        self.assertEqual(ax.result(DIV, 1 << 31, LAST), 1 << 31)
        self.assertEqual(ax.result(DIV, 7, LAST - 1), LAST - 2)
        self.assertEqual(ax.result(DIV, LAST - 6, LAST - 1), 3)
        self.assertEqual(ax.result(DIV, 1, LAST - 1), 0)
        self.assertIsNone(ax.result(DIV, 0, 0))

    def test_less_is_signed(self):
        self.assertEqual(ax.result(LESS, 0, LAST), 0)
        self.assertEqual(ax.result(LESS, 1 << 31, (1 << 31) - 1), 1)
        self.assertEqual(ax.result(LESS, 5, 5), 0)

    def test_undefined_operands(self):
        for operation in range(5):
            for first, second in ((None, 1), (1, None), (None, None)):
                self.assertIsNone(ax.result(operation, first, second))

    def test_a_number_that_is_no_operation(self):
        self.assertEqual([ax.result(number, 1, 1) for number in (5, 255)], [None, None])


class Records(unittest.TestCase):
    P7 = bytes((1, 1, 0, 0, 6, 0, 0, 0))

    def test_p7_and_p8(self):
        self.assertEqual(ax.read_instruction(self.P7), (0, Instruction(1, 1, 0, 0, 6)))
        self.assertEqual(ax.read_instruction(g.with_byte(self.P7, 2, 1)), (2, None))

    def test_reader_takes_exactly_eight_bytes(self):
        for length in (0, 7, 9, 16):
            self.assertEqual(ax.read_instruction((self.P7 * 2)[:length]), (1, None))

    def test_writer(self):
        output = bytearray(b"?" * 10)
        self.assertEqual(ax.write_instruction(Instruction(1, 1, 0, 0, 6), output), 0)
        self.assertEqual(output, self.P7 + b"??")
        self.assertEqual(ax.write_instruction(Instruction(1, 1, 1, 0, 6), output), 2)
        self.assertEqual(ax.write_instruction(Instruction(1, 1, 1, 0, 6), bytearray(7)), 1)
        self.assertEqual(output, self.P7 + b"??")

    def test_every_good_record_is_written_as_read(self):
        for record in g.GOOD:
            output = bytearray(8)
            ax.write_instruction(ax.read_instruction(record)[1], output)
            self.assertEqual(output, record)

    def test_malformed_instructions(self):
        for code, used in ((1, (1, 4, 5, 6, 7)), (2, (1,)), (3, (1, 2, 3, 4)), (4, (2, 3)), (5, (1, 2)), (6, (2, 3))):
            for byte in range(1, 8):
                record = g.with_byte(bytes((code,)) + bytes(7), byte, 1)
                self.assertEqual(ax.read_instruction(record)[0], 0 if byte in used else 2)
        self.assertEqual(ax.read_instruction(op(31, 31, 31, 4))[0], 0)
        for record in (op(32, 0, 0, 0), op(0, 32, 0, 0), op(0, 0, 32, 0), op(0, 0, 0, 5), bytes(8), b"\7" + bytes(7)):
            self.assertEqual(ax.read_instruction(record)[0], 2)

    def test_fetch(self):
        program = self.P7 + bytes(8) + self.P7[:7]
        self.assertEqual([ax.fetch(program, address)[0] for address in (0, 1, 2, LAST)], [0, 2, 6, 6])
        self.assertEqual(ax.fetch(program, 0)[1], Instruction(1, 1, 0, 0, 6))

    def test_cells(self):
        for cell, good in ((memory_of(None), True), (memory_of(0), True), (memory_of(LAST), True),
                           (bytes((2, 0, 0, 0, 0, 0, 0, 0)), False), (bytes((0, 0, 0, 0, 0, 0, 0, 1)), False),
                           (bytes((1, 1, 0, 0, 0, 0, 0, 0)), False), (bytes((0, 0, 0, 1, 0, 0, 0, 0)), False)):
            self.assertEqual(ax.scan_memory(memory_of(1) + cell), None if good else 1)

    def test_memory_keeps_its_form(self):
        memory = bytearray(memory_of(5, 6))
        ax.store_cell(memory, 0, None)
        ax.store_cell(memory, 1, LAST)
        self.assertEqual(memory, memory_of(None, LAST))
        self.assertEqual((ax.load_cell(memory, 0), ax.load_cell(memory, 1)), (None, LAST))

    def test_malformed_schedule_records(self):
        bad = ((0, 0, 0, 0), (10, 0, 0, 0), (1, 1, 1, 0), (1, 0, 1, 1), (4, 0, 1, 0), (4, 0, 0, 1))
        for record in (bytes(four) for four in bad):
            self.assertEqual(refusal(loadc(1, 6), b"", issue(1) + record), 5)
        self.assertEqual(refusal(loadc(1, 6), b"", issue(255)), 9)
        self.assertEqual(refusal(loadc(1, 6), b"", at(4, 255)), 10)


class Renaming(unittest.TestCase):
    def test_p9(self):
        answer, state, _ = run(op(1, 1, 1, ADD), b"", issue(1), state_of(registers=((1, 5),)))
        self.assertEqual(answer, (1, 1, 0, 0))
        self.assertEqual(state.templates(), [t_op(1, 5, 5, ADD)])
        self.assertEqual(state.registers[1], Tag(1))
        self.assertEqual(state.counter, 1)

    def test_p10(self):
        state = state_of((t_value(1, 6),), ((1, Tag(1)),))
        self.assertEqual(refusal(loadc(1, 6), b"", at(5, 0), state), 14)

    def test_p11(self):
        state = state_of((t_store(0, 1), t_load(1, 0)))
        self.assertEqual(refusal(loadc(1, 6), memory_of(7), at(6, 1), state), 15)

    def test_p12(self):
        answer, state, _ = run(loadc(1, 6), b"", at(9, 1), state_of((t_value(1, 6), t_jz(7, Tag(1)))))
        self.assertEqual(answer, (1, 0, 0, 0))
        self.assertEqual((state.counter, state.templates()), (1, [t_value(1, 6)]))

    def test_value_templates_at_once(self):
        program = program_of(loadc(1, 6), loadpc(2), load(3, 1), store(3, 2), jz(1, 9))
        _, state, _ = run(program, b"", issues(1, 2, 3, 0, 0))
        self.assertEqual(state.templates(), [
            t_value(1, 6), t_value(2, 1, 1), t_load(3, Tag(1), 2), t_store(Tag(3), Tag(2), 3), t_jz(Tag(1), None, 4)])
        self.assertEqual(state.counter, STALL)

    def test_forward_fills_every_later_operand(self):
        program = program_of(loadc(1, 6), op(2, 1, 1, ADD), store(9, 1))
        _, state, _ = run(program, b"", issues(1, 2, 0) + at(3, 0))
        self.assertEqual(state.templates()[1:], [t_op(2, 6, 6, ADD, 1), t_store(None, 6, 2)])
        self.assertEqual(state.registers[1], Tag(1))

    def test_removal_leaves_the_blank(self):
        _, state, _ = run(loadc(1, 6) * 2, b"", issues(1, 2) + at(5, 0))
        self.assertEqual(state.places, [t_value(2, 6, 1)] + [ax.BLANK] * 63)

    def test_a_waiting_op_or_load_is_never_retired(self):
        self.assertEqual(refusal(loadc(1, 6), b"", at(5, 0), state_of((t_op(1, 1, 1),))), 11)
        self.assertEqual(refusal(loadc(1, 6), b"", at(5, 0), state_of((t_load(1, 1),))), 11)


class RunOnly(unittest.TestCase):
    def test_64_issues(self):
        program = loadc(1, 6) * 65
        self.assertEqual(run(program, b"", issues(*range(1, 65)))[0], (64, 64, 0, 0))
        self.assertEqual(run(program, b"", issues(*range(1, 66)))[0], (64, 64, 8, 0))

    def test_tags(self):
        self.assertEqual([refusal(loadc(1, 6), b"", issue(t)) for t in (0, 1, 64, 65, 255)], [9, 0, 0, 9, 9])
        self.assertEqual([refusal(store(1, 1), b"", issue(t)) for t in (0, 1)], [0, 9])
        self.assertEqual([refusal(jz(1, 1), b"", issue(t)) for t in (0, 1)], [0, 9])

    def test_registers(self):
        self.assertEqual(report_lines(loadc(31, 5) + op(0, 31, 31, ADD), b"", issues(1, 2))[-2:], ["r0 10", "r31 5"])
        self.assertEqual(ax.report(loadc(31, 5) + op(0, 32, 31, ADD), b"", b""), "input 1 2 1\n")

    def test_sizes(self):
        nothing = "accepted 0 refused 0\nissued 0\ndrained 0\npc 0\n"
        for count, program_text, memory_text in ((1024, nothing, nothing), (1025, "input 1 1 0\n", "input 2 1 0\n")):
            self.assertEqual(ax.report(loadc(1, 6) * count, b"", b""), program_text)
            self.assertEqual(ax.report(b"", memory_of(*(None,) * count), b""), memory_text)
        self.assertEqual(ax.report(b"", b"", bytes(4 * 16385)), "input 3 1 0\n")
        self.assertEqual(report_lines(b"", b"", issue(1) * 16384)[0], "accepted 0 refused 6")

    def test_last_cell_and_one_past(self):
        for address, expected in ((1, 0), (2, 17)):
            program = loadc(1, address) + load(2, 1)
            self.assertEqual(refusal(program, memory_of(3, 4), issues(1, 2) + at(3, 0) + at(6, 1)), expected)
            self.assertEqual(ax.in_order_run(program, bytearray(memory_of(3, 4)), 2).stop, expected)

    def test_blocked_load(self):
        lines = report_lines(load(1, 2), memory_of(None), issue(1))
        self.assertEqual(lines, ["accepted 1 refused 0", "issued 1", "blocked 0 by 16 after 0", "pc 1", "r1 t1"])


class Listing(unittest.TestCase):
    PROGRAM = program_of(loadc(1, 6), loadc(2, 0), op(3, 1, 2, DIV), op(4, 1, 1, ADD), store(2, 4), jz(1, 2),
                         load(4, 1), loadpc(5))

    def test_lines(self):
        output = bytearray(b"?" * 31 * 8)
        answer = ax.listing(self.PROGRAM, output)
        text = (b"0: r1 := Loadc(6)\n1: r2 := Loadc(0)\n2: r3 := Div(r1,r2)\n3: r4 := Add(r1,r1)\n4: Store(r2,r4)\n"
                b"5: Jz(r1,r2)\n6: r4 := Load(r1)\n7: r5 := Loadpc\n")
        self.assertEqual(answer, (0, 0, len(text)))
        self.assertEqual(output, text + b"?" * (31 * 8 - len(text)))

    def test_longest_line(self):
        output = bytearray(31 * 1024)
        answer = ax.listing(loadc(31, LAST) * 1024, output)
        self.assertEqual(output[answer[2] - 31:answer[2]], b"1023: r31 := Loadc(4294967295)\n")

    def test_operations(self):
        for number, name in enumerate(("Add", "Sub", "Mul", "Div", "Less")):
            line = ax.listing_line(0, ax.read_instruction(op(1, 2, 3, number))[1])
            self.assertEqual(line, "0: r1 := %s(r2,r3)\n" % name)

    def test_refusals(self):
        self.assertEqual(ax.listing(self.PROGRAM, bytearray(31 * 8 - 1)), (1, 0, 0))
        self.assertEqual(ax.listing(self.PROGRAM[:-1], bytearray(31 * 8)), (1, 0, 0))
        self.assertEqual(ax.listing(self.PROGRAM + bytes(8), bytearray(31 * 9)), (2, 8, 0))
        self.assertEqual(ax.listing(b"", bytearray()), (0, 0, 0))


class Report(unittest.TestCase):
    def test_one_run_in_full(self):
        self.assertEqual(ax.report(g.FULL_RUN, g.TWO_UNDEFINED, g.FULL_SCHEDULE), (
            "accepted 5 refused 0\n"
            "issued 5\n"
            "drained 14\n"
            "pc 5\n"
            "r1 6\n"
            "r2 0\n"
            "r4 12\n"
            "m0 12\n"))

    def test_refused_input(self):
        bad_cell = bytes((2, 0, 0, 0, 0, 0, 0, 0))
        for buffers, text in (((b"1", b"1", b"1"), "input 1 1 0\n"), ((bytes(8), b"1", b"1"), "input 2 1 0\n"),
                              ((bytes(8), bad_cell, b"1"), "input 3 1 0\n"), ((None, b"", b""), "input 1 1 0\n"),
                              ((b"", b"", None), "input 3 1 0\n"),
                              ((loadc(1, 6) + bytes(8), bad_cell, b""), "input 1 2 1\n"),
                              ((loadc(1, 6), memory_of(1, 2) + bad_cell, bytes(4)), "input 2 3 2\n")):
            self.assertEqual(ax.report(*buffers), text)

    def test_malformed_schedule_record_ends_the_run(self):
        lines = report_lines(loadc(1, 6) * 2, b"", issue(1) + bytes(4) + issue(2))
        self.assertEqual(lines, ["accepted 1 refused 5", "issued 1", "drained 2", "pc 1", "r1 6"])

    def test_stall_and_tags_print(self):
        lines = report_lines(load(4, 9) + jz(4, 4), b"", issues(7, 0))
        self.assertEqual(lines[2:], ["blocked 0 by 16 after 0", "pc stall", "r4 t7"])


class EasyToGetWrong(unittest.TestCase):
    def test_operands_are_read_before_the_destination_is_renamed(self):
        lines = report_lines(loadc(1, 5) + op(1, 1, 1, ADD), b"", issues(1, 2))
        self.assertEqual(lines[2:], ["drained 5", "pc 2", "r1 10"])

    def test_commit_goes_to_the_holder_of_the_tag(self):
        program = loadc(1, 5) + loadc(1, 6)
        answer, state, _ = run(program, b"", issues(1, 2) + at(4, 0))
        self.assertEqual((answer.refusal, state.registers[1]), (13, Tag(2)))
        _, state, _ = run(program, b"", issues(1, 2) + at(4, 1))
        self.assertEqual(state.registers[1], 6)

    def test_a_tag_is_in_use_while_a_template_produces_it(self):
        program = loadc(1, 5) * 3
        self.assertEqual(refusal(program, b"", issue(1) + at(4, 0) + issue(1)), 9)
        self.assertEqual(refusal(program, b"", issues(1, 2) + issue(1)), 9)
        self.assertEqual(refusal(program, b"", issue(1) + at(4, 0) + at(5, 0) + issue(1)), 0)

    def test_no_jump_needs_no_target(self):
        for target in (Tag(1), None, LAST):
            state = state_of((t_load(1, None), t_jz(7, target)))
            self.assertEqual(refusal(loadc(1, 6), b"", at(9, 1), state), 0)


class InOrder(unittest.TestCase):
    def check_stop(self, program, memory, counter, stop):
        memory = bytearray(memory)
        answer = ax.in_order_run(program, memory, 100)
        self.assertEqual((answer.stop, answer.machine.counter), (stop, counter))

    def test_stops(self):
        zero, two = loadc(1, 0), loadc(2, 2)
        self.check_stop(b"", b"", 0, 6)
        self.check_stop(zero + loadc(2, 50) + jz(1, 2), b"", 50, 6)
        self.check_stop(zero + jz(9, 1), b"", 1, 16)
        self.check_stop(zero + jz(1, 9), b"", 1, 16)
        self.check_stop(two + jz(2, 9), b"", 2, 6)
        self.check_stop(load(1, 9), memory_of(1), 0, 16)
        self.check_stop(two + load(1, 2), memory_of(1, 1), 1, 17)
        self.check_stop(two + store(9, 2), memory_of(1), 1, 16)
        self.check_stop(two + store(2, 2), memory_of(1, 1), 1, 17)
        self.check_stop(zero + store(1, 9), memory_of(1), 2, 6)

    def test_budget_and_step(self):
        program = program_of(loadpc(1), loadpc(2), op(1, 1, 2, SUB))
        self.assertEqual(ax.in_order_run(program, bytearray(), 0)[:3], (0, 0, 0))
        self.assertEqual(ax.in_order_run(program, bytearray(), 3)[:3], (3, 0, 0))
        self.assertEqual(ax.in_order_run(program, bytearray(), 4)[:3], (3, 6, 0))
        self.assertEqual(ax.in_order_run(program, bytearray(), 3).machine.registers[1:3], (LAST, 1))

    def test_a_stop_changes_nothing(self):
        machine = Machine(0, (3,) * 32)
        instructions = ax.scan_program(store(1, 2))[1]
        memory = bytearray(memory_of(5))
        self.assertEqual(ax.in_order_step(instructions, memory, machine), (machine, 17))
        self.assertEqual(memory, memory_of(5))

    def test_checks(self):
        self.assertEqual(ax.in_order_run(bytes(8), bytearray(7), 9)[:3], (0, 1, 0))
        self.assertEqual(ax.in_order_run(loadc(1, 6) + bytes(8), bytearray(b"\2" * 8), 9)[:3], (0, 2, 1))
        self.assertEqual(ax.in_order_run(loadc(1, 6), bytearray(memory_of(1) + b"\2" * 8), 9)[:3], (0, 3, 1))


class Soundness(unittest.TestCase):
    def all_sound(self, pairs, expected):
        for program, state in pairs:
            self.assertEqual(ax.sound(state, len(program) // 8), expected, vars(state))

    def test_edges_are_sound(self):
        self.all_sound(g.sound_edges(), True)

    def test_tags(self):
        self.all_sound(g.unsound_tags(), False)

    def test_stalls(self):
        self.all_sound(g.unsound_stalls(), False)

    def test_operand_tags(self):
        for tag, expected in ((1, True), (0, False), (2, False), (3, False)):
            for last in (t_op(2, Tag(tag), 1), t_op(2, 1, Tag(tag)), t_load(2, Tag(tag)), t_store(1, Tag(tag))):
                self.assertEqual(ax.sound(state_of((t_value(1, 1), last)), 1), expected)
        self.assertFalse(ax.sound(state_of((t_op(2, Tag(1), 1), t_value(1, 1))), 1))

    def test_addresses_and_operations(self):
        self.assertTrue(ax.sound(state_of((t_value(1, 1, 1),)), 2))
        self.assertFalse(ax.sound(state_of((t_value(1, 1, 2),)), 2))
        self.assertTrue(ax.sound(state_of((t_op(1, 1, 1, 4),)), 2))
        self.assertFalse(ax.sound(state_of((t_op(1, 1, 1, 5),)), 2))

    def test_places_past_the_last(self):
        for change in ({"address": 1}, {"tag": 1}, {"first": 0}, {"kind": ax.OP}, {"kind": ax.JZ}):
            for place in (1, 63):
                state = state_of((t_value(1, 1),))
                state.places[place] = ax.BLANK._replace(**change)
                self.assertFalse(ax.sound(state, 1))
        self.assertFalse(ax.sound(state_of((t_value(1, 1),), count=2), 1))
        self.assertFalse(ax.sound(state_of((), count=65), 1))

    def test_an_unsound_state_is_refused_and_kept(self):
        state = state_of((), ((0, Tag(1)),))
        self.assertEqual(run(loadc(1, 6), b"", issue(1), state)[0], (0, 0, 4, 0))
        self.assertEqual(ax.drain(loadc(1, 6), bytearray(), state), (4, 0, 0, None))
        self.assertEqual(vars(state), vars(state_of((), ((0, Tag(1)),))))


class Order(unittest.TestCase):
    """Which refusal is given when several apply."""

    def test_checks(self):
        bad, cell, unsound = bytes(8), b"\2" + bytes(7), state_of((), ((0, Tag(1)),))
        self.assertEqual(run(bad, cell, b"1", unsound)[0], (0, 0, 1, 0))
        self.assertEqual(run(bad, cell, bytes(4), unsound)[0], (0, 0, 2, 0))
        self.assertEqual(run(b"", cell, bytes(4), unsound)[0], (0, 0, 3, 0))
        self.assertEqual(run(b"", b"", bytes(4), unsound)[0], (0, 0, 4, 0))
        self.assertEqual(run(b"", b"", bytes(4))[0], (0, 0, 5, 0))

    def test_checks_of_a_step(self):
        bad, cell, unsound = loadc(1, 6) + bytes(8), memory_of(1) + b"\2" + bytes(7), state_of((), ((0, Tag(1)),))
        self.assertEqual(ax.checked_step(bad, cell, issue(1)[:3], unsound), (1, 0))
        self.assertEqual(ax.checked_step(bad, cell, issue(1) * 2, unsound), (1, 0))
        self.assertEqual(ax.checked_step(bad, cell, bytes(4), unsound), (2, 1))
        self.assertEqual(ax.checked_step(b"", cell, bytes(4), unsound), (3, 1))
        self.assertEqual(ax.checked_step(b"", b"", bytes(4), unsound), (4, 0))
        self.assertEqual(ax.checked_step(b"", b"", bytes(4), State()), (5, 0))
        self.assertEqual(ax.checked_step(loadc(1, 6), b"", issue(1), State()), (0, 0))

    def test_issue(self):
        full = [t_value(tag, 0) for tag in range(1, 65)]
        self.assertEqual(refusal(loadc(1, 6), b"", issue(0), state_of(full[:63] + [t_jz(1, 1)])), 7)
        self.assertEqual(refusal(loadc(1, 6), b"", issue(0), state_of(full, counter=1)), 6)
        self.assertEqual(refusal(loadc(1, 6), b"", issue(0), state_of(full)), 8)
        self.assertEqual(refusal(loadc(1, 6), b"", issue(0), state_of(full[:63])), 9)

    def access(self, template, rule, before=()):
        state = state_of((t_value(1, 0),) + before + (template,))
        return refusal(loadc(1, 6), memory_of(1), at(rule, 1 + len(before)), state)

    def test_load_and_store(self):
        earlier = (t_load(2, None),)
        self.assertEqual(self.access(t_load(3, Tag(1)), 6, earlier), 15)
        self.assertEqual(self.access(t_store(None, Tag(1)), 7, earlier), 15)
        self.assertEqual(self.access(t_store(None, Tag(1)), 7), 12)
        self.assertEqual(self.access(t_store(1, Tag(1)), 7), 12)
        self.assertEqual(self.access(t_store(None, None), 7), 16)
        self.assertEqual(self.access(t_store(1, None), 7), 17)
        self.assertEqual(self.access(t_store(0, None), 7), 0)
        self.assertEqual(self.access(t_load(3, None), 6), 16)
        self.assertEqual(self.access(t_load(3, 1), 6), 17)

    def test_jump_and_no_jump(self):
        tag = Tag(1)
        expected = {(tag, None): (12, 12), (None, tag): (16, 16), (7, tag): (18, 0), (7, None): (18, 0),
                    (0, tag): (12, 18), (0, None): (16, 18), (0, 9): (0, 18), (7, 9): (18, 0)}
        for (condition, target), answers in expected.items():
            got = tuple(self.access(t_jz(condition, target), rule) for rule in (8, 9))
            self.assertEqual(got, answers)


class AgainstInOrder(unittest.TestCase):
    """The renaming machine against the in-order machine, on random programs and allowed schedules."""

    def random_start(self, rng):
        memory = g.random_memory(rng)
        return g.random_program(rng, len(memory) // 8), memory

    def test_run_then_drain(self):
        rng = g.Random()
        stopped = 0
        for _ in range(400):
            program, start = self.random_start(rng)
            steps, issue_percent = 1 + rng.below(60), rng.choose((10, 40, 70, 95))
            schedule = g.allowed_schedule(rng, program, bytearray(start), State(), steps, issue_percent)
            answer, state, memory = run(program, start, schedule)
            self.assertEqual((answer.accepted, answer.refusal), (len(schedule) // 4, 0))
            drained = ax.drain(program, memory, state)
            in_order_memory = bytearray(start)
            expected = ax.in_order_run(program, in_order_memory, answer.issued)
            self.assertEqual(memory, in_order_memory)
            if expected.stop:
                stopped += 1
                self.assertIn(expected.stop, (16, 17))
                self.assertEqual(drained.blocked, (expected.machine.counter, expected.stop))
            else:
                self.assertIsNone(drained.blocked)
                self.assertEqual(Machine(state.counter, tuple(state.registers)), expected.machine)
        self.assertTrue(50 < stopped < 350)

    def test_continuations_without_issue(self):
        """At most four rules for each template, and all orders end alike."""
        rng = g.Random(7)
        for number in range(400):
            program, memory = self.random_start(rng)
            state, memory = State(), bytearray(memory)
            if number % 2:
                state = g.sound_state(rng, len(program) // 8)
            g.allowed_schedule(rng, program, memory, state, rng.below(30), 70)
            held, drained, drained_memory = state.count, copy.deepcopy(state), bytearray(memory)
            schedule = g.allowed_schedule(rng, program, memory, state, 4 * 64 + 1, 0)
            self.assertLessEqual(len(schedule) // 4, 4 * held)
            ax.drain(program, drained_memory, drained)
            self.assertEqual((vars(state), memory), (vars(drained), drained_memory))

    def test_steps_keep_soundness_and_refusals_change_nothing(self):
        rng = g.Random(8)
        for _ in range(300):
            program, memory = self.random_start(rng)
            memory, state = bytearray(memory), g.sound_state(rng, len(program) // 8)
            instructions = ax.scan_program(program)[1]
            self.assertTrue(ax.sound(state, len(instructions)))
            for record in ax.records(g.random_records(rng, 12), 4):
                before = (copy.deepcopy(vars(state)), bytes(memory))
                if ax.step(instructions, memory, state, record):
                    self.assertEqual((vars(state), memory), before)
                self.assertTrue(ax.sound(state, len(instructions)))
                self.assertIsNone(ax.scan_memory(memory))


class Generator(unittest.TestCase):
    def lines(self, add):
        """What is printed for the one case that is added."""
        cases = g.Cases()
        add(cases)
        return g.case_text(cases.encoded[0]).splitlines()

    def test_a_case_is_read_as_written(self):
        case = g.encode_case(3, (b"program", b"", b"schedule", b"rest"), 7, LAST)
        self.assertEqual(g.decode_case(case), (3, 7, LAST, [b"program", b"", b"schedule", b"rest"]))

    def test_a_step_shows_templates_counter_and_registers(self):
        program = program_of(loadc(1, 6), op(2, 1, 9, DIV))
        self.assertEqual(self.lines(lambda cases: cases.steps(program, memory_of(None, 7), issues(1, 2) + b"\1")), [
            "refused 0 record 0", "0: value 1 0 6 -", "pc 1", "r1 t1", "m1 7",
            "refused 0 record 0", "0: value 1 0 6 -", "1: Op 2 3 t1 -", "pc 2", "r1 t1", "r2 t2", "m1 7",
            "refused 1 record 0", "0: value 1 0 6 -", "1: Op 2 3 t1 -", "pc 2", "r1 t1", "r2 t2", "m1 7"])

    def test_a_run_and_a_drain(self):
        self.assertEqual(self.lines(lambda cases: cases.handed(load(1, 2), memory_of(None), issue(1), State())), [
            "accepted 1 issued 1 refused 0 record 0", "0: Load 1 0 - -", "pc 1", "r1 t1",
            "drained 0 address 0 refused 16 record 0", "0: Load 1 0 - -", "pc 1", "r1 t1"])
        self.assertEqual(self.lines(lambda cases: cases.handed(b"", b"1", b"", State())), [
            "accepted 0 issued 0 refused 1 record 0", "drained 0 address 0 refused 1 record 0"])

    def test_what_is_called_alone(self):
        self.assertEqual(self.lines(lambda cases: cases.look(op(1, 2, 3, LESS), memory_of(5) + b"\2" + bytes(7), 1)), [
            "read Op 1 2 3 4", "fetch refused 6", "program 0 record 0", "memory 3 record 1", "load -"])
        self.assertEqual(self.lines(lambda cases: cases.write(loadc(1, 6), b"\t" * 9)), ["write 0 1 1 0 0 6 0 0 0 9"])
        self.assertEqual(self.lines(lambda cases: cases.store(memory_of(5), 0, None)), ["store 0 0 0 0 0 0 0 0 0"])
        self.assertEqual(self.lines(lambda cases: cases.store(memory_of(5), 1, 6)), ["store 17 1 0 0 0 5 0 0 0"])
        self.assertEqual(self.lines(lambda cases: cases.listing(loadpc(5), 31)), [
            "listed 0 record 0 bytes 16", "0: r5 := Loadpc", "." * 15])
        self.assertEqual(self.lines(lambda cases: cases.operate(DIV, 7, 0)), ["result -"])

    def test_numbers_never_change(self):
        rng = g.Random()
        self.assertEqual([rng.below(1000) for _ in range(6)], [592, 489, 394, 661, 148, 874])

    def test_states_are_read_as_written(self):
        rng = g.Random(9)
        for number in range(100):
            state = g.sound_state(rng, 5)
            g.damage_state(rng, state, 5)
            decoded = g.decode_state(g.encode_state(state, number % 65))
            self.assertEqual(vars(decoded), vars(state))


if __name__ == "__main__":
    unittest.main()
