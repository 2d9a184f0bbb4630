"""Measures the three programs on the library, on the Rust and on Maude, and prints the rates and their ratios."""

import itertools
import os
import re
import shutil
import subprocess
import sys
import tempfile
from collections import namedtuple

HERE = os.path.dirname(os.path.abspath(__file__))
sys.path[:0] = [os.path.join(HERE, "maude"), os.path.join(HERE, "..", "model")]

import cases
import terms

PARTS = {"run": "rules", "drain": "rules", "inorder": "instructions"}  # in the order of the arguments; what is counted
LEAST_SECONDS, ROUNDS, TARGET = 0.3, 3, 20
Task = namedtuple("Task", "case folder part once")  # once: what the second model says one repetition does

METHOD = """
Processor time of whole processes, less that of a process that repeats nothing; at least %.1f s, the best of %d.
Each repetition of ours and of the Rust starts from the same state and with memory restored, and that counts in both;
Maude's terms don't change, so nothing is restored there. Ours and the Rust check their input; Maude does not.
What each said it did was compared with the second model.""" % (LEAST_SECONDS, ROUNDS)


class Native:
    """The program of the library, or the Rust: three arguments say how often each part is done."""

    def __init__(self, path):
        self.path = os.path.abspath(path)

    def command(self, task, times):
        return [self.path] + [str(times if part == task.part else 0) for part in PARTS]

    def done(self, task, output):
        line = re.search(r"^%s (\d+) refused (\d+) pc (\w+)$" % task.part, output, re.MULTILINE)
        return line and cases.Done(int(line[1]), int(line[2]), line[3])


class Maude:
    """Maude on the case's terms. It has no numbers for no: a rule that isn't allowed leaves another term."""

    def command(self, task, times):
        path = os.path.join(task.folder, "command.maude")
        with open(path, "w", encoding="utf-8") as file:
            file.write("load case\n%s\nquit\n" % terms.command(task.part, times, task.once.rules))
        return ["maude", "-no-banner", path]

    def done(self, task, output):
        line = re.search(r"^result DONE: done\((\d+), (\w+)\)$", output, re.MULTILINE)
        return line and cases.Done(int(line[1]), 0, line[2].lower())


def seconds(machine, task, times):
    """The processor time of a process that does the part so many times; what it says it did is checked."""
    process = subprocess.Popen(machine.command(task, times), cwd=task.folder, stdin=subprocess.DEVNULL,
                               stdout=subprocess.PIPE, stderr=subprocess.STDOUT)
    output = process.stdout.read().decode()
    _, process.returncode, usage = os.wait4(process.pid, 0)
    wanted = task.once._replace(rules=times * task.once.rules)
    if process.returncode != 0 or (times > 0 and machine.done(task, output) != wanted):
        sys.exit("DIFFERENT COUNTS: %s, %s, %d times: the second model has %s, and %s wrote\n%s"
                 % (task.case.name, task.part, times, wanted, process.args[0], output[:1000]))
    return usage.ru_utime + usage.ru_stime


def enough(machine, task, idle):
    """How often the part has to be done to take long enough."""
    times = 1
    while True:
        spent = seconds(machine, task, times) - idle
        if spent >= LEAST_SECONDS:
            return times
        times *= min(50, int(1.3 * LEAST_SECONDS / max(spent, 0.001)) + 1)


def measured(machines, task):
    """Of each machine, the seconds that the part takes once. The machines take turns, so that a busy moment hits all."""
    idle = {name: min(seconds(machine, task, 0) for _ in range(ROUNDS)) for name, machine in machines.items()}
    times = {name: enough(machine, task, idle[name]) for name, machine in machines.items()}
    best = {name: float("inf") for name in machines}
    for _ in range(ROUNDS):
        for name, machine in machines.items():
            best[name] = min(best[name], seconds(machine, task, times[name]) - idle[name])
    return {name: best[name] / times[name] for name in machines}


def write_case(case, folder):
    cases.write_files(case, folder)
    with open(os.path.join(folder, "case.maude"), "w", encoding="utf-8") as file:
        file.write("\n".join(terms.module(case)) + "\n")


def ratio(rate, above, below):
    return rate[above] / rate[below] if above in rate and below in rate else None


def row(task, rate):
    """One line of the table; what isn't installed stays empty."""
    numbers = [rate[name] / 1e6 if name in rate else None for name in ("ours", "Rust", "Maude")]
    numbers += [ratio(rate, "ours", "Maude"), ratio(rate, "Rust", "ours")]
    cells = ["" if n is None else "%.0f" % n if n >= 100 else "%.3g" % n for n in numbers]
    kind = "million %s/s" % PARTS[task.part]
    return "%-13s  %-7s  %-22s" % (task.case.name, task.part, kind) + "".join("%12s" % cell for cell in cells)


def version(command):
    return subprocess.run(command, capture_output=True, text=True).stdout.split("\n")[0]


def installed(rust):
    """The machines that can be measured, and a line on each."""
    machines = {"ours": Native("crates/speed/out/speed")}
    print("ours: -O3 for x86-64-v2, as `rt run` builds it, %s" % version(["rt", "version"]))
    if os.path.exists(rust):
        machines["Rust"] = Native(rust)
        print("Rust: -C opt-level=3 -C target-cpu=x86-64-v2, %s" % version(["rustc", "--version"]))
    else:
        print("Rust: rustc is not installed, and its columns stay empty")
    if shutil.which("maude"):
        machines["Maude"] = Maude()
        print("Maude: %s" % version(["maude", "--version"]))
    else:
        print("Maude: it is not installed, and its columns stay empty")
    return machines


def tasks(of, parts):
    for case in of:
        with tempfile.TemporaryDirectory() as folder:
            write_case(case, folder)
            once = cases.expected(case)
            for part in parts:
                yield Task(case, folder, part, once[part])


def natives(machines):
    return {name: machine for name, machine in machines.items() if isinstance(machine, Native)}


def native_row(start, took, scale):
    """A line of what something takes, in units of which a second has so many."""
    cells = ["%.3g" % (scale * took[name]) if name in took else "" for name in ("ours", "Rust")]
    return "%-46s" % start + "".join("%12s" % cell for cell in cells)


def blocked_rows(machines):
    """A drain of each blocked table, without Maude, whose rules are applied in another order."""
    for task in tasks(cases.blocked_cases(), ["drain"]):
        yield native_row("%-16s  drain of %2d rules  us" % (task.case.name, task.once.rules), measured(natives(machines), task), 1e6)


def call_and_rule(machines, case, part):
    """The seconds of a call that applies no rule, and of a rule of the case's call: what that takes beyond the first."""
    (_, none), (rules, all_) = ((task.once.rules, measured(natives(machines), task))
                                for task in tasks([case._replace(schedule=b""), case], [part]))
    return none, {name: (all_[name] - none[name]) / rules for name in none}


def length_rows(machines):
    """A call's checks, and a rule, in a run and in a drain; then in 16 times the program, the memory and the schedule."""
    for part in ("run", "drain"):
        for times, lengths in ((1, ""), (16, ", 16 times")):
            case = cases.length_cases(times)[part]
            none, rule = call_and_rule(machines, case, part)
            yield native_row("%-13s  %-7s  us, no rule%s" % (case.name, part, lengths), none, 1e6)
            yield native_row("%-13s  %-7s  ns a rule%s" % (case.name, part, lengths), rule, 1e9)


def main(rust):
    machines = installed(rust)
    print("load average: %.2f %.2f %.2f, %d processors\n" % (os.getloadavg() + (os.cpu_count(),)))
    print(" " * 46 + "".join("%12s" % head for head in ("ours", "Rust", "Maude", "ours/Maude", "Rust/ours")))
    met = []
    for task in tasks(cases.all_cases(), PARTS):
        rate = {name: task.once.rules / took for name, took in measured(machines, task).items()}
        print(row(task, rate), flush=True)
        if "Maude" in rate:
            met.append(ratio(rate, "ours", "Maude") >= TARGET)
    for line in itertools.chain(blocked_rows(machines), length_rows(machines)):
        print(line, flush=True)
    print(METHOD)
    if met:
        print("Target, at least %d times Maude: met in %d of %d." % (TARGET, sum(met), len(met)))


if __name__ == "__main__":
    main(sys.argv[1])
