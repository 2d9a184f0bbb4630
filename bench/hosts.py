"""Makes the programs whose stack is measured: each calls one public entry of the library, or any of them.

A program reads its input from files, so that nothing of it is known to the compiler. It is proved and compiled as `rt` does any program, with one difference:
the measured entry, and the function of the program that calls it, stay functions of their own, so that where they begin can be seen.
"""

import os
import re
import shutil
import subprocess
import sys
from collections import namedtuple

Entry = namedtuple("Entry", "name body")  # the body of the function that calls it; its answer is a number to compare

MACHINE = "InOrder { counter: machine_counter(s), registers: machine_registers(s) }"
ENTRIES = [Entry(*entry) for entry in (
    ("renaming::step", "faulted(renaming::step(s, program, memory, schedule).verdict)"),
    ("renaming::run", "faulted(renaming::run(s, program, memory, schedule).verdict)"),
    ("renaming::drain", "faulted(renaming::drain(s, program, memory).verdict)"),
    ("inorder::run", "let m = %s; faulted(m.run(program, memory, 20).stop)" % MACHINE),
    ("inorder::step", "let m = %s; faulted(m.step(program, memory).stop)" % MACHINE),
    ("inorder::enter", "let m = %s; faulted(m.enter(program, &memory[..]))" % MACHINE),
    ("entry::enter", "faulted(entry::enter(s, program, &memory[..]))"),
    ("sound::is_sound", "if sound::is_sound(s, (program.len().min(8192) / 8) as u32) { 0 } else { 4 }"),
    ("judge::refusal_at", """if schedule.len() < 4 {
        return 99;
    }
    match schedule::read(schedule[0], schedule[1], schedule[2], schedule[3]) {
        Command::Apply(rule, p) => match judge::refusal_at(s, rule, p, &memory[..]) {
            Ok(()) => 0,
            Err(refusal) => u64::from(refusal.number()),
        },
        Command::Issue(_) | Command::Malformed => 99,
    }"""),
    ("report::report", "report::report(program, memory, schedule, out).unwrap_or(0) as u64"),
    ("report::contents", "report::contents(s, &memory[..], out).unwrap_or(0) as u64"),
    ("listing::list", "listing::list(program, out).unwrap_or(0) as u64"),
    ("kernel::check", "faulted(kernel::check(program, &memory[..]))"),
    ("isa::scan", "faulted(isa::scan(program))"),
    ("cells::scan", "faulted(cells::scan(&memory[..]))"),
    ("lines::put_counter", "let mut page = Page { out, at: 0 }; lines::put_counter(&mut page, s.counter); page.at as u64"),
    ("lines::put_registers", "let mut page = Page { out, at: 0 }; lines::put_registers(&mut page, s.registers); page.at as u64"),
)]

PARAMETERS = "s: State, program: &[u8], memory: &mut [u8], schedule: &[u8], out: &mut [u8]"
ARGUMENTS = "s, program, memory, schedule, out"

SOURCE = """// Calls the public entry that its argument numbers, on what its files have, and prints a number of the answer.
#![tactic(auto)]

mod bytes;
mod input;
mod states;

use inorder::InOrder;
use isa::{InstrAddr, REGISTERS};
use records::Fault;
use rules::Command;
use std::io;
use templates::{Counter, Operand, State};
use text::Page;

fn faulted(verdict: Result<(), Fault>) -> u64 {
    match verdict {
        Ok(()) => 0,
        Err(fault) => u64::from(fault.refusal.number()),
    }
}

fn machine_counter(s: State) -> InstrAddr {
    match s.counter {
        Counter::At(ia) => ia,
        Counter::Stall => InstrAddr(0),
    }
}

fn machine_registers(s: State) -> [inorder::Register; REGISTERS] {
    let given = s.registers;
    let mut rf = [inorder::Register { value: value::UNDEFINED }; REGISTERS];
    for r in 0..REGISTERS {
        if let Operand::Known(value) = given[r].holds {
            rf[r] = inorder::Register { value };
        }
    }
    rf
}

%s
fn called(which: u32, %s) -> u64 {
    match which {
%s        _ => 99,
    }
}

// Takes more stack than any entry does, so that it is mapped and can be painted; without a state there is nothing to do.
fn deepen(rt: &HostRuntime) -> usize {
    let mut buf = [0u8; 262144];
    input::file(rt, b"state.ax", &mut buf)
}

fn main(rt: HostRuntime) -> io::Result<()> {
    if deepen(&rt) == 0 {
        return Ok(());
    }
    let mut program = [0u8; 8192];
    let mut memory = [0u8; 8192];
    let mut schedule = [0u8; 65536];
    let mut given = [0u8; 4096];
    let mut out = [0u8; 32768];
    let p = input::file(&rt, b"program.ax", &mut program);
    let m = input::file(&rt, b"memory.ax", &mut memory);
    let r = input::file(&rt, b"schedule.ax", &mut schedule);
    let g = input::file(&rt, b"state.ax", &mut given);
    let s = states::read(&given[..g]);
    let answer = called(input::times(&rt, 1), s, &program[..p], &mut memory[..m], &schedule[..r], &mut out);
    print!(rt; "{answer}")
}
"""

# What reads states and files in the programs of the repository reads them here.
BORROWED = ("cases/src/bytes.rt", "cases/src/states.rt", "speed/src/input.rt")
USES = "records value text buffers isa listing cells kernel inorder templates sound rules entry schedule lines judge renaming report"
CLANG = """#!/bin/sh
# The kit's clang; of what is compiled at -O3 the module and the words are kept.
case " $* " in *" -O3 "*) /bin/cp module.bc "%(kept)s/module.bc" && printf '%%s\\n' "$@" > "%(kept)s/words" ;; esac
exec "%(clang)s" "$@"
"""


def caller(number):
    return "host::call_%d" % number


def source(entries):
    """The text of a program that can call these entries, each in a function of its own; they are numbered from 1 as in ENTRIES."""
    functions, arms = "", ""
    for entry in entries:
        number = ENTRIES.index(entry) + 1
        functions += "fn call_%d(%s) -> u64 {\n    %s\n}\n\n" % (number, PARAMETERS, entry.body)
        arms += "        %d => call_%d(%s),\n" % (number, number, ARGUMENTS)
    return SOURCE % (functions, PARAMETERS, arms)


def write(path, text, mode=0o644):
    os.makedirs(os.path.dirname(path), exist_ok=True)
    with open(path, "w", encoding="utf-8") as file:
        file.write(text)
    os.chmod(path, mode)


def link(path, to):
    os.makedirs(os.path.dirname(path), exist_ok=True)
    os.symlink(os.path.abspath(to), path)


class Maker:
    """A folder with a copy of the library's crates and one more, and the kit with a clang that keeps what it is given."""

    def __init__(self, root, folder):
        self.root, self.folder = root, os.path.realpath(folder)  # as the kernel names what it maps
        self.repository, self.kit = os.path.join(self.folder, "repository"), os.path.join(self.folder, "kit")
        self.host = os.path.join(self.repository, "crates", "host")
        shutil.rmtree(self.folder, ignore_errors=True)
        self.copy_repository()
        self.copy_kit()

    def copy_repository(self):
        with open(os.path.join(self.root, "crates.txt"), encoding="utf-8") as file:
            write(os.path.join(self.repository, "crates.txt"), file.read() + "host: %s\n" % USES)
        crates = os.path.join(self.root, "crates")
        shutil.copytree(crates, os.path.join(self.repository, "crates"), ignore=shutil.ignore_patterns("out"))
        os.makedirs(os.path.join(self.host, "src"))
        for path in BORROWED:
            shutil.copy(os.path.join(crates, path), os.path.join(self.host, "src"))

    def copy_kit(self):
        guide = subprocess.run(["rt", "doc"], capture_output=True, text=True, check=True).stdout.strip()
        real = os.path.dirname(guide)
        for part in os.listdir(real):
            if part not in ("bin", "toolchain"):
                link(os.path.join(self.kit, part), os.path.join(real, part))
        for folder in ("bin", os.path.join("toolchain", "bin")):
            for tool in os.listdir(os.path.join(real, folder)):
                if tool not in ("rt", "rtlib.py", "clang"):
                    link(os.path.join(self.kit, folder, tool), os.path.join(real, folder, tool))
        for script in ("rt", "rtlib.py"):  # they look for the kit from where they stand
            shutil.copy(os.path.join(real, "bin", script), os.path.join(self.kit, "bin"))
        self.tools, self.clang = os.path.join(self.kit, "toolchain"), os.path.join(real, "toolchain", "bin", "clang")
        link(os.path.join(self.tools, "lib"), os.path.join(real, "toolchain", "lib"))
        write(os.path.join(self.tools, "bin", "clang"), CLANG % {"kept": self.folder, "clang": self.clang}, 0o755)

    def rt(self, rt, verb):
        """Proves the program, and runs it where the verb says so, on nothing."""
        called = subprocess.run([rt, verb], cwd=self.host, stdin=subprocess.DEVNULL, capture_output=True, text=True)
        if called.returncode != 0:
            sys.exit("rt %s: %s%s" % (verb, called.stdout, called.stderr))

    def module(self, entries):
        """The module of a program that calls these entries, as text, before it is optimised."""
        write(os.path.join(self.host, "src", "main.rt"), source(entries))
        self.rt("rt", "check")  # the kit itself, which takes over what was proved of the same crates before
        self.rt(os.path.join(self.kit, "bin", "rt"), "run")
        return subprocess.run([self.clang, "-x", "ir", "-S", "-emit-llvm", "-O0", "-o", "-", os.path.join(self.folder, "module.bc")],
                              capture_output=True, text=True, check=True).stdout

    def build(self, module, kept, program):
        """The program of a module whose functions of these names are not compiled into others."""
        for name in kept + ["host::deepen"]:
            module = re.sub(r'^(define .*@"%s"\(.*\)) (#\d+ \{)$' % re.escape(name), r"\1 noinline \2", module, flags=re.MULTILINE)
        write(os.path.join(self.folder, "module.bc"), module)
        with open(os.path.join(self.folder, "words"), encoding="utf-8") as file:
            words = file.read().splitlines()
        subprocess.run([self.clang] + words, cwd=self.folder, check=True)
        libraries = [os.path.join(self.kit, "c", name) for name in ("libos_c.a", "liblibc_c.a")]
        subprocess.run([os.path.join(self.kit, "bin", "rattle-link"), "--target", "x86_64-unknown-linux-gnu", "--toolchain", self.tools, "-o", program,
                        os.path.join(self.folder, "module.o"), *libraries], capture_output=True, check=True)


def symbol(module, entry):
    """The one function of the module that is the entry, whichever module of its crate it stands in."""
    crate, name = entry.name.split("::")
    found = re.findall(r'^define .*@"(%s::(?:\w+::)*%s)"\(' % (crate, name), module, flags=re.MULTILINE)
    found = [path for path in found if not re.search("::[A-Z]", path)] or found  # not a method of the same name
    if len(found) != 1:
        sys.exit("%s: the functions of that name are %s" % (entry.name, found))
    return found[0]
