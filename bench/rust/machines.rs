//! The two machines, changed in place; a refusal changes nothing.

use crate::isa::*;

/// The in-order machine.
pub struct InOrder {
    pub counter: u32,
    registers: [Value; REGISTERS],
}

impl InOrder {
    pub fn start() -> Self {
        InOrder {
            counter: 0,
            registers: [None; REGISTERS],
        }
    }

    fn get(&self, r: u8) -> Value {
        self.registers[r as usize]
    }

    fn put(&mut self, r: u8, value: Value) {
        self.registers[r as usize] = value;
    }

    fn step(&mut self, program: &[Instr], memory: &mut [u8]) -> Result<(), Refusal> {
        let mut next = self.counter + 1;
        match *program.get(self.counter as usize).ok_or(NO_INSTRUCTION)? {
            Instr::Loadc(r, constant) => self.put(r, Some(constant)),
            Instr::Loadpc(r) => self.put(r, Some(self.counter)),
            Instr::Op(r, operation, r1, r2) => {
                self.put(r, operate(operation, self.get(r1), self.get(r2)))
            }
            Instr::Jz(r1, r2) => {
                if self.get(r1).ok_or(IS_UNDEFINED)? == 0 {
                    next = self.get(r2).ok_or(IS_UNDEFINED)?;
                }
            }
            Instr::Load(r, r1) => self.put(r, load(memory, self.get(r1))?),
            Instr::Store(r1, r2) => store(memory, self.get(r1), self.get(r2))?,
        }
        self.counter = next;
        Ok(())
    }

    /// How many instructions were executed, and the stop, 0 if none.
    pub fn run(&mut self, program: &[u8], memory: &mut [u8], budget: u32) -> (u32, Refusal) {
        let program = match check(program, memory) {
            Ok(program) => program,
            Err((refusal, _)) => return (0, refusal),
        };
        for executed in 0..budget {
            if let Err(stop) = self.step(&program, memory) {
                return (executed, stop);
            }
        }
        (budget, 0)
    }
}

const PLACES: usize = 64;
const LAST_TAG: u8 = 64;

/// What a register or an operand holds: a value, or the tag that it waits for.
#[derive(Clone, Copy, PartialEq)]
enum Operand {
    Known(Value),
    Waits(u8),
}
use Operand::{Known, Waits};

impl Operand {
    fn known(self) -> Result<Value, Refusal> {
        match self {
            Known(value) => Ok(value),
            Waits(_) => Err(NEEDS_TAG),
        }
    }

    fn fill(&mut self, tag: u8, value: Value) {
        if *self == Waits(tag) {
            *self = Known(value);
        }
    }
}

/// What a template still has to do; a value template is done.
#[derive(Clone, Copy, PartialEq)]
enum Work {
    Done(u8, Value),
    Op(u8, u8, Operand, Operand),
    Jz(Operand, Operand),
    Load(u8, Operand),
    Store(Operand, Operand),
}

impl Work {
    fn tag(&self) -> Option<u8> {
        match *self {
            Work::Done(t, _) | Work::Op(t, ..) | Work::Load(t, _) => Some(t),
            Work::Jz(..) | Work::Store(..) => None,
        }
    }

    fn operands(&self) -> (Operand, Operand) {
        match *self {
            Work::Done(..) => (Known(None), Known(None)),
            Work::Op(_, _, a, b) | Work::Jz(a, b) | Work::Store(a, b) => (a, b),
            Work::Load(_, a) => (a, Known(None)),
        }
    }

    fn holds(&self, tag: u8) -> bool {
        let (a, b) = self.operands();
        a == Waits(tag) || b == Waits(tag)
    }

    fn fill(&mut self, tag: u8, value: Value) {
        match self {
            Work::Done(..) => {}
            Work::Op(_, _, a, b) | Work::Jz(a, b) | Work::Store(a, b) => {
                a.fill(tag, value);
                b.fill(tag, value);
            }
            Work::Load(_, a) => a.fill(tag, value),
        }
    }

    fn is_memory(&self) -> bool {
        matches!(self, Work::Load(..) | Work::Store(..))
    }
}

#[derive(Clone, Copy, PartialEq)]
struct Template {
    address: u32,
    work: Work,
}

const BLANK: Template = Template {
    address: 0,
    work: Work::Done(0, None),
};

#[derive(Clone, Copy)]
pub enum Counter {
    At(u32),
    Stall,
}

/// The rules but issue, by their numbers.
#[derive(Clone, Copy)]
enum Rule {
    Operate = 2,
    Forward,
    Commit,
    Retire,
    Load,
    Store,
    Jump,
    NoJump,
}

impl Rule {
    const ALL: [Rule; 8] = [
        Rule::Operate,
        Rule::Forward,
        Rule::Commit,
        Rule::Retire,
        Rule::Load,
        Rule::Store,
        Rule::Jump,
        Rule::NoJump,
    ];
}

/// The renaming machine: the first `count` places hold the templates, the oldest first; the others are blank.
#[derive(Clone)]
pub struct State {
    pub counter: Counter,
    registers: [Operand; REGISTERS],
    templates: [Template; PLACES],
    count: usize,
}

impl State {
    pub fn start() -> Self {
        State {
            counter: Counter::At(0),
            registers: [Known(None); REGISTERS],
            templates: [BLANK; PLACES],
            count: 0,
        }
    }

    fn held(&self) -> &[Template] {
        &self.templates[..self.count]
    }

    /// Whether the templates are sound, oldest first, and the tags that they produce.
    fn templates_sound(&self, instructions: usize) -> Option<[bool; 256]> {
        let mut made = [false; 256];
        for x in self.held() {
            let (a, b) = x.work.operands();
            let ready = |o| !matches!(o, Waits(t) if !made[t as usize]);
            let operation_exists = !matches!(x.work, Work::Op(_, n, ..) if n > 4);
            if x.address as usize >= instructions || !ready(a) || !ready(b) || !operation_exists {
                return None;
            }
            if let Some(t) = x.work.tag() {
                if !(1..=LAST_TAG).contains(&t) || made[t as usize] {
                    return None;
                }
                made[t as usize] = true;
            }
        }
        Some(made)
    }

    fn registers_sound(&self, mut made: [bool; 256]) -> bool {
        self.registers.iter().all(|&o| match o {
            Known(_) => true,
            // A tag that one register holds is made for no other.
            Waits(t) => std::mem::take(&mut made[t as usize]),
        })
    }

    fn counter_sound(&self) -> bool {
        let first_jz = self
            .held()
            .iter()
            .position(|x| matches!(x.work, Work::Jz(..)));
        match self.counter {
            Counter::At(_) => first_jz.is_none(),
            Counter::Stall => first_jz.is_some_and(|p| p + 1 == self.count),
        }
    }

    fn is_sound(&self, instructions: usize) -> bool {
        self.count <= PLACES
            && self.templates[self.count..].iter().all(|x| *x == BLANK)
            && self
                .templates_sound(instructions)
                .is_some_and(|made| self.registers_sound(made))
            && self.counter_sound()
    }

    fn remove(&mut self, p: usize) {
        self.templates.copy_within(p + 1..self.count, p);
        self.count -= 1;
        self.templates[self.count] = BLANK;
    }

    fn is_tag_right(&self, tag: u8, instr: Instr) -> bool {
        match instr {
            Instr::Jz(..) | Instr::Store(..) => tag == 0,
            _ => {
                (1..=LAST_TAG).contains(&tag)
                    && self.held().iter().all(|x| x.work.tag() != Some(tag))
            }
        }
    }

    /// Operands are copied before the destination is renamed.
    fn issue(&mut self, program: &[Instr], tag: u8) -> Result<(), Refusal> {
        let Counter::At(address) = self.counter else {
            return Err(STALLED);
        };
        let instr = *program.get(address as usize).ok_or(NO_INSTRUCTION)?;
        if self.count == PLACES {
            return Err(FULL);
        }
        if !self.is_tag_right(tag, instr) {
            return Err(BAD_TAG);
        }
        let get = |r: u8| self.registers[r as usize];
        let (work, destination) = match instr {
            Instr::Loadc(r, constant) => (Work::Done(tag, Some(constant)), Some(r)),
            Instr::Loadpc(r) => (Work::Done(tag, Some(address)), Some(r)),
            Instr::Op(r, n, r1, r2) => (Work::Op(tag, n, get(r1), get(r2)), Some(r)),
            Instr::Jz(r1, r2) => (Work::Jz(get(r1), get(r2)), None),
            Instr::Load(r, r1) => (Work::Load(tag, get(r1)), Some(r)),
            Instr::Store(r1, r2) => (Work::Store(get(r1), get(r2)), None),
        };
        self.templates[self.count] = Template { address, work };
        self.count += 1;
        if let Some(r) = destination {
            self.registers[r as usize] = Waits(tag);
        }
        self.counter = match instr {
            Instr::Jz(..) => Counter::Stall,
            _ => Counter::At(address + 1),
        };
        Ok(())
    }

    fn forward(&mut self, p: usize, tag: u8, value: Value) -> Result<(), Refusal> {
        let later = &mut self.templates[p + 1..self.count];
        if !later.iter().any(|x| x.work.holds(tag)) {
            return Err(NOT_HELD);
        }
        later.iter_mut().for_each(|x| x.work.fill(tag, value));
        Ok(())
    }

    fn commit(&mut self, tag: u8, value: Value) -> Result<(), Refusal> {
        let register = self
            .registers
            .iter_mut()
            .find(|o| **o == Waits(tag))
            .ok_or(NOT_HELD)?;
        *register = Known(value);
        Ok(())
    }

    fn retire(&mut self, p: usize, tag: u8) -> Result<(), Refusal> {
        let later = &self.templates[p + 1..self.count];
        if self.registers.contains(&Waits(tag)) || later.iter().any(|x| x.work.holds(tag)) {
            return Err(STILL_HELD);
        }
        self.remove(p);
        Ok(())
    }

    fn no_memory_before(&self, p: usize) -> Result<(), Refusal> {
        if self.templates[..p].iter().any(|x| x.work.is_memory()) {
            return Err(EARLIER_MEMORY);
        }
        Ok(())
    }

    /// The counter after a Jz whose way is the one that the rule takes.
    fn resolve(&mut self, p: usize, taken: bool, a: Operand, b: Operand) -> Result<(), Refusal> {
        let condition = a.known()?.ok_or(IS_UNDEFINED)?;
        if (condition == 0) != taken {
            return Err(OTHER_WAY);
        }
        let next = if taken {
            b.known()?.ok_or(IS_UNDEFINED)?
        } else {
            self.templates[p].address + 1
        };
        self.remove(p);
        self.counter = Counter::At(next);
        Ok(())
    }

    /// One rule at one place.
    fn apply(&mut self, rule: Rule, p: usize, memory: &mut [u8]) -> Result<(), Refusal> {
        let work = self.held().get(p).ok_or(NO_TEMPLATE)?.work;
        match (rule, work) {
            (Rule::Operate, Work::Op(t, n, a, b)) => {
                self.templates[p].work = Work::Done(t, operate(n, a.known()?, b.known()?));
            }
            (Rule::Forward, Work::Done(t, v)) => self.forward(p, t, v)?,
            (Rule::Commit, Work::Done(t, v)) => self.commit(t, v)?,
            (Rule::Retire, Work::Done(t, _)) => self.retire(p, t)?,
            (Rule::Load, Work::Load(t, a)) => {
                self.no_memory_before(p)?;
                self.templates[p].work = Work::Done(t, load(memory, a.known()?)?);
            }
            (Rule::Store, Work::Store(a, b)) => {
                self.no_memory_before(p)?;
                store(memory, a.known()?, b.known()?)?;
                self.remove(p);
            }
            (Rule::Jump, Work::Jz(a, b)) => self.resolve(p, true, a, b)?,
            (Rule::NoJump, Work::Jz(a, b)) => self.resolve(p, false, a, b)?,
            _ => return Err(OTHER_KIND),
        }
        Ok(())
    }

    fn step(&mut self, program: &[Instr], memory: &mut [u8], record: &[u8]) -> Result<(), Refusal> {
        match *record {
            [1, 0, tag, 0] => self.issue(program, tag),
            [rule @ 2..=9, place, 0, 0] => {
                self.apply(Rule::ALL[rule as usize - 2], place as usize, memory)
            }
            _ => Err(BAD_SCHEDULE),
        }
    }

    /// The checks 1 to 4, in order, and the program that they read.
    fn enter(&self, program: &[u8], memory: &[u8]) -> Result<Vec<Instr>, Verdict> {
        let program = check(program, memory)?;
        if !self.is_sound(program.len()) {
            return Err((UNSOUND, 0));
        }
        Ok(program)
    }

    /// Accepted records, accepted issues, and the refusal of the next, 0 if none.
    pub fn run(
        &mut self,
        program: &[u8],
        memory: &mut [u8],
        schedule: &[u8],
    ) -> (usize, usize, Refusal) {
        if schedule.len() % 4 != 0 {
            return (0, 0, BAD_LENGTH);
        }
        let program = match self.enter(program, memory) {
            Ok(program) => program,
            Err((refusal, _)) => return (0, 0, refusal),
        };
        let mut issued = 0;
        for (accepted, record) in schedule.chunks_exact(4).enumerate() {
            if let Err(refusal) = self.step(&program, memory, record) {
                return (accepted, issued, refusal);
            }
            issued += (record[0] == 1) as usize;
        }
        (schedule.len() / 4, issued, 0)
    }

    /// The lowest rule at the lowest place that allows one, and whether there is any.
    fn oldest(&mut self, memory: &mut [u8]) -> bool {
        (0..self.count).any(|p| {
            Rule::ALL
                .iter()
                .any(|&rule| self.apply(rule, p, memory).is_ok())
        })
    }

    /// Why the oldest template doesn't run, 0 if there is none.
    fn blocked_by(&mut self, memory: &mut [u8]) -> Refusal {
        let rule = match self.held().first().map(|x| x.work) {
            None => return 0,
            Some(Work::Done(..)) => Rule::Retire,
            Some(Work::Op(..)) => Rule::Operate,
            Some(Work::Jz(..)) => Rule::Jump,
            Some(Work::Load(..)) => Rule::Load,
            Some(Work::Store(..)) => Rule::Store,
        };
        self.apply(rule, 0, memory).err().unwrap_or(0)
    }

    /// The rules applied, and the refusal of the oldest template that is left, 0 if none.
    pub fn drain(&mut self, program: &[u8], memory: &mut [u8]) -> (usize, Refusal) {
        if let Err((refusal, _)) = self.enter(program, memory) {
            return (0, refusal);
        }
        let mut rules = 0;
        while self.oldest(memory) {
            rules += 1;
        }
        (rules, self.blocked_by(memory))
    }
}
