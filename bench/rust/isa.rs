//! What both machines share: values and operations, the records of instructions and cells, and the checks 1 to 3.

/// A number for no, as the scope paper's table has them.
pub type Refusal = u8;

pub const BAD_LENGTH: Refusal = 1;
pub const BAD_INSTRUCTION: Refusal = 2;
pub const BAD_CELL: Refusal = 3;
pub const UNSOUND: Refusal = 4;
pub const BAD_SCHEDULE: Refusal = 5;
pub const NO_INSTRUCTION: Refusal = 6;
pub const STALLED: Refusal = 7;
pub const FULL: Refusal = 8;
pub const BAD_TAG: Refusal = 9;
pub const NO_TEMPLATE: Refusal = 10;
pub const OTHER_KIND: Refusal = 11;
pub const NEEDS_TAG: Refusal = 12;
pub const NOT_HELD: Refusal = 13;
pub const STILL_HELD: Refusal = 14;
pub const EARLIER_MEMORY: Refusal = 15;
pub const IS_UNDEFINED: Refusal = 16;
pub const OUTSIDE: Refusal = 17;
pub const OTHER_WAY: Refusal = 18;

pub const REGISTERS: usize = 32;
const MOST_BYTES: usize = 8 * 1024;
const OPERATIONS: u32 = 5;

/// A word, or undefined.
pub type Value = Option<u32>;

/// The result of an operation by its number; a zero divisor or an undefined operand gives undefined.
pub fn operate(operation: u8, first: Value, second: Value) -> Value {
    let (a, b) = (first?, second?);
    match operation {
        0 => Some(a.wrapping_add(b)),
        1 => Some(a.wrapping_sub(b)),
        2 => Some(a.wrapping_mul(b)),
        3 if b == 0 => None,
        3 => Some((a as i32).wrapping_div(b as i32) as u32),
        4 => Some(((a as i32) < (b as i32)) as u32),
        _ => None,
    }
}

/// The destination stands first, as in the listing.
#[derive(Clone, Copy)]
pub enum Instr {
    Loadc(u8, u32),
    Loadpc(u8),
    Op(u8, u8, u8, u8),
    Jz(u8, u8),
    Load(u8, u8),
    Store(u8, u8),
}

fn word(bytes: &[u8]) -> u32 {
    u32::from_le_bytes([bytes[0], bytes[1], bytes[2], bytes[3]])
}

/// The instruction of a record of 8 bytes, if it is well formed.
fn parse(record: &[u8]) -> Option<Instr> {
    let (r, r1, r2, constant) = (record[1], record[2], record[3], word(&record[4..]));
    let (instr, unused_are_zero) = match record[0] {
        1 => (Instr::Loadc(r, constant), r1 == 0 && r2 == 0),
        2 => (Instr::Loadpc(r), r1 == 0 && r2 == 0 && constant == 0),
        3 => (Instr::Op(r, constant as u8, r1, r2), constant < OPERATIONS),
        4 => (Instr::Jz(r1, r2), r == 0 && constant == 0),
        5 => (Instr::Load(r, r1), r2 == 0 && constant == 0),
        6 => (Instr::Store(r1, r2), r == 0 && constant == 0),
        _ => return None,
    };
    let registers_exist = [r, r1, r2].iter().all(|&r| (r as usize) < REGISTERS);
    (unused_are_zero && registers_exist).then_some(instr)
}

fn is_cell(record: &[u8]) -> bool {
    record[1..4] == [0; 3] && (record[0] == 1 || (record[0] == 0 && word(&record[4..]) == 0))
}

/// A refusal and the number of the record that it is about.
pub type Verdict = (Refusal, usize);

/// The checks 1 to 3, in order, and the program that they read.
pub fn check(program: &[u8], memory: &[u8]) -> Result<Vec<Instr>, Verdict> {
    let whole = |b: &[u8]| b.len() % 8 == 0 && b.len() <= MOST_BYTES;
    if !(whole(program) && whole(memory)) {
        return Err((BAD_LENGTH, 0));
    }
    let mut instructions = Vec::with_capacity(program.len() / 8);
    for (number, record) in program.chunks_exact(8).enumerate() {
        instructions.push(parse(record).ok_or((BAD_INSTRUCTION, number))?);
    }
    match memory.chunks_exact(8).position(|record| !is_cell(record)) {
        Some(number) => Err((BAD_CELL, number)),
        None => Ok(instructions),
    }
}

/// The cell that a value is the address of.
fn cell(memory: &mut [u8], address: Value) -> Result<&mut [u8], Refusal> {
    let address = address.ok_or(IS_UNDEFINED)? as usize;
    memory.chunks_exact_mut(8).nth(address).ok_or(OUTSIDE)
}

pub fn load(memory: &mut [u8], address: Value) -> Result<Value, Refusal> {
    let cell = cell(memory, address)?;
    Ok((cell[0] == 1).then(|| word(&cell[4..])))
}

pub fn store(memory: &mut [u8], address: Value, value: Value) -> Result<(), Refusal> {
    let cell = cell(memory, address)?;
    cell[0] = value.is_some() as u8;
    cell[4..].copy_from_slice(&value.unwrap_or(0).to_le_bytes());
    Ok(())
}
