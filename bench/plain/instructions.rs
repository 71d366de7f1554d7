//! The driver machine's instructions: an operation code in the word's first byte, then registers a and b in four bits
//! each, then an immediate of sixteen bits.

use crate::device::NoSuchPort;
use crate::journal::{Act, Trap};
use crate::machine::{Bus, Crossing, Registers};
use std::fmt::{self, Display, Formatter};
use std::hint::black_box;

/// An instruction of the table.
pub struct Row {
    pub name: &'static str,
    pub code: u32,
    pub form: Form,
    pub sets: Sets,
}

/// Which fields an instruction has. A word in which another field is not zero is no instruction.
#[derive(Clone, Copy)]
pub enum Form {
    None,
    A,
    Immediate,
    AImmediate,
    AB,
    ABImmediate,
}

/// What an instruction sets, in addition to the counter.
#[derive(Clone, Copy)]
pub enum Sets {
    Nothing,
    /// Register a.
    A,
    /// To register a, the word whose address is the sum of register b and the immediate.
    Memory,
}

/// Makes the table of the instructions, and a constant for the code of each.
macro_rules! instructions {
    ($($name:ident $code:literal $form:ident $sets:ident;)*) => {
        $(const $name: u32 = $code;)*

        static TABLE: &[Row] = &[$(Row {
            name: stringify!($name),
            code: $name,
            form: Form::$form,
            sets: Sets::$sets,
        }),*];
    };
}

instructions! {
    LI    0x01 AImmediate  A;
    LUI   0x02 AImmediate  A;
    MOV   0x03 AB          A;
    ADD   0x04 AB          A;
    SUB   0x05 AB          A;
    AND   0x06 AB          A;
    OR    0x07 AB          A;
    XOR   0x08 AB          A;
    SHL   0x09 AB          A;
    SHR   0x0a AB          A;
    ADDI  0x0b ABImmediate A;
    LD    0x0c ABImmediate A;
    ST    0x0d ABImmediate Memory;
    JMP   0x0e Immediate   Nothing;
    BEQ   0x0f ABImmediate Nothing;
    BNE   0x10 ABImmediate Nothing;
    BLT   0x11 ABImmediate Nothing;
    JAL   0x12 AImmediate  A;
    JR    0x13 A           Nothing;
    IN    0x14 AImmediate  A;
    OUT   0x15 AImmediate  Nothing;
    KCALL 0x16 Immediate   Nothing;
    RET   0x17 A           Nothing;
    FAULT 0x18 None        Nothing;
}

/// By code, the bits of a word that its instruction has no field for.
static UNUSED: [u32; 256] = {
    let mut unused = [0; 256];
    let mut index = 0;
    while index < TABLE.len() {
        let row = &TABLE[index];
        unused[row.code as usize] = row.form.unused();
        index += 1;
    }
    unused
};

impl Form {
    const fn unused(self) -> u32 {
        match self {
            Form::None => 0xff_ffff,
            Form::A => 0x0f_ffff,
            Form::Immediate => 0xff_0000,
            Form::AImmediate => 0x0f_0000,
            Form::AB => 0x00_ffff,
            Form::ABImmediate => 0,
        }
    }
}

impl Row {
    pub fn named(name: &str) -> Option<&'static Row> {
        TABLE.iter().find(|row| row.name == name)
    }

    /// The row of the instruction that a word is, None if it is none.
    pub fn of(word: u32) -> Option<&'static Row> {
        let row = TABLE.iter().find(|row| row.code == code_of(word))?;
        fits(word).then_some(row)
    }

    /// The word of the instruction with these operands.
    pub fn encode(&self, a: u32, b: u32, immediate: u32) -> u32 {
        self.code << 24 | a << 20 | b << 16 | immediate
    }
}

fn code_of(word: u32) -> u32 {
    word >> 24
}

/// Whether the fields are zero that the instruction with a word's code does not have.
#[inline(always)]
fn fits(word: u32) -> bool {
    word & UNUSED[code_of(word) as usize] == 0
}

/// The operands of a word.
#[derive(Clone, Copy)]
pub struct Fields {
    pub a: usize,
    pub b: usize,
    pub immediate: u32,
}

impl Fields {
    #[inline(always)]
    pub fn of(word: u32) -> Fields {
        Fields {
            a: (word >> 20 & 15) as usize,
            b: (word >> 16 & 15) as usize,
            immediate: word & 0xffff,
        }
    }

    /// Register b and the immediate.
    #[inline(always)]
    pub fn sum(self, r: &Registers) -> u32 {
        r[self.b].wrapping_add(self.immediate)
    }
}

/// What comes after an instruction.
pub enum Next {
    Following,
    Goto(u32),
    /// The device's act, then the instruction that follows.
    Act(Act),
    Crossing(Crossing),
}

/// Executes the word at an address, with r as the registers.
#[inline(always)]
pub fn execute(word: u32, address: u32, r: &mut Registers, bus: &mut Bus) -> Result<Next, Trap> {
    let fields = Fields::of(word);
    let Fields { a, b, immediate } = fields;
    match code_of(word) {
        LI if fits(word) => r[a] = immediate,
        LUI if fits(word) => r[a] = immediate << 16 | r[a] & 0xffff,
        MOV if fits(word) => r[a] = r[b],
        ADD if fits(word) => r[a] = r[a].wrapping_add(r[b]),
        SUB if fits(word) => r[a] = r[a].wrapping_sub(r[b]),
        AND if fits(word) => r[a] &= r[b],
        OR if fits(word) => r[a] |= r[b],
        XOR if fits(word) => r[a] ^= r[b],
        SHL if fits(word) => r[a] = r[a].wrapping_shl(r[b]),
        SHR if fits(word) => r[a] = r[a].wrapping_shr(r[b]),
        ADDI if fits(word) => r[a] = fields.sum(r),
        LD if fits(word) => r[a] = load(fields.sum(r), bus)?,
        ST if fits(word) => store(fields.sum(r), r[a], bus)?,
        JMP if fits(word) => return Ok(Next::Goto(immediate)),
        BEQ if fits(word) => return Ok(branch(r[a] == r[b], immediate)),
        BNE if fits(word) => return Ok(branch(r[a] != r[b], immediate)),
        BLT if fits(word) => return Ok(branch(r[a] < r[b], immediate)),
        JAL if fits(word) => {
            r[a] = address + 1;
            return Ok(Next::Goto(immediate));
        }
        JR if fits(word) => return Ok(Next::Goto(r[a])),
        IN if fits(word) => r[a] = input(immediate, bus)?,
        OUT if fits(word) => return output(immediate, r[a], bus),
        KCALL if fits(word) => return Ok(Next::Crossing(Crossing::KernelCall(immediate))),
        RET if fits(word) => return Ok(Next::Crossing(Crossing::Reply(r[a]))),
        FAULT if fits(word) => return Err(Trap::Explicit),
        _ => return Err(Trap::BadOpcode),
    }
    Ok(Next::Following)
}

#[inline(always)]
fn load(address: u32, bus: &Bus) -> Result<u32, Trap> {
    bus.memory.read(address).ok_or(Trap::BadRead(address))
}

#[inline(always)]
fn store(address: u32, word: u32, bus: &mut Bus) -> Result<(), Trap> {
    if bus.memory.write(address, word) {
        Ok(())
    } else {
        Err(Trap::ForeignWrite(address))
    }
}

#[inline(always)]
fn branch(is_taken: bool, target: u32) -> Next {
    if is_taken {
        Next::Goto(target)
    } else {
        // Without this the compiler has a conditional move give the counter, and the next fetch waits for it.
        black_box(());
        Next::Following
    }
}

#[inline(always)]
fn input(port: u32, bus: &mut Bus) -> Result<u32, Trap> {
    bus.device.input(port).ok_or(Trap::BadPort(port))
}

#[inline(always)]
fn output(port: u32, word: u32, bus: &mut Bus) -> Result<Next, Trap> {
    match bus.device.output(port, word) {
        Ok(None) => Ok(Next::Following),
        Ok(Some(act)) => Ok(Next::Act(act)),
        Err(NoSuchPort) => Err(Trap::BadPort(port)),
    }
}

/// A word of text as assembler, `.word` and its value if it is no instruction.
pub struct Instruction(pub u32);

impl Display for Instruction {
    fn fmt(&self, f: &mut Formatter) -> fmt::Result {
        let Some(Row { name, form, .. }) = Row::of(self.0) else {
            return write!(f, ".word {}", self.0);
        };
        let Fields { a, b, immediate } = Fields::of(self.0);
        match form {
            Form::None => f.write_str(name),
            Form::A => write!(f, "{name} r{a}"),
            Form::Immediate => write!(f, "{name} {immediate}"),
            Form::AImmediate => write!(f, "{name} r{a} {immediate}"),
            Form::AB => write!(f, "{name} r{a} r{b}"),
            Form::ABImmediate => write!(f, "{name} r{a} r{b} {immediate}"),
        }
    }
}
