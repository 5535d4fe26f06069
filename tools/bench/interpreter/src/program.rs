//! Driver programs: their byte code, the standard programs, and the instructions that are read from byte code.

use common::Rule;

/// An instruction in byte code: an opcode, three operands of one byte each, and one of 32 bits.
pub type Row = (u8, u8, u8, u8, u32);

/// The number of a register.
pub type Place = u8;

#[derive(Clone, Copy, Debug)]
pub enum Instr {
    Num { to: Place, n: u32 },
    Get { to: Place, input: Input },
    Side { to: Place },
    Draw { to: Place, k: u8, chance: u32 },
    Copy { to: Place, a: Place },
    Add { to: Place, a: Place, b: Place },
    Sub { to: Place, a: Place, b: Place },
    Mul { to: Place, a: Place, n: u32 },
    Div { to: Place, a: Place, n: u32 },
    Min { to: Place, a: Place, b: Place },
    Max { to: Place, a: Place, b: Place },
    Not { to: Place, a: Place },
    And { to: Place, a: Place, b: Place },
    Or { to: Place, a: Place, b: Place },
    Jump { target: u32 },
    JumpLess { a: Place, b: Place, target: u32 },
    JumpAtMost { a: Place, b: Place, target: u32 },
    JumpTrue { a: Place, target: u32 },
    JumpFalse { a: Place, target: u32 },
    Go { a: Place },
    Cross,
    Stay,
}

#[derive(Clone, Copy, Debug)]
pub enum Input {
    Speed,
    Limit,
    Gap,
    Sidegap,
    Sideback,
    Lane,
    Headspeed,
}

/// The instruction of a row; `None` if the row is invalid.
pub fn read(row: &Row) -> Option<Instr> {
    let &(opcode, a, b, c, imm) = row;
    Some(match opcode {
        0x01 => Instr::Num { to: a, n: imm },
        0x02 => Instr::Get {
            to: a,
            input: input(b)?,
        },
        0x03 => Instr::Side { to: a },
        0x04 => Instr::Draw {
            to: a,
            k: b,
            chance: imm,
        },
        0x05 => Instr::Copy { to: a, a: b },
        0x06 => Instr::Add { to: a, a: b, b: c },
        0x07 => Instr::Sub { to: a, a: b, b: c },
        0x08 => Instr::Mul {
            to: a,
            a: b,
            n: imm,
        },
        0x09 => Instr::Div {
            to: a,
            a: b,
            n: imm,
        },
        0x0a => Instr::Min { to: a, a: b, b: c },
        0x0b => Instr::Max { to: a, a: b, b: c },
        0x0c => Instr::Not { to: a, a: b },
        0x0d => Instr::And { to: a, a: b, b: c },
        0x0e => Instr::Or { to: a, a: b, b: c },
        0x0f => Instr::Jump { target: imm },
        0x10 => Instr::JumpLess { a, b, target: imm },
        0x11 => Instr::JumpAtMost { a, b, target: imm },
        0x12 => Instr::JumpTrue { a, target: imm },
        0x13 => Instr::JumpFalse { a, target: imm },
        0x14 => Instr::Go { a },
        0x15 => Instr::Cross,
        0x16 => Instr::Stay,
        _ => return None,
    })
}

fn input(number: u8) -> Option<Input> {
    Some(match number {
        0 => Input::Speed,
        1 => Input::Limit,
        2 => Input::Gap,
        3 => Input::Sidegap,
        4 => Input::Sideback,
        5 => Input::Lane,
        6 => Input::Headspeed,
        _ => return None,
    })
}

/// The rows of a program, which follow a header of 8 bytes.
pub fn rows(bytes: &[u8]) -> Vec<Row> {
    let (rows, _) = bytes.get(8..).unwrap_or_default().as_chunks::<8>();
    rows.iter()
        .map(|&[opcode, a, b, c, imm @ ..]| (opcode, a, b, c, u32::from_le_bytes(imm)))
        .collect()
}

/// The motion program of a standard rule.
pub fn motion(rule: Rule) -> Vec<Row> {
    match rule {
        Rule::Nasch { brake } | Rule::Rickert { brake, .. } => nasch(brake),
        Rule::Vdr { brake, start } => vdr(brake, start),
    }
}

/// The change program of a standard rule, if it has one.
pub fn change(rule: Rule) -> Option<Vec<Row>> {
    match rule {
        Rule::Rickert { change, .. } => Some(rickert(change)),
        _ => None,
    }
}

fn nasch(brake: u32) -> Vec<Row> {
    vec![
        (0x02, 0, 0, 0, 0),     // get r0, speed
        (0x01, 1, 0, 0, 1),     // num r1, 1
        (0x06, 0, 0, 1, 0),     // add r0, r0, r1
        (0x02, 2, 1, 0, 0),     // get r2, limit
        (0x0a, 0, 0, 2, 0),     // min r0, r0, r2
        (0x02, 2, 2, 0, 0),     // get r2, gap
        (0x0a, 0, 0, 2, 0),     // min r0, r0, r2
        (0x04, 3, 0, 0, brake), // draw r3, 0, brake
        (0x13, 3, 0, 0, 11),    // jfalse r3, L11
        (0x0a, 1, 1, 0, 0),     // min r1, r1, r0
        (0x07, 0, 0, 1, 0),     // sub r0, r0, r1
        (0x14, 0, 0, 0, 0),     // L11: go r0
    ]
}

fn vdr(brake: u32, start: u32) -> Vec<Row> {
    vec![
        (0x02, 0, 0, 0, 0),     // get r0, speed
        (0x01, 1, 0, 0, 1),     // num r1, 1
        (0x11, 1, 0, 0, 5),     // jle r1, r0, L5
        (0x04, 3, 0, 0, start), // draw r3, 0, start
        (0x0f, 0, 0, 0, 6),     // jump L6
        (0x04, 3, 0, 0, brake), // L5: draw r3, 0, brake
        (0x06, 0, 0, 1, 0),     // L6: add r0, r0, r1
        (0x02, 2, 1, 0, 0),     // get r2, limit
        (0x0a, 0, 0, 2, 0),     // min r0, r0, r2
        (0x02, 2, 2, 0, 0),     // get r2, gap
        (0x0a, 0, 0, 2, 0),     // min r0, r0, r2
        (0x13, 3, 0, 0, 14),    // jfalse r3, L14
        (0x0a, 1, 1, 0, 0),     // min r1, r1, r0
        (0x07, 0, 0, 1, 0),     // sub r0, r0, r1
        (0x14, 0, 0, 0, 0),     // L14: go r0
    ]
}

fn rickert(change: u32) -> Vec<Row> {
    vec![
        (0x03, 0, 0, 0, 0),      // side r0
        (0x13, 0, 0, 0, 15),     // jfalse r0, L15
        (0x02, 1, 0, 0, 0),      // get r1, speed
        (0x01, 2, 0, 0, 1),      // num r2, 1
        (0x06, 1, 1, 2, 0),      // add r1, r1, r2
        (0x02, 2, 2, 0, 0),      // get r2, gap
        (0x11, 1, 2, 0, 15),     // jle r1, r2, L15
        (0x02, 2, 3, 0, 0),      // get r2, sidegap
        (0x11, 2, 1, 0, 15),     // jle r2, r1, L15
        (0x02, 2, 4, 0, 0),      // get r2, sideback
        (0x02, 3, 1, 0, 0),      // get r3, limit
        (0x11, 2, 3, 0, 15),     // jle r2, r3, L15
        (0x04, 3, 1, 0, change), // draw r3, 1, change
        (0x13, 3, 0, 0, 15),     // jfalse r3, L15
        (0x15, 0, 0, 0, 0),      // cross
        (0x16, 0, 0, 0, 0),      // L15: stay
    ]
}
