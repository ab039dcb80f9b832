//! The 65 instructions: mask, value, shape and name, and the text of a word.

/// How the operands of an instruction are written.
#[derive(Clone, Copy, Debug, PartialEq)]
pub enum Shape {
    /// `rd, rt, sa`
    Shift,
    /// `rd, rt, rs`
    ShiftBy,
    /// `rs`
    Source,
    /// `rd, rs`
    Link,
    /// A code.
    Code,
    /// `rd`
    Destination,
    /// `rs, rt`
    Sources,
    /// `rd, rs, rt`
    Three,
    /// `rs, target`
    BranchOne,
    /// A target.
    Jump,
    /// `rs, rt, target`
    BranchTwo,
    /// `rt, rs`, and a signed immediate.
    Signed,
    /// `rt, rs`, and an unsigned immediate.
    Unsigned,
    /// `rt`, and an unsigned immediate.
    Upper,
    /// `rt, offset(rs)`
    Memory,
    /// `rt`, and a control register.
    Control,
    /// Nothing.
    Bare,
}

pub struct Row {
    pub mask: u32,
    pub value: u32,
    pub shape: Shape,
    pub name: &'static str,
}

const fn row(mask: u32, value: u32, shape: Shape, name: &'static str) -> Row {
    Row { mask, value, shape, name }
}

use Shape::*;

pub const ROWS: [Row; 65] = [
    row(0xFFE0_003F, 0x00, Shift, "sll"),
    row(0xFFE0_003F, 0x02, Shift, "srl"),
    row(0xFFE0_003F, 0x03, Shift, "sra"),
    row(0xFC00_07FF, 0x04, ShiftBy, "sllv"),
    row(0xFC00_07FF, 0x06, ShiftBy, "srlv"),
    row(0xFC00_07FF, 0x07, ShiftBy, "srav"),
    row(0xFC1F_FFFF, 0x08, Source, "jr"),
    row(0xFC1F_07FF, 0x09, Link, "jalr"),
    row(0xFC00_003F, 0x0C, Code, "syscall"),
    row(0xFC00_003F, 0x0D, Code, "break"),
    row(0xFFFF_07FF, 0x10, Destination, "mfhi"),
    row(0xFFFF_07FF, 0x12, Destination, "mflo"),
    row(0xFC1F_FFFF, 0x11, Source, "mthi"),
    row(0xFC1F_FFFF, 0x13, Source, "mtlo"),
    row(0xFC00_FFFF, 0x18, Sources, "mult"),
    row(0xFC00_FFFF, 0x19, Sources, "multu"),
    row(0xFC00_FFFF, 0x1A, Sources, "div"),
    row(0xFC00_FFFF, 0x1B, Sources, "divu"),
    row(0xFC00_07FF, 0x20, Three, "add"),
    row(0xFC00_07FF, 0x21, Three, "addu"),
    row(0xFC00_07FF, 0x22, Three, "sub"),
    row(0xFC00_07FF, 0x23, Three, "subu"),
    row(0xFC00_07FF, 0x24, Three, "and"),
    row(0xFC00_07FF, 0x25, Three, "or"),
    row(0xFC00_07FF, 0x26, Three, "xor"),
    row(0xFC00_07FF, 0x27, Three, "nor"),
    row(0xFC00_07FF, 0x2A, Three, "slt"),
    row(0xFC00_07FF, 0x2B, Three, "sltu"),
    row(0xFC1F_0000, 0x0400_0000, BranchOne, "bltz"),
    row(0xFC1F_0000, 0x0401_0000, BranchOne, "bgez"),
    row(0xFC1F_0000, 0x0410_0000, BranchOne, "bltzal"),
    row(0xFC1F_0000, 0x0411_0000, BranchOne, "bgezal"),
    row(0xFC00_0000, 0x0800_0000, Jump, "j"),
    row(0xFC00_0000, 0x0C00_0000, Jump, "jal"),
    row(0xFC00_0000, 0x1000_0000, BranchTwo, "beq"),
    row(0xFC00_0000, 0x1400_0000, BranchTwo, "bne"),
    row(0xFC1F_0000, 0x1800_0000, BranchOne, "blez"),
    row(0xFC1F_0000, 0x1C00_0000, BranchOne, "bgtz"),
    row(0xFC00_0000, 0x2000_0000, Signed, "addi"),
    row(0xFC00_0000, 0x2400_0000, Signed, "addiu"),
    row(0xFC00_0000, 0x2800_0000, Signed, "slti"),
    row(0xFC00_0000, 0x2C00_0000, Signed, "sltiu"),
    row(0xFC00_0000, 0x3000_0000, Unsigned, "andi"),
    row(0xFC00_0000, 0x3400_0000, Unsigned, "ori"),
    row(0xFC00_0000, 0x3800_0000, Unsigned, "xori"),
    row(0xFFE0_0000, 0x3C00_0000, Upper, "lui"),
    row(0xFFE0_07FF, 0x4000_0000, Control, "mfc0"),
    row(0xFFE0_07FF, 0x4080_0000, Control, "mtc0"),
    row(0xFFFF_FFFF, 0x4200_0001, Bare, "tlbr"),
    row(0xFFFF_FFFF, 0x4200_0002, Bare, "tlbwi"),
    row(0xFFFF_FFFF, 0x4200_0006, Bare, "tlbwr"),
    row(0xFFFF_FFFF, 0x4200_0008, Bare, "tlbp"),
    row(0xFFFF_FFFF, 0x4200_0010, Bare, "rfe"),
    row(0xFC00_0000, 0x8000_0000, Memory, "lb"),
    row(0xFC00_0000, 0x8400_0000, Memory, "lh"),
    row(0xFC00_0000, 0x8800_0000, Memory, "lwl"),
    row(0xFC00_0000, 0x8C00_0000, Memory, "lw"),
    row(0xFC00_0000, 0x9000_0000, Memory, "lbu"),
    row(0xFC00_0000, 0x9400_0000, Memory, "lhu"),
    row(0xFC00_0000, 0x9800_0000, Memory, "lwr"),
    row(0xFC00_0000, 0xA000_0000, Memory, "sb"),
    row(0xFC00_0000, 0xA400_0000, Memory, "sh"),
    row(0xFC00_0000, 0xA800_0000, Memory, "swl"),
    row(0xFC00_0000, 0xAC00_0000, Memory, "sw"),
    row(0xFC00_0000, 0xB800_0000, Memory, "swr"),
];

pub fn row_of(word: u32) -> Option<&'static Row> {
    ROWS.iter().find(|row| word & row.mask == row.value)
}

/// The text of a word at an address.
pub fn text(address: u32, word: u32) -> String {
    let Some(Row { shape, name, .. }) = row_of(word) else {
        return format!(".word {word:#010x}");
    };
    let field = |shift: u32| word >> shift & 0x1F;
    let (rs, rt, rd, sa) = (field(21), field(16), field(11), field(6));
    let (signed, unsigned) = (word as i16, word & 0xFFFF);
    let next = address.wrapping_add(4);
    let branch = next.wrapping_add((i32::from(signed) << 2) as u32);
    let jump = next & 0xF000_0000 | (word & 0x03FF_FFFF) << 2;
    let operands = match shape {
        Shift => format!("r{rd}, r{rt}, {sa}"),
        ShiftBy => format!("r{rd}, r{rt}, r{rs}"),
        Source => format!("r{rs}"),
        Link => format!("r{rd}, r{rs}"),
        Code => format!("{}", word >> 6 & 0xF_FFFF),
        Destination => format!("r{rd}"),
        Sources => format!("r{rs}, r{rt}"),
        Three => format!("r{rd}, r{rs}, r{rt}"),
        BranchOne => format!("r{rs}, {branch:#010x}"),
        Jump => format!("{jump:#010x}"),
        BranchTwo => format!("r{rs}, r{rt}, {branch:#010x}"),
        Signed => format!("r{rt}, r{rs}, {signed}"),
        Unsigned => format!("r{rt}, r{rs}, {unsigned:#06x}"),
        Upper => format!("r{rt}, {unsigned:#06x}"),
        Memory => format!("r{rt}, {signed}(r{rs})"),
        Control => format!("r{rt}, c{rd}"),
        Bare => return name.to_string(),
    };
    format!("{name} {operands}")
}
