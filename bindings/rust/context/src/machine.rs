//! Registers, operands, and instructions as text.

use crate::generated_code::{Amode, MInst, Size};

#[derive(Clone, Copy, Debug, PartialEq, Eq)]
pub struct Reg(pub u32);

pub const ZERO: Reg = Reg(0);

#[derive(Clone, Copy, Debug, PartialEq, Eq)]
pub struct WritableReg(pub Reg);

#[derive(Clone, Copy, Debug, PartialEq, Eq)]
pub struct Imm12(pub u16);

/// Clone, but neither Copy nor compared.
#[derive(Clone, Debug)]
pub enum Operand {
    Reg(Reg),
    Mem(Box<Amode>),
}

/// A primitive that is neither Copy nor compared. Each rule uses it once.
pub type BoxInfo = Box<CallInfo>;

#[derive(Clone, Debug)]
pub struct CallInfo {
    pub callee: i64,
    pub clobbers: Vec<u32>,
}

/// Neither Debug, nor Copy, nor compared. So a type that holds it can't be Debug.
#[derive(Clone)]
pub struct Blob(pub i64);

fn size(size: Size) -> &'static str {
    match size {
        Size::Size32 => "w",
        Size::Size64 => "x",
    }
}

/// An instruction as text. It copies `size` from behind a reference, so the code must declare `Size` as Copy.
pub fn text(inst: &MInst) -> String {
    match inst {
        MInst::Nop => "nop".into(),
        MInst::Alu {
            op,
            size: s,
            rd,
            rn,
            rm,
        } => format!("{op:?}.{} {} <- {} {}", size(*s), rd.0 .0, rn.0, rm.0),
        MInst::AluImm {
            op,
            size: s,
            rd,
            rn,
            imm,
        } => format!("{op:?}.{} {} <- {} #{}", size(*s), rd.0 .0, rn.0, imm.0),
        MInst::Mov { rd, src } => format!("mov {} <- {}", rd.0 .0, operand(src)),
        MInst::Load { rd, mem } => format!("load {} <- {}", rd.0 .0, amode(mem)),
        MInst::Cmp { size: s, rn, rm } => format!("cmp.{} {} {}", size(*s), rn.0, rm.0),
        MInst::CSet { rd, cond } => format!("cset {} <- {cond:?}", rd.0 .0),
        MInst::Call { info } => format!("call {} {:?}", info.callee, info.clobbers),
    }
}

fn operand(operand: &Operand) -> String {
    match operand {
        Operand::Reg(reg) => reg.0.to_string(),
        Operand::Mem(mem) => amode(mem),
    }
}

fn amode(mem: &Amode) -> String {
    match mem {
        Amode::RegOffset { base, offset } => format!("[{} + {offset}]", base.0),
        Amode::RegReg { base, index } => format!("[{} + {}]", base.0, index.0),
        Amode::RegScaled { base, index, shift } => format!("[{} + {} << {shift}]", base.0, index.0),
    }
}
