//! Registers and parts of instructions of Harbour 64.
use crate::function::Value;

macro_rules! names {
    ($($name:ident $inner:ty),*) => {
        $(#[derive(Clone, Copy, Debug, PartialEq, Eq)]
        pub struct $name(pub $inner);)*
    };
}

names! {
    Reg u32, XReg Reg, FReg Reg, VReg Reg, PReg Reg, WritableReg Reg,
    WritableXReg Reg, WritableFReg Reg, WritableVReg Reg, WritablePReg Reg,
    U12 u16, Simm10 i16, Simm16 i16, Run u64, Label u32, CallInfo u32
}

pub type Unit = ();
pub const ZERO: XReg = XReg(Reg(0));

#[derive(Clone, Copy, Debug)]
pub enum RegClass {
    Integer,
    Float,
    Predicate,
}

/// The labels from the first to before the last.
#[derive(Clone, Copy, Debug)]
pub struct LabelSlice(pub u32, pub u32);

/// Where an instruction's results are.
#[derive(Clone, Copy, Debug)]
pub enum InstOutput {
    Nothing,
    Reg(Reg),
    Pair(XReg, XReg),
    Value(Value),
}

/// The number is a run of ones among zeros, or of zeros among ones.
pub fn run_of(number: u64) -> Option<Run> {
    let zeros_outside = |n: u64| {
        n != 0 && {
            let shifted = n >> n.trailing_zeros();
            shifted & shifted.wrapping_add(1) == 0
        }
    };
    (zeros_outside(number) || zeros_outside(!number)).then_some(Run(number))
}
