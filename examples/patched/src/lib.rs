//! A `Context` that was written for the code of the original compiler, over the values of a small program.

/// A value of a program: its number.
#[derive(Clone, Copy, Debug, PartialEq, Eq)]
pub struct Value(pub usize);

/// A register.
#[derive(Clone, Copy, Debug, PartialEq, Eq)]
pub struct Reg(pub usize);

/// Two arguments.
pub type ValueArray2 = [Value; 2];

#[derive(Clone, Copy, Debug, PartialEq, Eq)]
pub enum Opcode {
    Add,
    Shl,
    Load,
}

#[derive(Clone, Debug)]
pub enum InstructionData {
    Binary {
        opcode: Opcode,
        args: ValueArray2,
    },
    Load {
        opcode: Opcode,
        arg: Value,
        offset: i32,
    },
    Const {
        imm: i64,
    },
}

/// The most results of a term that gives several.
const MAX_ISLE_RETURNS: usize = 8;

/// The code of the rules. Included code can't have attributes of its file, so they are here.
#[allow(
    dead_code,
    unreachable_code,
    unreachable_patterns,
    unused_imports,
    unused_variables,
    non_snake_case,
    unused_mut,
    irrefutable_let_patterns,
    unused_assignments,
    non_camel_case_types
)]
pub mod generated_code {
    include!(concat!(env!("OUT_DIR"), "/isle_lower.rs"));
}

use generated_code::{Context, MInst};

/// A program: what each value is defined by, if it isn't a parameter.
pub struct Program(pub Vec<Option<InstructionData>>);

impl Context for Program {
    fn def(&mut self, value: Value) -> Option<InstructionData> {
        self.0.get(value.0)?.clone()
    }

    fn unpack_value_array_2(&mut self, args: ValueArray2) -> (Value, Value) {
        let [x, y] = args;
        (x, y)
    }

    fn put_in_reg(&mut self, value: Value) -> Reg {
        Reg(value.0)
    }

    fn i32_from_i64(&mut self, value: i64) -> Option<i32> {
        value.try_into().ok()
    }

    fn scale(&mut self, value: i64) -> Option<u8> {
        u8::try_from(value).ok().filter(|shift| *shift < 4)
    }

    fn general(&mut self, value: Value) -> MInst {
        MInst::AddImm {
            x: Reg(value.0),
            imm: 0,
        }
    }
}
