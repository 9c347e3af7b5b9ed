//! The input language: a list of instructions, each of which makes one value, and what it means.
//!
//! The rules take `Instruction`, `Operation` and `Condition` apart as they stand here: rules/types.isle declares the
//! same variants, as `extern`.

use crate::memory::Memory;
use std::fmt;

/// The number of the instruction that makes the value.
#[derive(Clone, Copy, PartialEq, Eq, Hash)]
pub struct Value(pub usize);

/// What two numbers of 64 bits come to. Sums and products wrap; of a shift's amount the low six bits count.
#[derive(Clone, Copy, Debug, PartialEq)]
pub enum Operation {
    Add,
    Subtract,
    Multiply,
    And,
    Or,
    Xor,
    ShiftLeft,
    ShiftRight,
    ShiftRightSigned,
}

impl Operation {
    pub fn of(self, left: i64, right: i64) -> i64 {
        match self {
            Operation::Add => left.wrapping_add(right),
            Operation::Subtract => left.wrapping_sub(right),
            Operation::Multiply => left.wrapping_mul(right),
            Operation::And => left & right,
            Operation::Or => left | right,
            Operation::Xor => left ^ right,
            Operation::ShiftLeft => left.wrapping_shl(right as u32),
            Operation::ShiftRight => (left as u64).wrapping_shr(right as u32) as i64,
            Operation::ShiftRightSigned => left.wrapping_shr(right as u32),
        }
    }

    /// Whether the operands may change places.
    pub fn is_commutative(self) -> bool {
        use Operation::*;
        matches!(self, Add | Multiply | And | Or | Xor)
    }
}

/// `Less` is of numbers with a sign, `Below` of numbers without one.
#[derive(Clone, Copy, Debug, PartialEq)]
pub enum Condition {
    Equal,
    NotEqual,
    Less,
    LessEqual,
    Below,
    BelowEqual,
}

impl Condition {
    pub fn holds(self, left: i64, right: i64) -> bool {
        match self {
            Condition::Equal => left == right,
            Condition::NotEqual => left != right,
            Condition::Less => left < right,
            Condition::LessEqual => left <= right,
            Condition::Below => (left as u64) < right as u64,
            Condition::BelowEqual => left as u64 <= right as u64,
        }
    }
}

/// An argument has a number from 0; a compare is 1 or 0; a select is `if_true` where the condition isn't 0; a store
/// makes the value 0.
#[derive(Clone, Copy, Debug, PartialEq)]
pub enum Instruction {
    Argument { number: u32 },
    Constant { value: i64 },
    Negate { operand: Value },
    Not { operand: Value },
    Binary { operation: Operation, left: Value, right: Value },
    Compare { condition: Condition, left: Value, right: Value },
    Select { condition: Value, if_true: Value, if_false: Value },
    Load { address: Value },
    Store { address: Value, value: Value },
}

impl Instruction {
    /// The values that the instruction uses.
    pub fn operands(self) -> Vec<Value> {
        match self {
            Instruction::Argument { .. } | Instruction::Constant { .. } => vec![],
            Instruction::Negate { operand } | Instruction::Not { operand } => vec![operand],
            Instruction::Binary { left, right, .. } | Instruction::Compare { left, right, .. } => vec![left, right],
            Instruction::Select { condition, if_true, if_false } => vec![condition, if_true, if_false],
            Instruction::Load { address } => vec![address],
            Instruction::Store { address, value } => vec![address, value],
        }
    }

    /// Whether it reads or writes memory, and so has to stay in its place among those that do.
    pub fn touches_memory(self) -> bool {
        matches!(self, Instruction::Load { .. } | Instruction::Store { .. })
    }
}

/// Instructions, which use values of earlier ones alone, and the values that are the program's results.
#[derive(Clone, Debug, Default)]
pub struct Program {
    pub instructions: Vec<Instruction>,
    pub results: Vec<Value>,
}

impl Program {
    /// Adds an instruction, and gives the value that it makes.
    pub fn push(&mut self, instruction: Instruction) -> Value {
        self.instructions.push(instruction);
        Value(self.instructions.len() - 1)
    }

    pub fn argument(&mut self, number: u32) -> Value {
        self.push(Instruction::Argument { number })
    }

    pub fn constant(&mut self, value: i64) -> Value {
        self.push(Instruction::Constant { value })
    }

    pub fn binary(&mut self, operation: Operation, left: Value, right: Value) -> Value {
        self.push(Instruction::Binary { operation, left, right })
    }

    /// How many arguments the program has: one more than the greatest number that it names.
    pub fn argument_count(&self) -> u32 {
        let count = |instruction: &Instruction| match *instruction {
            Instruction::Argument { number } => number + 1,
            _ => 0,
        };
        self.instructions.iter().map(count).max().unwrap_or(0)
    }

    /// The results of the program on these arguments and this memory. This is what it means.
    pub fn run(&self, arguments: &[i64], memory: &mut Memory) -> Vec<i64> {
        let mut values: Vec<i64> = Vec::new();
        for instruction in &self.instructions {
            let of = |value: Value| values[value.0];
            let made = match *instruction {
                Instruction::Argument { number } => arguments[number as usize],
                Instruction::Constant { value } => value,
                Instruction::Negate { operand } => of(operand).wrapping_neg(),
                Instruction::Not { operand } => !of(operand),
                Instruction::Binary { operation, left, right } => operation.of(of(left), of(right)),
                Instruction::Compare { condition, left, right } => condition.holds(of(left), of(right)) as i64,
                Instruction::Select { condition, if_true, if_false } => {
                    of(if of(condition) != 0 { if_true } else { if_false })
                }
                Instruction::Load { address } => memory.load(of(address)),
                Instruction::Store { address, value } => {
                    memory.store(of(address), of(value));
                    0
                }
            };
            values.push(made);
        }
        self.results.iter().map(|result| values[result.0]).collect()
    }
}

impl fmt::Debug for Value {
    fn fmt(&self, f: &mut fmt::Formatter) -> fmt::Result {
        write!(f, "v{}", self.0)
    }
}
