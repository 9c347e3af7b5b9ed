//! The machine: registers, and what its code does. Its instructions, `Machine`, are declared in rules/types.isle.

use crate::input::Value;
use crate::memory::Memory;
use crate::rules::{Machine, Mode, Test};
use std::fmt;

/// A register holds 64 bits, and there are as many as one asks for.
#[derive(Clone, Copy, PartialEq, Eq, Hash)]
pub struct Register(pub u32);

/// The register that always holds 0: what is written to it is lost. Behind it stand the program's arguments.
pub const ZERO: Register = Register(0);

/// An instruction of the machine.
#[derive(Clone, Debug, PartialEq)]
pub struct Line {
    /// The register that it writes; `ZERO` for a store.
    pub destination: Register,
    pub instruction: Machine,
    /// The value of the input that it was made for.
    pub made_for: Value,
}

/// The rules' code doesn't say when two instructions are equal, since fields may be of types that can't be compared. They are
/// where they show alike.
impl PartialEq for Machine {
    fn eq(&self, other: &Machine) -> bool {
        format!("{self:?}") == format!("{other:?}")
    }
}

#[derive(Clone, Debug, PartialEq)]
pub struct Code {
    pub lines: Vec<Line>,
    /// The registers that hold the program's results at the end.
    pub results: Vec<Register>,
}

/// A number for each register.
struct Registers(Vec<i64>);

impl Registers {
    fn get(&self, register: Register) -> i64 {
        self.0[register.0 as usize]
    }

    fn set(&mut self, register: Register, value: i64) {
        let place = register.0 as usize;
        if register != ZERO {
            self.0.resize(self.0.len().max(place + 1), 0);
            self.0[place] = value;
        }
    }

    fn address(&self, mode: &Mode) -> i64 {
        match *mode {
            Mode::Based { base, offset } => self.get(base).wrapping_add(offset.into()),
            Mode::Indexed { base, index, shift, offset } => {
                self.get(base).wrapping_add(self.get(index) << shift).wrapping_add(offset.into())
            }
        }
    }

    /// What the instruction writes to its destination; 0 for a store.
    fn step(&self, instruction: &Machine, memory: &mut Memory) -> i64 {
        let of = |register: Register| self.get(register);
        match *instruction {
            Machine::SetConstant { value } => value.into(),
            Machine::AppendBits { source, bits } => of(source) << 16 | i64::from(bits),
            Machine::Binary { operation, left, right } => operation.of(of(left), of(right)),
            Machine::BinaryImmediate { operation, left, right } => operation.of(of(left), right.into()),
            Machine::AddImmediate { left, right } => of(left).wrapping_add(right.into()),
            Machine::AndNot { left, right } => of(left) & !of(right),
            Machine::OrNot { left, right } => of(left) | !of(right),
            Machine::ShiftedAdd { left, right, shift } => of(left).wrapping_add(of(right) << shift),
            Machine::MultiplyAdd { left, right, added } => of(added).wrapping_add(of(left).wrapping_mul(of(right))),
            Machine::MultiplySubtract { left, right, from } => of(from).wrapping_sub(of(left).wrapping_mul(of(right))),
            Machine::Compare { ref test, left, right } => holds(test, of(left), of(right)) as i64,
            Machine::CompareImmediate { ref test, left, right } => holds(test, of(left), right.into()) as i64,
            Machine::Select { ref test, left, right, if_true, if_false } => {
                of(if holds(test, of(left), of(right)) { if_true } else { if_false })
            }
            Machine::Load { ref mode } => memory.load(self.address(mode)),
            Machine::Store { ref mode, value } => {
                memory.store(self.address(mode), of(value));
                0
            }
        }
    }
}

fn holds(test: &Test, left: i64, right: i64) -> bool {
    match test {
        Test::Equal => left == right,
        Test::NotEqual => left != right,
        Test::Less => left < right,
        Test::Below => (left as u64) < right as u64,
    }
}

impl Code {
    /// What the result registers hold after all lines, which run from the first to the last.
    pub fn run(&self, arguments: &[i64], memory: &mut Memory) -> Vec<i64> {
        let mut registers = Registers(vec![0]);
        registers.0.extend(arguments);
        for line in &self.lines {
            let value = registers.step(&line.instruction, memory);
            registers.set(line.destination, value);
        }
        self.results.iter().map(|result| registers.get(*result)).collect()
    }
}

impl fmt::Debug for Register {
    fn fmt(&self, f: &mut fmt::Formatter) -> fmt::Result {
        match *self {
            ZERO => write!(f, "zero"),
            Register(number) => write!(f, "r{number}"),
        }
    }
}
