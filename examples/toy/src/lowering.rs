//! From the input to code of the machine: what the rules ask of Rust (`Context`), and the loop around them.

use crate::input::{Condition, Instruction, Operation, Program, Value};
use crate::machine::{Code, Line, Register, ZERO};
use crate::rules::{self, Address, Context, Machine};
use std::collections::{HashMap, HashSet};

/// The code of a program.
///
/// Loads and stores are lowered in the order in which they stand. Every other value is lowered where it is first asked
/// for, once; what nothing asks for gets no code.
pub fn lower(program: &Program) -> Code {
    let mut lowering = Lowering::new(program);
    for (number, instruction) in program.instructions.iter().enumerate() {
        if instruction.touches_memory() {
            lowering.register_of(Value(number));
        }
    }
    let results = program.results.iter().map(|result| lowering.register_of(*result)).collect();
    Code { lines: lowering.lines, results }
}

/// All ways that the rules know to say an address.
pub fn addresses(program: &Program, address: Value) -> Vec<Address> {
    let mut ways = vec![];
    rules::constructor_addresses(&mut Lowering::new(program), address, &mut ways);
    ways
}

struct Lowering<'a> {
    program: &'a Program,
    /// How many operands and results are each value.
    uses: Vec<usize>,
    /// Where values and numbers are that have code by now.
    registers: HashMap<Value, Register>,
    constants: HashMap<i64, Register>,
    /// The values whose code is being made, the one asked for last at the end.
    asked: Vec<Value>,
    next_register: u32,
    lines: Vec<Line>,
}

impl Lowering<'_> {
    fn new(program: &Program) -> Lowering<'_> {
        let mut uses = vec![0; program.instructions.len()];
        let operands = program.instructions.iter().flat_map(|instruction| instruction.operands());
        for value in operands.chain(program.results.iter().copied()) {
            uses[value.0] += 1;
        }
        Lowering {
            program,
            uses,
            registers: HashMap::new(),
            constants: HashMap::new(),
            asked: vec![],
            next_register: 1 + program.argument_count(),
            lines: vec![],
        }
    }

    fn fresh_register(&mut self) -> Register {
        self.next_register += 1;
        Register(self.next_register - 1)
    }

    /// How many instructions of the input that have no code yet are needed for the values in an address.
    fn cost(&self, address: &Address) -> usize {
        let mut needed = match *address {
            Address::Absolute { .. } => vec![],
            Address::Based { base, .. } => vec![base],
            Address::Indexed { base, index, .. } => vec![base, index],
        };
        let mut counted = HashSet::new();
        while let Some(value) = needed.pop() {
            if !self.registers.contains_key(&value) && counted.insert(value) {
                needed.extend(self.program.instructions[value.0].operands());
            }
        }
        counted.len()
    }
}

/// Addresses are equal where they show alike, as instructions are.
impl PartialEq for Address {
    fn eq(&self, other: &Address) -> bool {
        format!("{self:?}") == format!("{other:?}")
    }
}

/// The functions that rules/types.isle and its neighbours declare as `extern`, under the same names.
impl Context for Lowering<'_> {
    fn definition(&mut self, value: Value) -> Instruction {
        self.program.instructions[value.0]
    }

    fn used_once(&mut self, value: Value) -> Option<()> {
        (self.uses[value.0] == 1).then_some(())
    }

    fn signed_16(&mut self, value: i64) -> Option<i16> {
        value.try_into().ok()
    }

    fn unsigned_8(&mut self, value: i64) -> Option<u8> {
        value.try_into().ok()
    }

    fn small_shift(&mut self, value: i64) -> Option<u8> {
        (1..=3).contains(&value).then_some(value as u8)
    }

    fn power_of_two(&mut self, value: i64) -> Option<u8> {
        (value as u64).is_power_of_two().then_some(value.trailing_zeros() as u8)
    }

    fn commutative(&mut self, operation: &Operation) -> Option<()> {
        operation.is_commutative().then_some(())
    }

    fn fold(&mut self, operation: &Operation, left: i64, right: i64) -> i64 {
        operation.of(left, right)
    }

    fn fold_compare(&mut self, condition: &Condition, left: i64, right: i64) -> i64 {
        condition.holds(left, right) as i64
    }

    fn widened(&mut self, value: i16) -> i64 {
        value.into()
    }

    fn low_16(&mut self, value: i64) -> u16 {
        value as u16
    }

    fn argument_register(&mut self, number: u32) -> Register {
        Register(1 + number)
    }

    fn emit(&mut self, instruction: &Machine) -> Register {
        let destination = match instruction {
            Machine::Store { .. } => ZERO,
            _ => self.fresh_register(),
        };
        let made_for = *self.asked.last().expect("rules run for a value alone");
        self.lines.push(Line { destination, instruction: instruction.clone(), made_for });
        destination
    }

    fn register_of(&mut self, value: Value) -> Register {
        if let Some(register) = self.registers.get(&value) {
            return *register;
        }
        self.asked.push(value);
        let register = rules::constructor_lower(self, value);
        self.asked.pop();
        self.registers.insert(value, register);
        register
    }

    fn constant_register(&mut self, value: i64) -> Register {
        if let Some(register) = self.constants.get(&value) {
            return *register;
        }
        let register = rules::constructor_load_constant(self, value);
        self.constants.insert(value, register);
        register
    }

    fn cheapest_address(&mut self, address: Value) -> Address {
        let mut ways = vec![];
        rules::constructor_addresses(self, address, &mut ways);
        ways.into_iter().min_by_key(|way| self.cost(way)).expect("there is always the value itself")
    }
}
