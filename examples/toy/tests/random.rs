//! That code computes what its program says, on 2,000 random programs. There is nothing random in it but the look: the
//! numbers come from a fixed seed.

use toy::input::{Condition, Instruction, Operation, Program, Value};
use toy::lowering::lower;
use toy::memory::Memory;

use std::collections::BTreeSet;

/// Numbers that look random (SplitMix64).
struct Numbers(u64);

impl Numbers {
    fn next(&mut self) -> u64 {
        self.0 = self.0.wrapping_add(0x9E37_79B9_7F4A_7C15);
        let mixed = (self.0 ^ (self.0 >> 30)).wrapping_mul(0xBF58_476D_1CE4_E5B9);
        let mixed = (mixed ^ (mixed >> 27)).wrapping_mul(0x94D0_49BB_1331_11EB);
        mixed ^ (mixed >> 31)
    }

    fn below(&mut self, bound: usize) -> usize {
        (self.next() % bound as u64) as usize
    }

    fn one_of<T: Copy>(&mut self, items: &[T]) -> T {
        items[self.below(items.len())]
    }

    /// A small number, one that rules speak of or one next to it, or any.
    fn number(&mut self) -> i64 {
        let edges = [0, 3, 5, 8, 9, 64, 255, 32767, -1, -32768];
        match self.below(8) {
            0 => self.next() as i64,
            1 => self.below(70_000) as i64 - 35_000,
            2..=4 => self.one_of(&edges) + self.below(3) as i64 - 1,
            _ => self.below(4) as i64,
        }
    }

    /// A value for an instruction to use: a new constant, one of the last values, or any.
    fn operand(&mut self, program: &mut Program) -> Value {
        let count = program.instructions.len();
        match self.below(6) {
            0 | 1 => program.constant(self.number()),
            2..=4 => Value(count - 1 - self.below(count.min(3))),
            _ => Value(self.below(count)),
        }
    }
}

const OPERATIONS: [Operation; 9] = {
    use Operation::*;
    [Add, Subtract, Multiply, And, Or, Xor, ShiftLeft, ShiftRight, ShiftRightSigned]
};

const CONDITIONS: [Condition; 6] = {
    use Condition::*;
    [Equal, NotEqual, Less, LessEqual, Below, BelowEqual]
};

/// Adds an instruction to the program, and gives the value that it makes.
fn add_instruction(numbers: &mut Numbers, program: &mut Program) -> Value {
    let kind = numbers.below(20);
    let operation = numbers.one_of(&OPERATIONS);
    let condition = numbers.one_of(&CONDITIONS);
    let mut operand = || numbers.operand(program);
    let instruction = match kind {
        0 => Instruction::Negate { operand: operand() },
        1 | 2 => Instruction::Not { operand: operand() },
        3..=7 => Instruction::Binary { operation, left: operand(), right: operand() },
        8 | 9 => Instruction::Binary { operation: Operation::Add, left: operand(), right: operand() },
        10 | 11 => Instruction::Binary { operation: Operation::Multiply, left: operand(), right: operand() },
        12 | 13 => Instruction::Binary { operation: Operation::ShiftLeft, left: operand(), right: operand() },
        14 => Instruction::Compare { condition, left: operand(), right: operand() },
        15 | 16 => Instruction::Select { condition: operand(), if_true: operand(), if_false: operand() },
        17 | 18 => Instruction::Load { address: operand() },
        _ => Instruction::Store { address: operand(), value: operand() },
    };
    program.push(instruction)
}

/// A program of three arguments and up to 40 other instructions, not counting constants.
fn random_program(numbers: &mut Numbers) -> Program {
    let mut program = Program::default();
    for number in 0..3 {
        program.argument(number);
    }
    for _ in 0..5 + numbers.below(35) {
        add_instruction(numbers, &mut program);
    }
    let last = add_instruction(numbers, &mut program);
    let other = numbers.operand(&mut program);
    program.results = vec![last, other];
    program
}

#[test]
fn code_computes_what_the_program_says() {
    let mut numbers = Numbers(2026);
    let mut kinds = BTreeSet::new();
    for _ in 0..2000 {
        let program = random_program(&mut numbers);
        let code = lower(&program);
        kinds.extend(code.lines.iter().map(|line| kind(&format!("{:?}", line.instruction))));
        for _ in 0..5 {
            let arguments = [0; 3].map(|_: i32| numbers.number());
            let mut memory = Memory::counting();
            let mut memory_of_code = memory.clone();
            let meant = program.run(&arguments, &mut memory);
            assert_eq!(code.run(&arguments, &mut memory_of_code), meant, "{program:?} {code:?} {arguments:?}");
            assert_eq!(memory_of_code, memory, "{program:?} {code:?} {arguments:?}");
        }
    }
    // The machine has fifteen instructions, and each of them was wanted somewhere.
    assert_eq!(kinds.len(), 15, "{kinds:?}");
}

/// The first word of a text.
fn kind(text: &str) -> String {
    text.chars().take_while(|character| character.is_alphanumeric()).collect()
}
