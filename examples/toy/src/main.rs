//! Lowers a small program, prints its code beside it, and runs both.

use toy::input::{Condition, Instruction, Operation, Program, Value};
use toy::lowering::{addresses, lower};
use toy::machine::Code;
use toy::memory::Memory;

/// table[index + 2] = table[index] * factor + (if index <= 100 { index } else { 70000 }), for numbers of eight bytes;
/// and the place of table[index + 2].
fn program() -> (Program, Value) {
    let mut program = Program::default();
    let table = program.argument(0);
    let index = program.argument(1);
    let factor = program.argument(2);
    let three = program.constant(3);
    let scaled = program.binary(Operation::ShiftLeft, index, three);
    let place = program.binary(Operation::Add, table, scaled);
    let element = program.push(Instruction::Load { address: place });
    let product = program.binary(Operation::Multiply, element, factor);
    let hundred = program.constant(100);
    let is_small = program.push(Instruction::Compare { condition: Condition::LessEqual, left: index, right: hundred });
    let large = program.constant(70_000);
    let added = program.push(Instruction::Select { condition: is_small, if_true: index, if_false: large });
    let sum = program.binary(Operation::Add, product, added);
    let sixteen = program.constant(16);
    let next_place = program.binary(Operation::Add, place, sixteen);
    program.push(Instruction::Store { address: next_place, value: sum });
    program.results.push(sum);
    (program, next_place)
}

fn main() {
    let (program, next_place) = program();
    let code = lower(&program);
    print_both(&program, &code);

    println!("\nWays to say the address {next_place:?}, of which the store takes the cheapest:");
    for way in addresses(&program, next_place) {
        println!("  {way:?}");
    }

    let arguments = [32, 5, -3];
    let mut memory = Memory::counting();
    let mut memory_of_code = memory.clone();
    let meant = program.run(&arguments, &mut memory);
    let got = code.run(&arguments, &mut memory_of_code);
    println!("\nOn {arguments:?} the program gives {meant:?}, its code {got:?};");
    println!("what they leave in memory is {}.", if memory == memory_of_code { "the same" } else { "not the same" });
}

/// Each instruction of the input, and below it the code that was made when it was asked for.
fn print_both(program: &Program, code: &Code) {
    for (number, instruction) in program.instructions.iter().enumerate() {
        println!("{:?} = {instruction:?}", Value(number));
        for (place, line) in code.lines.iter().enumerate().filter(|(_, line)| line.made_for == Value(number)) {
            println!("      {place}: {:?} = {:?}", line.destination, line.instruction);
        }
    }
    println!("results: {:?}", code.results);
}
