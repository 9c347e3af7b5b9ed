//! What the rules give, worked out by hand.

use patched::generated_code::{constructor_lower, constructor_ways, MInst};
use patched::{InstructionData, Opcode, Program, Value};

fn binary(opcode: Opcode, x: usize, y: usize) -> Option<InstructionData> {
    Some(InstructionData::Binary {
        opcode,
        args: [Value(x), Value(y)],
    })
}

fn constant(imm: i64) -> Option<InstructionData> {
    Some(InstructionData::Const { imm })
}

fn load(arg: usize, offset: i32) -> Option<InstructionData> {
    Some(InstructionData::Load {
        opcode: Opcode::Load,
        arg: Value(arg),
        offset,
    })
}

// The instruction of the last value.
fn lowered(program: Vec<Option<InstructionData>>) -> Option<String> {
    let last = Value(program.len() - 1);
    let inst = constructor_lower(&mut Program(program), last)?;
    Some(format!("{inst:?}"))
}

#[test]
fn a_sum() {
    let program = vec![None, None, binary(Opcode::Add, 0, 1)];
    let told = "Add { x: Reg(0), y: Reg(1) }";
    assert_eq!(lowered(program).as_deref(), Some(told));
}

#[test]
fn a_sum_with_a_constant() {
    let small = vec![None, constant(7), binary(Opcode::Add, 0, 1)];
    let told = "AddImm { x: Reg(0), imm: 7 }";
    assert_eq!(lowered(small).as_deref(), Some(told));
    let large = vec![None, constant(1 << 40), binary(Opcode::Add, 0, 1)];
    let told = "Add { x: Reg(0), y: Reg(1) }";
    assert_eq!(lowered(large).as_deref(), Some(told));
}

#[test]
fn a_load_with_a_shifted_index() {
    let program = |shift| {
        vec![
            None,
            None,
            constant(shift),
            binary(Opcode::Shl, 1, 2),
            binary(Opcode::Add, 0, 3),
            load(4, 0),
        ]
    };
    let told = "Load { address: Scaled { base: Reg(0), index: Reg(1), shift: 3 } }";
    assert_eq!(lowered(program(3)).as_deref(), Some(told));
    let told = "Load { address: Offset { base: Reg(4), offset: 0 } }";
    assert_eq!(lowered(program(4)).as_deref(), Some(told));
}

#[test]
fn a_load_with_an_offset() {
    let program = |offset| {
        vec![
            None,
            constant(16),
            binary(Opcode::Add, 0, 1),
            load(2, offset),
        ]
    };
    let told = "Load { address: Offset { base: Reg(0), offset: 16 } }";
    assert_eq!(lowered(program(0)).as_deref(), Some(told));
    let told = "Load { address: Offset { base: Reg(2), offset: 4 } }";
    assert_eq!(lowered(program(4)).as_deref(), Some(told));
}

#[test]
fn a_parameter_has_no_instruction() {
    assert_eq!(lowered(vec![None]), None);
}

#[test]
fn all_ways() {
    let mut program = Program(vec![None, constant(7), binary(Opcode::Add, 0, 1)]);
    let mut ways: Vec<MInst> = Vec::new();
    constructor_ways(&mut program, Value(2), &mut ways);
    let mut told: Vec<String> = ways.iter().map(|inst| format!("{inst:?}")).collect();
    told.sort();
    assert_eq!(
        told,
        [
            "AddImm { x: Reg(0), imm: 7 }",
            "AddImm { x: Reg(2), imm: 0 }"
        ]
    );
}
