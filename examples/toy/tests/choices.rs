//! That the instructions that are wanted are chosen, group by group of the rules. Each code is also run beside its
//! program.

use toy::input::{Condition, Instruction, Operation, Program, Value};
use toy::lowering::{addresses, lower};
use toy::machine::{Register, ZERO};
use toy::memory::Memory;
use toy::rules::{Address, Machine, Mode, Test};

use Operation::*;

/// The registers of the arguments, and the first two that code writes.
const X: Register = Register(1);
const Y: Register = Register(2);
const Z: Register = Register(3);
const FIRST: Register = Register(4);
const SECOND: Register = Register(5);

/// A program of three arguments whose result is built by `build` from them.
fn program(build: impl FnOnce(&mut Program, [Value; 3]) -> Value) -> Program {
    let mut program = Program::default();
    let arguments = [0, 1, 2].map(|number| program.argument(number));
    let result = build(&mut program, arguments);
    program.results.push(result);
    program
}

/// The code of such a program, which computes what the program says, and the register of its result.
fn code_of(program: &Program) -> (Vec<Machine>, Register) {
    let code = lower(program);
    for arguments in [[0, 0, 0], [1, 2, 3], [-1, 40, i64::MIN], [100_000, 7, 7], [5, -8, 256]] {
        let mut memory = Memory::counting();
        let mut memory_of_code = memory.clone();
        assert_eq!(program.run(&arguments, &mut memory), code.run(&arguments, &mut memory_of_code));
        assert_eq!(memory, memory_of_code);
    }
    (code.lines.into_iter().map(|line| line.instruction).collect(), code.results[0])
}

fn code(build: impl FnOnce(&mut Program, [Value; 3]) -> Value) -> Vec<Machine> {
    code_of(&program(build)).0
}

/// The code and the result of `x operation constant`.
fn with_constant(operation: Operation, constant: i64) -> (Vec<Machine>, Register) {
    code_of(&program(|p, [x, ..]| {
        let right = p.constant(constant);
        p.binary(operation, x, right)
    }))
}

/// The code of `constant operation x`.
fn behind_constant(constant: i64, operation: Operation) -> Vec<Machine> {
    code(|p, [x, ..]| {
        let left = p.constant(constant);
        p.binary(operation, left, x)
    })
}

fn nothing_but(result: Register) -> (Vec<Machine>, Register) {
    (vec![], result)
}

fn one(instruction: Machine) -> (Vec<Machine>, Register) {
    (vec![instruction], FIRST)
}

#[test]
fn operands_stand_in_registers() {
    for operation in [Add, Subtract, Multiply, And, Or, Xor, ShiftLeft, ShiftRight, ShiftRightSigned] {
        let wanted = vec![Machine::Binary { operation, left: X, right: Y }];
        assert_eq!(code(|p, [x, y, _]| p.binary(operation, x, y)), wanted);
    }
}

#[test]
fn constants_are_made_of_sixteen_bits_each() {
    let constant = |value| code_of(&program(|p, _| p.constant(value)));
    assert_eq!(constant(0), nothing_but(ZERO));
    assert_eq!(constant(-32768), one(Machine::SetConstant { value: -32768 }));
    assert_eq!(
        constant(0x12345678).0,
        [Machine::SetConstant { value: 0x1234 }, Machine::AppendBits { source: FIRST, bits: 0x5678 }]
    );
    assert_eq!(constant(32768).0, [Machine::AppendBits { source: ZERO, bits: 0x8000 }]);
    assert_eq!(constant(i64::MAX).0.len(), 4);
}

#[test]
fn a_constant_is_made_once() {
    let lines = code(|p, [x, ..]| {
        let [a, b] = [1000, 1000].map(|value| p.constant(value));
        let masked = p.binary(And, x, a);
        p.binary(Or, masked, b)
    });
    assert_eq!(lines.iter().filter(|line| matches!(line, Machine::SetConstant { .. })).count(), 1);
}

#[test]
fn constants_that_fit_stand_in_the_instruction() {
    for operation in [Multiply, And, Or, Xor, ShiftLeft, ShiftRight, ShiftRightSigned] {
        assert_eq!(with_constant(operation, 11), one(Machine::BinaryImmediate { operation, left: X, right: 11 }));
        assert_eq!(with_constant(operation, 300).0.len(), 2);
    }
    assert_eq!(with_constant(Add, -32768), one(Machine::AddImmediate { left: X, right: -32768 }));
    assert_eq!(with_constant(Add, 32768).0.len(), 2);
    assert_eq!(with_constant(Subtract, 32768), one(Machine::AddImmediate { left: X, right: -32768 }));
}

#[test]
fn a_constant_on_the_left_is_taken_to_the_right_where_that_is_the_same() {
    assert_eq!(behind_constant(11, And), [Machine::BinaryImmediate { operation: And, left: X, right: 11 }]);
    assert_eq!(behind_constant(11, Add), [Machine::AddImmediate { left: X, right: 11 }]);
    let wanted = [Machine::SetConstant { value: 11 }, Machine::Binary { operation: Subtract, left: FIRST, right: X }];
    assert_eq!(behind_constant(11, Subtract), wanted);
}

#[test]
fn constants_are_computed_now() {
    let folded = code(|p, _| {
        let [a, b] = [6, 7].map(|value| p.constant(value));
        p.binary(Multiply, a, b)
    });
    assert_eq!(folded, [Machine::SetConstant { value: 42 }]);
    let chain = code(|p, [x, ..]| {
        let [a, b] = [20_000, 10_000].map(|value| p.constant(value));
        let inner = p.binary(Add, x, a);
        p.binary(Add, inner, b)
    });
    assert_eq!(chain, [Machine::AddImmediate { left: X, right: 30_000 }]);
    let compared = code(|p, _| {
        let [left, right] = [-1, 1].map(|value| p.constant(value));
        compare(p, Condition::Less, left, right)
    });
    assert_eq!(compared, [Machine::SetConstant { value: 1 }]);
}

#[test]
fn what_changes_nothing_costs_nothing() {
    for operation in [Add, Subtract, Or, Xor, ShiftLeft, ShiftRight, ShiftRightSigned] {
        assert_eq!(with_constant(operation, 0), nothing_but(X));
    }
    assert_eq!(with_constant(And, -1), nothing_but(X));
    assert_eq!(with_constant(Multiply, 1), nothing_but(X));
    assert_eq!(with_constant(And, 0), nothing_but(ZERO));
    assert_eq!(with_constant(Multiply, 0), nothing_but(ZERO));
}

#[test]
fn one_value_as_both_operands() {
    let twice = |operation| code_of(&program(|p, [x, ..]| p.binary(operation, x, x)));
    assert_eq!(twice(Add), one(Machine::BinaryImmediate { operation: ShiftLeft, left: X, right: 1 }));
    assert_eq!(twice(And), nothing_but(X));
    assert_eq!(twice(Or), nothing_but(X));
    assert_eq!(twice(Subtract), nothing_but(ZERO));
    assert_eq!(twice(Xor), nothing_but(ZERO));
}

#[test]
fn multiplications_become_shifts_and_sums() {
    let shift = |right| Machine::BinaryImmediate { operation: ShiftLeft, left: X, right };
    assert_eq!(with_constant(Multiply, 8), one(shift(3)));
    assert_eq!(with_constant(Multiply, i64::MIN), one(shift(63)));
    for (factor, shift) in [(3, 1), (5, 2), (9, 3)] {
        assert_eq!(with_constant(Multiply, factor), one(Machine::ShiftedAdd { left: X, right: X, shift }));
    }
    assert_eq!(with_constant(Multiply, -1), one(Machine::Binary { operation: Subtract, left: ZERO, right: X }));
    let wanted = vec![shift(3), Machine::Binary { operation: Subtract, left: FIRST, right: X }];
    assert_eq!(with_constant(Multiply, 7), (wanted, SECOND));
}

#[test]
fn an_operand_becomes_part_of_the_instruction() {
    // With the changed operand on the right, and on the left.
    let with = |operation, change: fn(Value) -> Instruction| {
        [false, true].map(|is_left| {
            code(|p, [x, y, _]| {
                let changed = p.push(change(y));
                let [left, right] = if is_left { [changed, x] } else { [x, changed] };
                p.binary(operation, left, right)
            })
        })
    };
    let negate = |operand| Instruction::Negate { operand };
    let not = |operand| Instruction::Not { operand };
    let difference = [Machine::Binary { operation: Subtract, left: X, right: Y }];
    assert_eq!(with(Add, negate), [difference.clone(), difference]);
    assert_eq!(with(Subtract, negate)[0], [Machine::Binary { operation: Add, left: X, right: Y }]);
    assert_eq!(with(And, not), [[Machine::AndNot { left: X, right: Y }], [Machine::AndNot { left: X, right: Y }]]);
    assert_eq!(with(Or, not), [[Machine::OrNot { left: X, right: Y }], [Machine::OrNot { left: X, right: Y }]]);
}

#[test]
fn shifts_and_products_become_part_of_a_sum() {
    let sum = |operation, constant: Option<i64>, is_left: bool| {
        code(|p, [x, y, z]| {
            let factor = constant.map_or(z, |value| p.constant(value));
            let operand = p.binary(operation, y, factor);
            let [left, right] = if is_left { [operand, x] } else { [x, operand] };
            p.binary(Add, left, right)
        })
    };
    for is_left in [false, true] {
        assert_eq!(sum(ShiftLeft, Some(3), is_left), [Machine::ShiftedAdd { left: X, right: Y, shift: 3 }]);
        assert_eq!(sum(ShiftLeft, Some(4), is_left).len(), 2);
        assert_eq!(sum(Multiply, None, is_left), [Machine::MultiplyAdd { left: Y, right: Z, added: X }]);
    }
    let difference = code(|p, [x, y, z]| {
        let product = p.binary(Multiply, y, z);
        p.binary(Subtract, x, product)
    });
    assert_eq!(difference, [Machine::MultiplySubtract { left: Y, right: Z, from: X }]);
}

#[test]
fn a_product_that_is_used_twice_is_made_once() {
    let lines = code(|p, [x, y, z]| {
        let product = p.binary(Multiply, y, z);
        let sum = p.binary(Add, x, product);
        p.binary(Xor, sum, product)
    });
    let wanted = [
        Machine::Binary { operation: Multiply, left: Y, right: Z },
        Machine::Binary { operation: Add, left: X, right: FIRST },
        Machine::Binary { operation: Xor, left: SECOND, right: FIRST },
    ];
    assert_eq!(lines, wanted);
}

#[test]
fn negations_come_together() {
    let negated = |inner: fn(&mut Program, Value, Value) -> Value| {
        code_of(&program(|p, [x, y, _]| {
            let operand = inner(p, x, y);
            p.push(Instruction::Negate { operand })
        }))
    };
    assert_eq!(negated(|_, x, _| x), one(Machine::Binary { operation: Subtract, left: ZERO, right: X }));
    assert_eq!(negated(|p, x, _| p.push(Instruction::Negate { operand: x })), nothing_but(X));
    let exchanged = Machine::Binary { operation: Subtract, left: Y, right: X };
    assert_eq!(negated(|p, x, y| p.binary(Subtract, x, y)), one(exchanged));
    assert_eq!(negated(|p, _, _| p.constant(5)), one(Machine::SetConstant { value: -5 }));

    let not = |p: &mut Program, operand| p.push(Instruction::Not { operand });
    assert_eq!(code(|p, [x, ..]| not(p, x)), [Machine::OrNot { left: ZERO, right: X }]);
    assert_eq!(with_constant(Xor, -1), one(Machine::OrNot { left: ZERO, right: X }));
    let twice = program(|p, [x, ..]| {
        let inner = not(p, x);
        not(p, inner)
    });
    assert_eq!(code_of(&twice), nothing_but(X));
    let of_constant = code(|p, _| {
        let operand = p.constant(5);
        not(p, operand)
    });
    assert_eq!(of_constant, [Machine::SetConstant { value: -6 }]);
}

fn compare(p: &mut Program, condition: Condition, left: Value, right: Value) -> Value {
    p.push(Instruction::Compare { condition, left, right })
}

#[test]
fn six_conditions_by_four_tests() {
    let of = |condition| code(|p, [x, y, _]| compare(p, condition, x, y));
    let compare_xy = |test| Machine::Compare { test, left: X, right: Y };
    assert_eq!(of(Condition::Equal), [compare_xy(Test::Equal)]);
    assert_eq!(of(Condition::NotEqual), [compare_xy(Test::NotEqual)]);
    assert_eq!(of(Condition::Less), [compare_xy(Test::Less)]);
    assert_eq!(of(Condition::Below), [compare_xy(Test::Below)]);
    // x <= y is not y < x.
    let inverted = Machine::BinaryImmediate { operation: Xor, left: FIRST, right: 1 };
    for (condition, test) in [(Condition::LessEqual, Test::Less), (Condition::BelowEqual, Test::Below)] {
        assert_eq!(of(condition), [Machine::Compare { test, left: Y, right: X }, inverted.clone()]);
    }
    let with_immediate = code(|p, [x, ..]| {
        let right = p.constant(-300);
        compare(p, Condition::Less, x, right)
    });
    assert_eq!(with_immediate, [Machine::CompareImmediate { test: Test::Less, left: X, right: -300 }]);
}

#[test]
fn a_compare_becomes_part_of_a_select() {
    let select = |condition, if_true, if_false| Instruction::Select { condition, if_true, if_false };
    let plain = code(|p, [x, y, z]| p.push(select(x, y, z)));
    assert_eq!(plain, [Machine::Select { test: Test::NotEqual, left: X, right: ZERO, if_true: Y, if_false: Z }]);
    let fused = |condition| {
        code(|p, [x, y, z]| {
            let condition = compare(p, condition, x, y);
            p.push(select(condition, y, z))
        })
    };
    let less = Machine::Select { test: Test::Less, left: X, right: Y, if_true: Y, if_false: Z };
    assert_eq!(fused(Condition::Less), [less]);
    let not_greater = Machine::Select { test: Test::Less, left: Y, right: X, if_true: Z, if_false: Y };
    assert_eq!(fused(Condition::LessEqual), [not_greater]);
    let truth = code(|p, [x, y, _]| {
        let condition = compare(p, Condition::Less, x, y);
        let [if_true, if_false] = [1, 0].map(|value| p.constant(value));
        p.push(select(condition, if_true, if_false))
    });
    assert_eq!(truth, [Machine::Compare { test: Test::Less, left: X, right: Y }]);
    let known = |value| {
        code_of(&program(|p, [x, y, _]| {
            let condition = p.constant(value);
            p.push(select(condition, x, y))
        }))
    };
    assert_eq!(known(0), nothing_but(Y));
    assert_eq!(known(-7), nothing_but(X));
    assert_eq!(code_of(&program(|p, [x, y, _]| p.push(select(x, y, y)))), nothing_but(Y));
}

/// A load whose address is built by `build`.
fn load(build: impl FnOnce(&mut Program, [Value; 3]) -> Value) -> Vec<Machine> {
    code(|p, arguments| {
        let address = build(p, arguments);
        p.push(Instruction::Load { address })
    })
}

#[test]
fn addresses_take_in_sums_shifts_and_constants() {
    let based = |base, offset| [Machine::Load { mode: Mode::Based { base, offset } }];
    let indexed = |shift, offset| [Machine::Load { mode: Mode::Indexed { base: X, index: Y, shift, offset } }];
    assert_eq!(load(|_, [x, ..]| x), based(X, 0));
    assert_eq!(load(|p, _| p.constant(200)), based(ZERO, 200));
    let displaced = |p: &mut Program, operation, base, offset| {
        let right = p.constant(offset);
        p.binary(operation, base, right)
    };
    let sum_of_constants = |p: &mut Program, _| {
        let left = p.constant(100);
        displaced(p, Add, left, 50)
    };
    assert_eq!(load(sum_of_constants), based(ZERO, 150));
    assert_eq!(load(|p, [x, ..]| displaced(p, Add, x, 24)), based(X, 24));
    assert_eq!(load(|p, [x, ..]| displaced(p, Subtract, x, 24)), based(X, -24));
    let displaced_by_left = |p: &mut Program, [x, ..]: [Value; 3]| {
        let left = p.constant(24);
        p.binary(Add, left, x)
    };
    assert_eq!(load(displaced_by_left), based(X, 24));
    let far = [
        Machine::AppendBits { source: ZERO, bits: 40_000 },
        Machine::Load { mode: Mode::Indexed { base: X, index: FIRST, shift: 0, offset: 0 } },
    ];
    assert_eq!(load(|p, [x, ..]| displaced(p, Add, x, 40_000)), far);

    assert_eq!(load(|p, [x, y, _]| p.binary(Add, x, y)), indexed(0, 0));
    let element = |is_left: bool| {
        move |p: &mut Program, [x, y, _]: [Value; 3]| {
            let scaled = displaced(p, ShiftLeft, y, 3);
            let [left, right] = if is_left { [scaled, x] } else { [x, scaled] };
            p.binary(Add, left, right)
        }
    };
    for is_left in [false, true] {
        assert_eq!(load(element(is_left)), indexed(3, 0));
        let behind = |p: &mut Program, arguments| {
            let place = element(is_left)(p, arguments);
            displaced(p, Add, place, 16)
        };
        assert_eq!(load(behind), indexed(3, 16));
    }
}

#[test]
fn all_ways_to_say_an_address_are_listed() {
    let mut program = Program::default();
    let [x, y] = [0, 1].map(|number| program.argument(number));
    let offset = program.constant(8);
    let inner = program.binary(Add, x, offset);
    let sum = program.binary(Add, inner, y);
    let outer = program.binary(Add, sum, offset);
    let ways = addresses(&program, outer);
    let wanted = [
        Address::Based { base: outer, offset: 0 },
        Address::Based { base: sum, offset: 8 },
        Address::Indexed { base: sum, index: offset, shift: 0, offset: 0 },
        Address::Indexed { base: inner, index: y, shift: 0, offset: 8 },
    ];
    assert_eq!(ways.len(), wanted.len());
    assert!(wanted.iter().all(|way| ways.contains(way)));
}

#[test]
fn an_address_that_is_in_a_register_is_taken_from_there() {
    let mut program = Program::default();
    let [x, y] = [0, 1].map(|number| program.argument(number));
    let place = program.binary(Multiply, x, y);
    let eight = program.constant(8);
    let next = program.binary(Add, place, eight);
    program.push(Instruction::Store { address: next, value: next });
    program.push(Instruction::Store { address: place, value: place });
    // What the first store takes makes both addresses: a product, a sum, and two stores.
    assert_eq!(lines_of(&program).len(), 4);
}

#[test]
fn loads_and_stores_stay_in_order_and_what_nobody_asks_for_is_not_made() {
    let mut program = Program::default();
    let [x, y] = [0, 1].map(|number| program.argument(number));
    let unused = program.binary(Multiply, x, y);
    program.binary(Xor, unused, y);
    let before = program.push(Instruction::Load { address: x });
    program.push(Instruction::Store { address: x, value: y });
    let after = program.push(Instruction::Load { address: x });
    let difference = program.binary(Subtract, after, before);
    program.results.push(difference);
    let mode = Mode::Based { base: X, offset: 0 };
    // The registers of the two loads are those behind the two arguments.
    let [first, second] = [Register(3), Register(4)];
    let wanted = [
        Machine::Load { mode: mode.clone() },
        Machine::Store { mode: mode.clone(), value: Y },
        Machine::Load { mode },
        Machine::Binary { operation: Subtract, left: second, right: first },
    ];
    assert_eq!(lines_of(&program), wanted);
}

fn lines_of(program: &Program) -> Vec<Machine> {
    lower(program).lines.into_iter().map(|line| line.instruction).collect()
}
