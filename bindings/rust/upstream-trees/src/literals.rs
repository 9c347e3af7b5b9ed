//! Literals that their built-in type doesn't have, as 256 of `u8`. The original keeps the number that is written, and `isle` the
//! number of the type's range that it stands for (`docs/DIFFERENCES.md`).

use cranelift_isle::sema::{BuiltinType, IntType, Type, TypeEnv, TypeId};
use cranelift_isle::serialize::{Block, ControlFlow};
use cranelift_isle::trie_again::{Binding, Constraint, RuleSet};

/// These literals in a term's tree, each with its type, in the order of sites and then of arms. A literal may be there twice.
pub fn literals_past_range(types: &TypeEnv, rules: &RuleSet, block: &Block) -> Vec<String> {
    let mut literals = Vec::new();
    for site in &rules.bindings {
        if let Binding::ConstInt { val, ty } = site {
            literals.push((*val, *ty));
        }
    }
    push_literals(block, &mut literals);
    literals
        .into_iter()
        .filter(|(number, ty)| !has(types, *ty, *number))
        .map(|(number, ty)| format!("{number} of {}", types.types[ty.index()].name(types)))
        .collect()
}

// Adds the literals that a block asks for.
fn push_literals(block: &Block, literals: &mut Vec<(i128, TypeId)>) {
    for step in &block.steps {
        match &step.check {
            ControlFlow::Match { arms, .. } => {
                for arm in arms {
                    if let Constraint::ConstInt { val, ty } = arm.constraint {
                        literals.push((val, ty));
                    }
                    push_literals(&arm.body, literals);
                }
            }
            ControlFlow::Equal { body, .. } | ControlFlow::Loop { body, .. } => {
                push_literals(body, literals);
            }
            ControlFlow::Return { .. } => {}
        }
    }
}

// Whether a type has this number, which is so of each type that isn't a built-in integer type.
fn has(types: &TypeEnv, ty: TypeId, number: i128) -> bool {
    let Type::Builtin(BuiltinType::Int(int)) = &types.types[ty.index()] else {
        return true;
    };
    let bits = match int {
        IntType::U8 | IntType::I8 => 8,
        IntType::U16 | IntType::I16 => 16,
        IntType::U32 | IntType::I32 => 32,
        IntType::U64 | IntType::I64 | IntType::USize | IntType::ISize => 64,
        // A number of 128 bits is kept by its bits.
        IntType::U128 | IntType::I128 => return true,
    };
    if int.is_signed() {
        let half = 1 << (bits - 1);
        (-half..half).contains(&number)
    } else {
        (0..1 << bits).contains(&number)
    }
}
