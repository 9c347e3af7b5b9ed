//! A `Context` as it is written for the original's code. It follows the form in `docs/RUST-CODE.md`, and nothing else: if the
//! code of the rules doesn't fit it, that code is wrong.
#![deny(warnings)]

pub mod generated_code;
pub mod graph;
pub mod machine;

pub use generated_code::{
    AluOp, Amode, ConsumesFlags, MInst, Pair, ProducesFlags, Secret, Shape, Size,
};
pub use graph::{Cond, Def, Graph, InstData, Opcode, Type, Value, ValueArray2, I16, I32, I64, I8};
pub use machine::{Blob, BoxInfo, CallInfo, Imm12, Operand, Reg, WritableReg, ZERO};

use generated_code::{ContextIter, ContextIterWrapper, IntoContextIter, Length};
use std::marker::PhantomData;

pub type Unit = ();

/// A call of a multi term gives at most so many results. If a term makes the call, they go into the list below.
pub const MAX_ISLE_RETURNS: usize = 8;
pub type ConstructorVec<T> = Few<T>;

/// A list that isn't a `Vec`, because the code may not require one.
#[derive(Clone, Debug)]
pub struct Few<T>(Vec<T>);

impl<T> Default for Few<T> {
    fn default() -> Self {
        Few(Vec::with_capacity(MAX_ISLE_RETURNS))
    }
}

impl<T> Extend<T> for Few<T> {
    fn extend<I: IntoIterator<Item = T>>(&mut self, items: I) {
        self.0.extend(items)
    }
}

impl<T> IntoIterator for Few<T> {
    type Item = T;
    type IntoIter = std::vec::IntoIter<T>;
    fn into_iter(self) -> Self::IntoIter {
        self.0.into_iter()
    }
}

impl<T> Length for Few<T> {
    fn len(&self) -> usize {
        self.0.len()
    }
}

/// What the rules look at and change, all of it borrowed.
pub struct IsleContext<'a, 'b> {
    pub graph: &'a mut Graph,
    pub code: &'b mut Vec<String>,
    pub registers: u32,
}

impl<'a, 'b> IsleContext<'a, 'b> {
    pub fn new(graph: &'a mut Graph, code: &'b mut Vec<String>) -> Self {
        IsleContext {
            graph,
            code,
            registers: 0,
        }
    }
}

/// The instructions that make a value. The iterator follows a union when it comes to it, so it uses the context between two
/// answers.
#[derive(Default)]
pub struct InstDataIter<'a, 'b> {
    stack: Vec<Value>,
    borrowed: PhantomData<(&'a mut (), &'b mut ())>,
}

impl<'a, 'b> ContextIter for InstDataIter<'a, 'b> {
    type Context = IsleContext<'a, 'b>;
    type Output = (Type, InstData);

    fn next(&mut self, ctx: &mut IsleContext<'a, 'b>) -> Option<(Type, InstData)> {
        while let Some(value) = self.stack.pop() {
            match ctx.graph.def(value) {
                Def::Union(first, second) => {
                    self.stack.push(second);
                    self.stack.push(first);
                }
                Def::Inst(ty, data) => return Some((ty, data)),
                Def::Param(_) => {}
            }
        }
        None
    }
}

impl<'a, 'b> IntoContextIter for InstDataIter<'a, 'b> {
    type Context = IsleContext<'a, 'b>;
    type Output = (Type, InstData);
    type IntoIter = Self;

    fn into_context_iter(self) -> Self {
        self
    }
}

impl<'a, 'b> generated_code::Context for IsleContext<'a, 'b> {
    type inst_data_value_etor_returns = InstDataIter<'a, 'b>;
    fn inst_data_value_etor(&mut self, value: Value, returns: &mut InstDataIter<'a, 'b>) {
        *returns = InstDataIter {
            stack: vec![value],
            borrowed: PhantomData,
        };
    }

    type sum_of_returns = ContextIterWrapper<std::vec::IntoIter<(i64, i64)>, Self>;
    fn sum_of(&mut self, sum: i64, returns: &mut Self::sum_of_returns) {
        let ways: Vec<(i64, i64)> = (0..=sum).map(|first| (first, sum - first)).collect();
        *returns = ways.into_iter().into();
    }

    fn def_data(&mut self, value: Value) -> InstData {
        self.graph.first_data(value)
    }

    fn value_type(&mut self, value: Value) -> Type {
        self.graph.ty(value)
    }

    fn unpack_value_array_2(&mut self, array: ValueArray2) -> (Value, Value) {
        (array[0], array[1])
    }

    fn value_array_2_ctor(&mut self, first: Value, second: Value) -> ValueArray2 {
        [first, second]
    }

    fn fits_in_32(&mut self, ty: Type) -> Option<Type> {
        (ty.0 <= 32).then_some(ty)
    }

    fn is_odd(&mut self, number: i64) -> Option<()> {
        (number % 2 != 0).then_some(())
    }

    fn log2(&mut self, number: i64) -> Option<u8> {
        (number > 0 && number.count_ones() == 1).then(|| number.trailing_zeros() as u8)
    }

    fn cond_of(&mut self, value: Value) -> Option<Cond> {
        match self.graph.first_data(value) {
            InstData::IntCompare { cond, .. } => Some(cond),
            _ => None,
        }
    }

    fn compare_of(&mut self, value: Value) -> Option<(Cond, Value, Value)> {
        match self.graph.first_data(value) {
            InstData::IntCompare { cond, args, .. } => Some((cond, args[0], args[1])),
            _ => None,
        }
    }

    fn amode_parts(&mut self, mem: &Amode) -> Option<(Reg, i32)> {
        match *mem {
            Amode::RegOffset { base, offset } => Some((base, offset)),
            _ => None,
        }
    }

    fn make_inst_ctor(&mut self, ty: Type, data: &InstData) -> Value {
        self.graph.push(Def::Inst(ty, data.clone()))
    }

    type candidates_returns = ContextIterWrapper<Vec<Value>, Self>;
    fn candidates(&mut self, value: Value, returns: &mut Self::candidates_returns) {
        if let Def::Union(first, second) = self.graph.def(value) {
            returns.extend([first, second]);
        }
    }

    fn imm12_from_i64(&mut self, number: i64) -> Option<Imm12> {
        (0..4096).contains(&number).then_some(Imm12(number as u16))
    }

    fn add_i64(&mut self, first: i64, second: i64) -> i64 {
        first.wrapping_add(second)
    }

    fn as_i64(&mut self, number: u8) -> i64 {
        number.into()
    }

    fn invert_cond(&mut self, cond: &Cond) -> Cond {
        match cond {
            Cond::Eq => Cond::Ne,
            Cond::Ne => Cond::Eq,
            Cond::Lt => Cond::Ge,
            Cond::Ge => Cond::Lt,
        }
    }

    fn commutes(&mut self, opcode: &Opcode) -> bool {
        matches!(
            opcode,
            Opcode::Iadd | Opcode::Imul | Opcode::Band | Opcode::Bor
        )
    }

    fn swapped_cond(&mut self, cond: &Cond) -> Option<Cond> {
        matches!(cond, Cond::Eq | Cond::Ne).then(|| cond.clone())
    }

    fn operand_reg(&mut self, operand: &Operand) -> Option<Reg> {
        match operand {
            Operand::Reg(reg) => Some(*reg),
            Operand::Mem(_) => None,
        }
    }

    fn temp_reg(&mut self) -> WritableReg {
        self.registers += 1;
        WritableReg(Reg(self.registers))
    }

    fn to_reg(&mut self, writable: WritableReg) -> Reg {
        writable.0
    }

    fn emit(&mut self, inst: &MInst) -> Unit {
        self.code.push(machine::text(inst));
    }

    fn put_in_reg(&mut self, value: Value) -> Reg {
        Reg(100 + value.0)
    }

    fn put_in_operand(&mut self, value: Value) -> Operand {
        match self.graph.first_data(value) {
            InstData::Load { offset, arg, .. } => Operand::Mem(Box::new(Amode::RegOffset {
                base: Reg(100 + arg.0),
                offset,
            })),
            _ => Operand::Reg(Reg(100 + value.0)),
        }
    }

    fn call_info(&mut self, callee: i64) -> BoxInfo {
        Box::new(CallInfo {
            callee,
            clobbers: vec![1, 2],
        })
    }

    fn blob_of(&mut self, number: i64) -> Option<Blob> {
        (number >= 0).then_some(Blob(number))
    }

    fn is_open(&mut self, secret: &Secret) -> bool {
        match secret {
            Secret::Sealed { blob } => blob.0 == 0,
            Secret::Open => true,
        }
    }

    fn must(&mut self, holds: bool) -> Option<Unit> {
        holds.then_some(())
    }

    fn plus_one(&mut self, number: u32) -> u32 {
        number + 1
    }
}
