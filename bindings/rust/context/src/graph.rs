//! Values: a parameter, the result of an instruction, or either of two values that are equal.

#[derive(Clone, Copy, Debug, PartialEq, Eq, Hash, PartialOrd, Ord)]
pub struct Type(pub u8);

pub const I8: Type = Type(8);
pub const I16: Type = Type(16);
pub const I32: Type = Type(32);
pub const I64: Type = Type(64);

#[derive(Clone, Copy, Debug, PartialEq, Eq, Hash, PartialOrd, Ord)]
pub struct Value(pub u32);

pub type ValueArray2 = [Value; 2];

/// Not Copy, because `Cond` isn't. Code that took one by value wouldn't compile.
#[derive(Clone, Debug, PartialEq, Eq)]
pub enum Opcode {
    Iadd,
    Isub,
    Imul,
    Ishl,
    Band,
    Bor,
    Ineg,
    Bnot,
    Iconst,
    Icmp,
    Load,
    Call,
}

#[derive(Clone, Debug)]
pub enum Cond {
    Eq,
    Ne,
    Lt,
    Ge,
}

#[derive(Clone, Debug)]
pub enum InstData {
    Unary {
        opcode: Opcode,
        arg: Value,
    },
    Binary {
        opcode: Opcode,
        args: ValueArray2,
    },
    UnaryImm {
        opcode: Opcode,
        imm: i64,
    },
    IntCompare {
        opcode: Opcode,
        cond: Cond,
        args: ValueArray2,
    },
    Load {
        opcode: Opcode,
        offset: i32,
        arg: Value,
    },
    Call {
        opcode: Opcode,
        callee: i64,
    },
}

#[derive(Clone, Debug)]
pub enum Def {
    Param(Type),
    Inst(Type, InstData),
    Union(Value, Value),
}

#[derive(Default)]
pub struct Graph(pub Vec<Def>);

impl Graph {
    pub fn push(&mut self, def: Def) -> Value {
        self.0.push(def);
        Value(self.0.len() as u32 - 1)
    }

    pub fn def(&self, value: Value) -> Def {
        self.0[value.0 as usize].clone()
    }

    pub fn ty(&self, value: Value) -> Type {
        match self.def(value) {
            Def::Param(ty) | Def::Inst(ty, _) => ty,
            Def::Union(first, _) => self.ty(first),
        }
    }

    /// The instruction that makes a value. For a union it is the first one, and for a parameter a load without an offset.
    pub fn first_data(&self, value: Value) -> InstData {
        match self.def(value) {
            Def::Param(_) => InstData::Load {
                opcode: Opcode::Icmp,
                offset: 0,
                arg: value,
            },
            Def::Inst(_, data) => data,
            Def::Union(first, _) => self.first_data(first),
        }
    }

    /// A value as text.
    pub fn text(&self, value: Value) -> String {
        match self.def(value) {
            Def::Param(_) => format!("p{}", value.0),
            Def::Union(first, second) => {
                format!("{{{} | {}}}", self.text(first), self.text(second))
            }
            Def::Inst(ty, data) => match data {
                InstData::Unary { opcode, arg } => {
                    format!("({opcode:?}.{} {})", ty.0, self.text(arg))
                }
                InstData::Binary { opcode, args } => format!(
                    "({opcode:?}.{} {} {})",
                    ty.0,
                    self.text(args[0]),
                    self.text(args[1])
                ),
                InstData::UnaryImm { imm, .. } => format!("{imm}"),
                InstData::IntCompare { cond, args, .. } => {
                    format!("({cond:?} {} {})", self.text(args[0]), self.text(args[1]))
                }
                InstData::Load { offset, arg, .. } => format!("(Load {} {offset})", self.text(arg)),
                InstData::Call { callee, .. } => format!("(Call {callee})"),
            },
        }
    }
}
