//! The function that is lowered: its types, values and instructions, made at random.
use speed::Random;

/// The type of a value. A scalar has one lane.
#[derive(Clone, Copy, Debug, PartialEq, Eq)]
pub struct Type {
    pub float: bool,
    pub lane_bits: u8,
    pub lanes: u8,
}

const fn int(lane_bits: u8, lanes: u8) -> Type {
    Type {
        float: false,
        lane_bits,
        lanes,
    }
}

const fn float(lane_bits: u8, lanes: u8) -> Type {
    Type {
        float: true,
        lane_bits,
        lanes,
    }
}

pub const I8: Type = int(8, 1);
pub const I16: Type = int(16, 1);
pub const I32: Type = int(32, 1);
pub const I64: Type = int(64, 1);
pub const I128: Type = int(128, 1);
pub const F32: Type = float(32, 1);
pub const F64: Type = float(64, 1);
pub const I8X16: Type = int(8, 16);
pub const I16X8: Type = int(16, 8);
pub const I32X4: Type = int(32, 4);
pub const I64X2: Type = int(64, 2);
pub const F32X4: Type = float(32, 4);
pub const F64X2: Type = float(64, 2);

const NARROW: [Type; 4] = [I8, I16, I32, I64];
const INTEGERS: [Type; 10] = [I8, I16, I32, I32, I32, I64, I64, I64, I64, I128];
const FLOATS: [Type; 2] = [F32, F64];
const INTEGER_VECTORS: [Type; 4] = [I8X16, I16X8, I32X4, I64X2];
const VECTORS: [Type; 6] = [I8X16, I16X8, I32X4, I64X2, F32X4, F64X2];
const ALL: [Type; 13] = [
    I8, I16, I32, I64, I128, F32, F64, I8X16, I16X8, I32X4, I64X2, F32X4, F64X2,
];

impl Type {
    pub fn is_scalar_int(self) -> bool {
        self.lanes == 1 && !self.float
    }

    pub fn bits(self) -> u8 {
        self.lane_bits * self.lanes
    }
}

macro_rules! numbers {
    ($($name:ident $inner:ty),*) => {
        $(#[derive(Clone, Copy, Debug, PartialEq, Eq)]
        pub struct $name(pub $inner);)*
    };
}

numbers! {
    Value u32, Inst u32, Imm64 u64, Ieee32 u32, Ieee64 u64, Constant u32, GlobalValue u32, ExternalName u32,
    FuncRef u32, SigRef u32, StackSlot u32, MemFlags u8, TrapCode u8, JumpTable u32, BlockCall u32
}

pub type ValueArray2 = [Value; 2];
pub type ValueArray3 = [Value; 3];
pub type BlockArray2 = [BlockCall; 2];

/// The values from the first to before the last.
#[derive(Clone, Copy, Debug)]
pub struct ValueSlice(pub u32, pub u32);

#[derive(Clone, Copy, Debug, PartialEq, Eq)]
pub enum IntCC {
    Equal,
    NotEqual,
    SignedLessThan,
    SignedGreaterThanOrEqual,
    SignedGreaterThan,
    SignedLessThanOrEqual,
    UnsignedLessThan,
    UnsignedGreaterThanOrEqual,
    UnsignedGreaterThan,
    UnsignedLessThanOrEqual,
}

#[derive(Clone, Copy, Debug, PartialEq, Eq)]
pub enum FloatCC {
    Ordered,
    Unordered,
    Equal,
    NotEqual,
    OrderedNotEqual,
    UnorderedOrEqual,
    LessThan,
    LessThanOrEqual,
    GreaterThan,
    GreaterThanOrEqual,
    UnorderedOrLessThan,
    UnorderedOrLessThanOrEqual,
    UnorderedOrGreaterThan,
    UnorderedOrGreaterThanOrEqual,
}

#[derive(Clone, Copy, Debug)]
pub enum AtomicRmwOp {
    Add,
    Sub,
    And,
    Or,
    Xor,
    Nand,
    Xchg,
    Smin,
    Smax,
    Umin,
    Umax,
}

#[rustfmt::skip]
#[derive(Clone, Copy, Debug)]
pub enum Opcode {
    Iconst, F32const, F64const, Vconst,
    Iadd, Isub, Ineg, Iabs, Imul, Umulhi, Smulhi, Sdiv, Udiv, Srem, Urem,
    IaddImm, ImulImm, BandImm,
    Smin, Smax, Umin, Umax,
    UaddSat, SaddSat, UsubSat, SsubSat, AvgRound,
    Band, Bor, Bxor, Bnot, BandNot, BorNot, BxorNot,
    Ishl, Ushr, Sshr, Rotl, Rotr, IshlImm, UshrImm, SshrImm,
    Clz, Cls, Ctz, Popcnt, Bitrev, Bswap,
    Icmp, Fcmp, Select, Bitselect, Bmask,
    Uextend, Sextend, Ireduce, Iconcat, Isplit,
    Fadd, Fsub, Fmul, Fdiv, Fmin, Fmax, Fcopysign, Fneg, Fabs, Sqrt, Fma,
    Ceil, Floor, Trunc, Nearest,
    Fpromote, Fdemote, FcvtFromSint, FcvtFromUint, FcvtToSint, FcvtToUint, FcvtToSintSat, FcvtToUintSat, Bitcast,
    Splat, Extractlane, Insertlane, VallTrue, VanyTrue, VhighBits,
    SwidenLow, SwidenHigh, UwidenLow, UwidenHigh, Snarrow, Unarrow, Swizzle,
    Load, Uload8, Sload8, Uload16, Sload16, Uload32, Sload32,
    Store, Istore8, Istore16, Istore32,
    StackAddr, SymbolValue, FuncAddr,
    AtomicLoad, AtomicStore, AtomicRmw, AtomicCas, Fence,
    Call, CallIndirect, Return,
    Jump, Brif, BrTable, Trap, Trapz, Trapnz,
    Nop,
}

#[rustfmt::skip]
#[derive(Clone, Copy, Debug)]
pub enum InstructionData {
    Nullary { opcode: Opcode },
    Unary { opcode: Opcode, arg: Value },
    UnaryImm { opcode: Opcode, imm: Imm64 },
    UnaryIeee32 { opcode: Opcode, imm: Ieee32 },
    UnaryIeee64 { opcode: Opcode, imm: Ieee64 },
    UnaryConst { opcode: Opcode, constant: Constant },
    UnaryGlobalValue { opcode: Opcode, global_value: GlobalValue },
    Binary { opcode: Opcode, left: Value, right: Value },
    BinaryImm { opcode: Opcode, arg: Value, imm: Imm64 },
    BinaryImm8 { opcode: Opcode, arg: Value, imm: u8 },
    Ternary { opcode: Opcode, args: ValueArray3 },
    TernaryImm8 { opcode: Opcode, args: ValueArray2, imm: u8 },
    IntCompare { opcode: Opcode, cond: IntCC, args: ValueArray2 },
    FloatCompare { opcode: Opcode, cond: FloatCC, args: ValueArray2 },
    Select { opcode: Opcode, args: ValueArray3 },
    Load { opcode: Opcode, flags: MemFlags, address: Value, offset: i32 },
    Store { opcode: Opcode, flags: MemFlags, args: ValueArray2, offset: i32 },
    StackAddr { opcode: Opcode, slot: StackSlot, offset: i32 },
    LoadNoOffset { opcode: Opcode, flags: MemFlags, address: Value },
    StoreNoOffset { opcode: Opcode, flags: MemFlags, args: ValueArray2 },
    AtomicRmw { opcode: Opcode, op: AtomicRmwOp, flags: MemFlags, args: ValueArray2 },
    AtomicCas { opcode: Opcode, flags: MemFlags, args: ValueArray3 },
    FuncAddr { opcode: Opcode, callee: FuncRef },
    Call { opcode: Opcode, callee: FuncRef, args: ValueSlice },
    CallIndirect { opcode: Opcode, sig: SigRef, args: ValueSlice },
    MultiAry { opcode: Opcode, args: ValueSlice },
    Jump { opcode: Opcode, destination: BlockCall },
    Brif { opcode: Opcode, condition: Value, destinations: BlockArray2 },
    BranchTable { opcode: Opcode, index: Value, table: JumpTable },
    Trap { opcode: Opcode, code: TrapCode },
    CondTrap { opcode: Opcode, condition: Value, code: TrapCode },
}

use InstructionData as Data;
use Opcode::*;

/// A value, and the instruction that makes it: a block's parameter has none.
struct Node {
    ty: Type,
    data: Option<InstructionData>,
    has_result: bool,
}

/// Instruction `i` makes value `i`.
pub struct Function {
    nodes: Vec<Node>,
    insts: Vec<Inst>,
}

impl Function {
    pub fn ty(&self, value: Value) -> Type {
        self.nodes[value.0 as usize].ty
    }

    pub fn def(&self, value: Value) -> Option<Inst> {
        let node = &self.nodes[value.0 as usize];
        node.data.map(|_| Inst(value.0))
    }

    pub fn result_type(&self, inst: Inst) -> Option<Type> {
        let node = &self.nodes[inst.0 as usize];
        node.has_result.then_some(node.ty)
    }

    pub fn data(&self, inst: Inst) -> InstructionData {
        self.nodes[inst.0 as usize].data.expect("an instruction")
    }

    /// The constant that a value is, in 64 bits.
    pub fn constant(&self, value: Value) -> Option<u64> {
        match self.nodes[value.0 as usize].data {
            Some(Data::UnaryImm { imm, .. }) => Some(imm.0),
            _ => None,
        }
    }

    /// The instruction of a call of `lower`, from the first to the last and again.
    pub fn inst(&self, call: usize) -> Inst {
        self.insts[call % self.insts.len()]
    }

    /// A function of so many instructions, beside the constants that they use.
    pub fn random(random: &mut Random, count: usize) -> Self {
        let mut making = Making {
            random,
            nodes: Vec::new(),
            of_type: ALL.iter().map(|ty| (*ty, Vec::new())).collect(),
        };
        for ty in ALL.repeat(4) {
            making.push(ty, None, true);
        }
        let mut insts = Vec::new();
        for _ in 0..count {
            insts.push(making.instruction());
        }
        let nodes = making.nodes;
        Function { nodes, insts }
    }
}

/// A function in the making, with the values of each type.
struct Making<'a> {
    random: &'a mut Random,
    nodes: Vec<Node>,
    of_type: Vec<(Type, Vec<Value>)>,
}

impl Making<'_> {
    fn push(&mut self, ty: Type, data: Option<InstructionData>, has_result: bool) -> Inst {
        let number = self.nodes.len() as u32;
        self.nodes.push(Node {
            ty,
            data,
            has_result,
        });
        if has_result {
            let values = self.of_type.iter_mut().find(|(of, _)| *of == ty);
            values.expect("each type").1.push(Value(number));
        }
        Inst(number)
    }

    /// A value of a type: a constant at times, else mostly one of the last six, so that instructions nest.
    fn value(&mut self, ty: Type) -> Value {
        if ty.is_scalar_int() && ty != I128 && self.random.once_in(4) {
            let imm = Imm64(self.random.constant());
            let opcode = Iconst;
            return Value(self.push(ty, Some(Data::UnaryImm { opcode, imm }), true).0);
        }
        let values = &self
            .of_type
            .iter()
            .find(|(of, _)| *of == ty)
            .expect("each type")
            .1;
        let among = if self.random.once_in(5) {
            values.len()
        } else {
            values.len().min(6)
        };
        values[values.len() - 1 - self.random.below(among)]
    }

    fn unary(&mut self, opcode: Opcode, from: Type) -> InstructionData {
        let arg = self.value(from);
        Data::Unary { opcode, arg }
    }

    fn binary(&mut self, opcode: Opcode, ty: Type) -> InstructionData {
        let (left, right) = (self.value(ty), self.value(ty));
        Data::Binary {
            opcode,
            left,
            right,
        }
    }

    fn int_compare(&mut self, ty: Type) -> InstructionData {
        use IntCC::*;
        let cond = self.random.of(&[
            Equal,
            NotEqual,
            SignedLessThan,
            SignedGreaterThanOrEqual,
            SignedGreaterThan,
            SignedLessThanOrEqual,
            UnsignedLessThan,
            UnsignedGreaterThanOrEqual,
            UnsignedGreaterThan,
            UnsignedLessThanOrEqual,
        ]);
        let args = [self.value(ty), self.value(ty)];
        Data::IntCompare {
            opcode: Icmp,
            cond,
            args,
        }
    }

    fn float_compare(&mut self, ty: Type) -> InstructionData {
        use FloatCC::*;
        let cond = self.random.of(&[
            Ordered,
            Unordered,
            Equal,
            NotEqual,
            OrderedNotEqual,
            UnorderedOrEqual,
            LessThan,
            LessThanOrEqual,
            GreaterThan,
            GreaterThanOrEqual,
            UnorderedOrLessThan,
            UnorderedOrGreaterThanOrEqual,
        ]);
        let args = [self.value(ty), self.value(ty)];
        Data::FloatCompare {
            opcode: Fcmp,
            cond,
            args,
        }
    }

    /// An instruction of any kind. Those on integers and on memory are the most frequent.
    fn instruction(&mut self) -> Inst {
        let (ty, data) = match self.random.below(20) {
            0..=7 => self.integer(),
            8..=9 => self.conversion(),
            10..=11 => self.comparison(),
            12..=14 => self.memory(),
            15..=16 => self.floating(),
            17..=18 => self.vector(),
            _ => self.other(),
        };
        self.push(ty.unwrap_or(I8), Some(data), ty.is_some())
    }

    fn integer(&mut self) -> (Option<Type>, InstructionData) {
        let ty = self.random.of(&INTEGERS);
        let data = match self.random.below(12) {
            0..=3 => {
                let opcode = self.random.of(&[Iadd, Isub, Imul, Band, Bor, Bxor]);
                self.binary(opcode, ty)
            }
            4..=5 => {
                let opcode = self.random.of(&[Ishl, Ushr, Sshr, Rotl, Rotr]);
                self.binary(opcode, ty)
            }
            6 => {
                let opcode = self.random.of(&[Umulhi, Smulhi, Sdiv, Udiv, Srem, Urem]);
                self.binary(opcode, ty)
            }
            7 => {
                let opcode = self
                    .random
                    .of(&[Smin, Smax, Umin, Umax, BandNot, BorNot, BxorNot]);
                self.binary(opcode, ty)
            }
            8..=9 => {
                let opcode = self
                    .random
                    .of(&[IaddImm, ImulImm, BandImm, IshlImm, UshrImm, SshrImm]);
                let (arg, imm) = (self.value(ty), Imm64(self.random.constant()));
                Data::BinaryImm { opcode, arg, imm }
            }
            10 => {
                let opcode = self.random.of(&[Ineg, Iabs, Bnot]);
                self.unary(opcode, ty)
            }
            _ => {
                let opcode = self
                    .random
                    .of(&[Clz, Cls, Ctz, Popcnt, Bitrev, Bswap, Bmask]);
                self.unary(opcode, ty)
            }
        };
        (Some(ty), data)
    }

    fn conversion(&mut self) -> (Option<Type>, InstructionData) {
        let (narrow, wide) = self.random.of(&[
            (I8, I16),
            (I8, I32),
            (I8, I64),
            (I16, I32),
            (I16, I64),
            (I32, I64),
            (I64, I128),
        ]);
        match self.random.below(4) {
            0..=1 => {
                let opcode = self.random.of(&[Uextend, Sextend]);
                (Some(wide), self.unary(opcode, narrow))
            }
            2 => (Some(narrow), self.unary(Ireduce, wide)),
            _ if self.random.once_in(2) => (Some(I128), self.binary(Iconcat, I64)),
            _ => (Some(I64), self.unary(Isplit, I128)),
        }
    }

    fn comparison(&mut self) -> (Option<Type>, InstructionData) {
        let ty = self.random.of(&INTEGERS);
        match self.random.below(5) {
            0..=1 => (Some(I8), self.int_compare(ty)),
            2 => {
                let ty = self.random.of(&FLOATS);
                (Some(I8), self.float_compare(ty))
            }
            3 => {
                let ty = self.random.of(&[I32, I64, I128, F32, F64]);
                let args = [self.value(I8), self.value(ty), self.value(ty)];
                (
                    Some(ty),
                    Data::Select {
                        opcode: Select,
                        args,
                    },
                )
            }
            _ => {
                let args = [self.value(ty), self.value(ty), self.value(ty)];
                let opcode = Bitselect;
                (Some(ty), Data::Ternary { opcode, args })
            }
        }
    }

    fn memory(&mut self) -> (Option<Type>, InstructionData) {
        let ty = self.random.of(&ALL);
        let flags = MemFlags(self.random.below(4) as u8);
        let offset = self.random.of(&[0, 0, 8, 16, -8, 600, 4096, 70_000, 3]);
        let address = self.value(I64);
        match self.random.below(8) {
            0..=2 => {
                let opcode = Load;
                (
                    Some(ty),
                    Data::Load {
                        opcode,
                        flags,
                        address,
                        offset,
                    },
                )
            }
            3 => {
                let opcode = self
                    .random
                    .of(&[Uload8, Sload8, Uload16, Sload16, Uload32, Sload32]);
                (
                    Some(I64),
                    Data::Load {
                        opcode,
                        flags,
                        address,
                        offset,
                    },
                )
            }
            4..=5 => {
                let args = [self.value(ty), address];
                let opcode = Store;
                (
                    None,
                    Data::Store {
                        opcode,
                        flags,
                        args,
                        offset,
                    },
                )
            }
            6 => {
                let opcode = self.random.of(&[Istore8, Istore16, Istore32]);
                let args = [self.value(I64), address];
                (
                    None,
                    Data::Store {
                        opcode,
                        flags,
                        args,
                        offset,
                    },
                )
            }
            _ => self.atomic(flags, address),
        }
    }

    fn atomic(&mut self, flags: MemFlags, address: Value) -> (Option<Type>, InstructionData) {
        use AtomicRmwOp::*;
        let ty = self.random.of(&NARROW);
        let x = self.value(ty);
        match self.random.below(4) {
            0 => {
                let opcode = AtomicLoad;
                (
                    Some(ty),
                    Data::LoadNoOffset {
                        opcode,
                        flags,
                        address,
                    },
                )
            }
            1 => {
                let (opcode, args) = (AtomicStore, [x, address]);
                (
                    None,
                    Data::StoreNoOffset {
                        opcode,
                        flags,
                        args,
                    },
                )
            }
            2 => {
                let op = self
                    .random
                    .of(&[Add, Sub, And, Or, Xor, Nand, Xchg, Smin, Umax]);
                let (opcode, args) = (AtomicRmw, [address, x]);
                (
                    Some(ty),
                    Data::AtomicRmw {
                        opcode,
                        op,
                        flags,
                        args,
                    },
                )
            }
            _ => {
                let (opcode, args) = (AtomicCas, [address, self.value(ty), x]);
                (
                    Some(ty),
                    Data::AtomicCas {
                        opcode,
                        flags,
                        args,
                    },
                )
            }
        }
    }

    fn floating(&mut self) -> (Option<Type>, InstructionData) {
        let ty = self.random.of(&[F32, F64, F32X4, F64X2]);
        match self.random.below(6) {
            0..=1 => {
                let opcode = self
                    .random
                    .of(&[Fadd, Fsub, Fmul, Fdiv, Fmin, Fmax, Fcopysign]);
                (Some(ty), self.binary(opcode, ty))
            }
            2 => {
                let opcode = self
                    .random
                    .of(&[Fneg, Fabs, Sqrt, Ceil, Floor, Trunc, Nearest]);
                (Some(ty), self.unary(opcode, ty))
            }
            3 => {
                let args = [self.value(ty), self.value(ty), self.value(ty)];
                (Some(ty), Data::Ternary { opcode: Fma, args })
            }
            4 => {
                let (to, from) = (self.random.of(&FLOATS), self.random.of(&NARROW));
                let opcode = self.random.of(&[FcvtFromSint, FcvtFromUint]);
                (Some(to), self.unary(opcode, from))
            }
            _ => {
                let (from, to) = (self.random.of(&FLOATS), self.random.of(&NARROW));
                let opcode =
                    self.random
                        .of(&[FcvtToSint, FcvtToUint, FcvtToSintSat, FcvtToUintSat]);
                (Some(to), self.unary(opcode, from))
            }
        }
    }

    fn vector(&mut self) -> (Option<Type>, InstructionData) {
        let ty = self.random.of(&INTEGER_VECTORS);
        let lane = int(ty.lane_bits, 1);
        let imm = self.random.below(ty.lanes.into()) as u8;
        match self.random.below(7) {
            0..=1 => {
                let opcode = self
                    .random
                    .of(&[Iadd, Isub, Imul, Band, Bor, Bxor, UaddSat, AvgRound]);
                (Some(ty), self.binary(opcode, ty))
            }
            2 => {
                let opcode = self.random.of(&[Ineg, Iabs, Bnot, Popcnt]);
                (Some(ty), self.unary(opcode, ty))
            }
            3 => (Some(ty), self.unary(Splat, lane)),
            4 => {
                let (opcode, arg) = (Extractlane, self.value(ty));
                (Some(lane), Data::BinaryImm8 { opcode, arg, imm })
            }
            5 => {
                let (opcode, args) = (Insertlane, [self.value(ty), self.value(lane)]);
                (Some(ty), Data::TernaryImm8 { opcode, args, imm })
            }
            _ => (Some(ty), self.int_compare(ty)),
        }
    }

    fn other(&mut self) -> (Option<Type>, InstructionData) {
        let number = self.random.below(8) as u32;
        match self.random.below(6) {
            0 => {
                let (opcode, slot) = (StackAddr, StackSlot(number));
                (
                    Some(I64),
                    Data::StackAddr {
                        opcode,
                        slot,
                        offset: 8,
                    },
                )
            }
            1 => {
                let (opcode, global_value) = (SymbolValue, GlobalValue(number));
                (
                    Some(I64),
                    Data::UnaryGlobalValue {
                        opcode,
                        global_value,
                    },
                )
            }
            2 => {
                let (opcode, callee) = (FuncAddr, FuncRef(number));
                (Some(I64), Data::FuncAddr { opcode, callee })
            }
            3 => {
                let (opcode, callee) = (Call, FuncRef(number));
                (
                    Some(I64),
                    Data::Call {
                        opcode,
                        callee,
                        args: ValueSlice(0, 3),
                    },
                )
            }
            4 => {
                let opcode = self.random.of(&[Trapz, Trapnz]);
                let (condition, code) = (self.value(I8), TrapCode(number as u8));
                (
                    None,
                    Data::CondTrap {
                        opcode,
                        condition,
                        code,
                    },
                )
            }
            _ => {
                let ty = self.random.of(&VECTORS);
                let (opcode, constant) = (Vconst, Constant(number));
                (Some(ty), Data::UnaryConst { opcode, constant })
            }
        }
    }
}
