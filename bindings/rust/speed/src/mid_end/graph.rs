//! The e-graph that is simplified: classes of nodes, made at random.
use speed::Random;

#[derive(Clone, Copy, Debug, PartialEq, Eq)]
pub enum Type {
    I8,
    I16,
    I32,
    I64,
    I128,
    F32,
    F64,
    Vector,
}

pub const I8: Type = Type::I8;
pub const I16: Type = Type::I16;
pub const I32: Type = Type::I32;
pub const I64: Type = Type::I64;

const INTEGERS: [Type; 9] = [
    Type::I8,
    Type::I16,
    Type::I32,
    Type::I32,
    Type::I64,
    Type::I64,
    Type::I64,
    Type::I128,
    Type::Vector,
];
const FLOATS: [Type; 2] = [Type::F32, Type::F64];
const ALL: [Type; 8] = [
    Type::I8,
    Type::I16,
    Type::I32,
    Type::I64,
    Type::I128,
    Type::F32,
    Type::F64,
    Type::Vector,
];

impl Type {
    pub fn bits(self) -> u64 {
        match self {
            Type::I8 => 8,
            Type::I16 => 16,
            Type::I32 | Type::F32 => 32,
            Type::I64 | Type::F64 => 64,
            Type::I128 | Type::Vector => 128,
        }
    }

    /// Its bits as ones, of which there are 64 at most.
    pub fn mask(self) -> u64 {
        u64::MAX >> (64 - self.bits().min(64))
    }

    pub fn fits_in_64(self) -> bool {
        matches!(self, Type::I8 | Type::I16 | Type::I32 | Type::I64)
    }
}

/// A class of nodes.
#[derive(Clone, Copy, Debug, PartialEq, Eq)]
pub struct Value(pub u32);

#[derive(Clone, Copy, Debug, PartialEq, Eq)]
pub enum IntCC {
    Equal,
    NotEqual,
    SignedLessThan,
    SignedGreaterThanOrEqual,
    SignedGreaterThan,
    SignedLessThanOrEqual,
    UnsignedLessThan,
    UnsignedGreaterThanOrEqual,
    UnsignedGreaterThan,
    UnsignedLessThanOrEqual,
}

#[derive(Clone, Copy, Debug, PartialEq, Eq)]
pub enum FloatCC {
    Ordered,
    Unordered,
    Equal,
    NotEqual,
    OrderedNotEqual,
    UnorderedOrEqual,
    LessThan,
    LessThanOrEqual,
    GreaterThan,
    GreaterThanOrEqual,
    UnorderedOrLessThan,
    UnorderedOrLessThanOrEqual,
    UnorderedOrGreaterThan,
    UnorderedOrGreaterThanOrEqual,
}

#[rustfmt::skip]
#[derive(Clone, Copy, Debug, PartialEq, Eq)]
pub enum UnaryOp {
    Ineg, Iabs, Bnot, Bmask, Clz, Ctz, Popcnt, Bswap, Bitrev, Uextend, Sextend, Ireduce, Fneg, Fabs,
}

#[rustfmt::skip]
#[derive(Clone, Copy, Debug, PartialEq, Eq)]
pub enum BinaryOp {
    Iadd, Isub, Imul, Umulhi, Smulhi, Udiv, Sdiv, Urem, Srem, Umin, Umax, Smin, Smax,
    Band, Bor, Bxor, Ishl, Ushr, Sshr, Rotl, Rotr,
    Fadd, Fsub, Fmul, Fdiv, Fcopysign,
}

#[derive(Clone, Copy, Debug, PartialEq, Eq)]
pub enum TernaryOp {
    Select,
    Bitselect,
}

#[rustfmt::skip]
#[derive(Clone, Copy, Debug)]
pub enum Node {
    Iconst { bits: u64 },
    Unary { op: UnaryOp, x: Value },
    Binary { op: BinaryOp, x: Value, y: Value },
    Ternary { op: TernaryOp, x: Value, y: Value, z: Value },
    Icmp { cc: IntCC, x: Value, y: Value },
    Fcmp { cc: FloatCC, x: Value, y: Value },
}

/// All nodes have the type of their class. A parameter has no node.
pub struct Class {
    pub ty: Type,
    pub nodes: Vec<Node>,
}

pub struct Graph {
    pub classes: Vec<Class>,
}

impl Graph {
    pub fn class(&self, value: Value) -> &Class {
        &self.classes[value.0 as usize]
    }

    pub fn push(&mut self, ty: Type, node: Node) -> Value {
        self.classes.push(Class {
            ty,
            nodes: vec![node],
        });
        Value(self.classes.len() as u32 - 1)
    }

    /// The constant that a class has.
    pub fn constant(&self, value: Value) -> Option<u64> {
        self.class(value).nodes.iter().find_map(|node| match node {
            Node::Iconst { bits } => Some(*bits),
            _ => None,
        })
    }

    /// A value as text: the first nodes of its class and of those below it, to the depth that rules make.
    pub fn text(&self, value: Value) -> String {
        self.text_to(value, 6)
    }

    fn text_to(&self, value: Value, depth: usize) -> String {
        let class = self.class(value);
        let Some(node) = class.nodes.first().filter(|_| depth > 0) else {
            return format!("v{}", value.0);
        };
        let below = |value: Value| self.text_to(value, depth - 1);
        let inside = match *node {
            Node::Iconst { bits } => format!("{bits}"),
            Node::Unary { op, x } => format!("{op:?} {}", below(x)),
            Node::Binary { op, x, y } => format!("{op:?} {} {}", below(x), below(y)),
            Node::Ternary { op, x, y, z } => {
                format!("{op:?} {} {} {}", below(x), below(y), below(z))
            }
            Node::Icmp { cc, x, y } => format!("{cc:?} {} {}", below(x), below(y)),
            Node::Fcmp { cc, x, y } => format!("{cc:?} {} {}", below(x), below(y)),
        };
        format!("({inside}:{:?})", class.ty)
    }

    /// So many classes of an instruction each, beside the constants that they use. One in four has a second node.
    pub fn random(random: &mut Random, count: usize) -> Self {
        let mut making = Making {
            random,
            graph: Graph {
                classes: Vec::new(),
            },
            of_type: ALL.iter().map(|ty| (*ty, Vec::new())).collect(),
        };
        for ty in ALL.repeat(3) {
            making.keep(ty, Vec::new());
        }
        for _ in 0..count {
            let (ty, node) = making.node();
            let mut nodes = vec![node];
            if making.random.once_in(4) {
                nodes.extend(making.node_of(ty));
            }
            making.keep(ty, nodes);
        }
        making.graph
    }
}

/// A graph in the making, with the values of each type.
struct Making<'a> {
    random: &'a mut Random,
    graph: Graph,
    of_type: Vec<(Type, Vec<Value>)>,
}

impl Making<'_> {
    fn keep(&mut self, ty: Type, nodes: Vec<Node>) -> Value {
        let value = Value(self.graph.classes.len() as u32);
        self.graph.classes.push(Class { ty, nodes });
        let values = self.of_type.iter_mut().find(|(of, _)| *of == ty);
        values.expect("each type").1.push(value);
        value
    }

    /// A value of a type: a constant at times, else mostly one of the last four, so that nodes nest and share.
    fn value(&mut self, ty: Type) -> Value {
        if ty.fits_in_64() && self.random.once_in(3) {
            let bits = self.random.constant() & ty.mask();
            return self.keep(ty, vec![Node::Iconst { bits }]);
        }
        let values = &self
            .of_type
            .iter()
            .find(|(of, _)| *of == ty)
            .expect("each type")
            .1;
        let among = if self.random.once_in(5) {
            values.len()
        } else {
            values.len().min(4)
        };
        values[values.len() - 1 - self.random.below(among)]
    }

    fn pair(&mut self, ty: Type) -> (Value, Value) {
        let x = self.value(ty);
        let y = if self.random.once_in(8) {
            x
        } else {
            self.value(ty)
        };
        (x, y)
    }

    fn icmp(&mut self, ty: Type) -> Node {
        use IntCC::*;
        let cc = self.random.of(&[
            Equal,
            NotEqual,
            SignedLessThan,
            SignedGreaterThanOrEqual,
            SignedGreaterThan,
            SignedLessThanOrEqual,
            UnsignedLessThan,
            UnsignedGreaterThanOrEqual,
            UnsignedGreaterThan,
            UnsignedLessThanOrEqual,
        ]);
        let (x, y) = self.pair(ty);
        Node::Icmp { cc, x, y }
    }

    fn fcmp(&mut self, ty: Type) -> Node {
        use FloatCC::*;
        let cc = self.random.of(&[
            Ordered,
            Unordered,
            Equal,
            NotEqual,
            OrderedNotEqual,
            UnorderedOrEqual,
            LessThan,
            LessThanOrEqual,
            UnorderedOrLessThan,
            UnorderedOrGreaterThanOrEqual,
        ]);
        let (x, y) = self.pair(ty);
        Node::Fcmp { cc, x, y }
    }

    /// A node of a type that was chosen at random too.
    fn node(&mut self) -> (Type, Node) {
        match self.random.below(16) {
            0..=1 => {
                let ty = self.random.of(&INTEGERS);
                (Type::I8, self.icmp(ty))
            }
            2 => {
                let ty = self.random.of(&FLOATS);
                (Type::I8, self.fcmp(ty))
            }
            3 => {
                let ty = self.random.of(&FLOATS);
                (ty, self.float(ty))
            }
            4..=5 => self.conversion(),
            _ => {
                let ty = self.random.of(&INTEGERS);
                (ty, self.integer(ty))
            }
        }
    }

    /// Another node for a class of a type, if there are such.
    fn node_of(&mut self, ty: Type) -> Option<Node> {
        match ty {
            Type::F32 | Type::F64 => Some(self.float(ty)),
            _ => Some(self.integer(ty)),
        }
    }

    fn conversion(&mut self) -> (Type, Node) {
        use Type::*;
        let (narrow, wide) = self.random.of(&[
            (I8, I16),
            (I8, I32),
            (I8, I64),
            (I16, I32),
            (I32, I64),
            (I64, I128),
        ]);
        let op = self
            .random
            .of(&[UnaryOp::Uextend, UnaryOp::Sextend, UnaryOp::Ireduce]);
        let (from, to) = if op == UnaryOp::Ireduce {
            (wide, narrow)
        } else {
            (narrow, wide)
        };
        let x = self.value(from);
        (to, Node::Unary { op, x })
    }

    fn float(&mut self, ty: Type) -> Node {
        use BinaryOp::*;
        if self.random.once_in(3) {
            let (op, x) = (
                self.random.of(&[UnaryOp::Fneg, UnaryOp::Fabs]),
                self.value(ty),
            );
            return Node::Unary { op, x };
        }
        let op = self.random.of(&[Fadd, Fsub, Fmul, Fdiv, Fcopysign]);
        let (x, y) = self.pair(ty);
        Node::Binary { op, x, y }
    }

    fn integer(&mut self, ty: Type) -> Node {
        use BinaryOp::*;
        let op = match self.random.below(12) {
            0..=2 => self.random.of(&[Iadd, Isub, Imul]),
            3..=4 => self.random.of(&[Band, Bor, Bxor]),
            5..=6 => self.random.of(&[Ishl, Ushr, Sshr, Rotl, Rotr]),
            7 => self.random.of(&[Umin, Umax, Smin, Smax]),
            8 if ty.fits_in_64() => self.random.of(&[Udiv, Sdiv, Urem, Srem]),
            8..=9 => return self.unary(ty),
            10 => return self.select(ty),
            _ => self.random.of(&[Iadd, Isub]),
        };
        let (x, y) = self.pair(ty);
        Node::Binary { op, x, y }
    }

    fn unary(&mut self, ty: Type) -> Node {
        use UnaryOp::*;
        let op = self.random.of(&[
            Ineg, Ineg, Bnot, Bnot, Iabs, Bmask, Clz, Ctz, Popcnt, Bswap, Bitrev,
        ]);
        let x = self.value(ty);
        Node::Unary { op, x }
    }

    fn select(&mut self, ty: Type) -> Node {
        let op = self.random.of(&[TernaryOp::Select, TernaryOp::Bitselect]);
        let x = self.value(if op == TernaryOp::Select {
            Type::I8
        } else {
            ty
        });
        let (y, z) = self.pair(ty);
        Node::Ternary { op, x, y, z }
    }
}
