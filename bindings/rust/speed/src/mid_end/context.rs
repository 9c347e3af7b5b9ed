//! What the rules ask of the e-graph and of numbers.
use crate::code::{Context, ContextIter, IntoContextIter, Magic};
use crate::graph::*;

pub type Unit = ();

/// The nodes of a class, from a place on.
#[derive(Default)]
pub struct Nodes {
    value: Option<Value>,
    place: usize,
}

impl ContextIter for Nodes {
    type Context = Graph;
    type Output = (Type, Node);

    fn next(&mut self, graph: &mut Graph) -> Option<(Type, Node)> {
        let class = graph.class(self.value?);
        let node = class.nodes.get(self.place)?;
        self.place += 1;
        Some((class.ty, *node))
    }
}

impl IntoContextIter for Nodes {
    type Context = Graph;
    type Output = (Type, Node);
    type IntoIter = Self;

    fn into_context_iter(self) -> Self {
        self
    }
}

/// A number of a type with its sign, in 64 bits.
fn signed(ty: Type, number: u64) -> i64 {
    let unused = 64 - ty.bits().min(64);
    ((number << unused) as i64) >> unused
}

/// Whether a condition holds of numbers, where it is one for numbers of this kind.
fn holds<T: Ord>(
    cc: &IntCC,
    less: IntCC,
    less_or_equal: IntCC,
    greater: IntCC,
    x: T,
    y: T,
) -> Option<u64> {
    Some(u64::from(match *cc {
        IntCC::Equal => x == y,
        IntCC::NotEqual => x != y,
        cc if cc == less => x < y,
        cc if cc == less_or_equal => x <= y,
        cc if cc == greater => x > y,
        _ => return None,
    }))
}

#[rustfmt::skip]
impl Context for Graph {
    type enode_returns = Nodes;
    fn enode(&mut self, value: Value, returns: &mut Nodes) { *returns = Nodes { value: Some(value), place: 0 } }
    fn make(&mut self, ty: Type, node: &Node) -> Value { self.push(ty, *node) }
    fn subsume(&mut self, value: Value) -> Value { value }
    fn value_type(&mut self, value: Value) -> Type { self.class(value).ty }
    fn signed_constant(&mut self, value: Value) -> Option<i64> {
        Some(signed(self.class(value).ty, self.constant(value)?))
    }
    fn not_constant(&mut self, value: Value) -> Option<()> { self.constant(value).is_none().then_some(()) }
    fn truth(&mut self, value: Value) -> Option<()> {
        let is_compare = |node: &Node| matches!(node, Node::Icmp { .. } | Node::Fcmp { .. });
        self.class(value).nodes.iter().any(is_compare).then_some(())
    }

    fn fits_in_64(&mut self, ty: Type) -> Option<Type> { ty.fits_in_64().then_some(ty) }
    fn ty_32_or_64(&mut self, ty: Type) -> Option<Type> { matches!(ty, Type::I32 | Type::I64).then_some(ty) }
    fn ty_scalar_float(&mut self, ty: Type) -> Option<Type> { matches!(ty, Type::F32 | Type::F64).then_some(ty) }
    fn vector(&mut self, ty: Type) -> Option<Type> { (ty == Type::Vector).then_some(ty) }
    fn ty_bits(&mut self, ty: Type) -> u64 { ty.bits() }
    fn ty_mask(&mut self, ty: Type) -> u64 { ty.mask() }

    fn unit(&mut self) -> Unit {}
    fn u64_add(&mut self, x: u64, y: u64) -> u64 { x.wrapping_add(y) }
    fn u64_sub(&mut self, x: u64, y: u64) -> u64 { x.wrapping_sub(y) }
    fn u64_mul(&mut self, x: u64, y: u64) -> u64 { x.wrapping_mul(y) }
    fn u64_and(&mut self, x: u64, y: u64) -> u64 { x & y }
    fn u64_or(&mut self, x: u64, y: u64) -> u64 { x | y }
    fn u64_xor(&mut self, x: u64, y: u64) -> u64 { x ^ y }
    fn u64_not(&mut self, x: u64) -> u64 { !x }
    fn u64_min(&mut self, x: u64, y: u64) -> u64 { x.min(y) }
    fn u64_max(&mut self, x: u64, y: u64) -> u64 { x.max(y) }
    fn u64_shl(&mut self, x: u64, bits: u64) -> u64 { x.wrapping_shl(bits as u32) }
    fn u64_shr(&mut self, x: u64, bits: u64) -> u64 { x.wrapping_shr(bits as u32) }
    fn u64_div(&mut self, x: u64, y: u64) -> Option<u64> { x.checked_div(y) }
    fn u64_rem(&mut self, x: u64, y: u64) -> Option<u64> { x.checked_rem(y) }
    fn u64_checked_mul(&mut self, x: u64, y: u64) -> Option<u64> { x.checked_mul(y) }
    fn u64_less(&mut self, x: u64, y: u64) -> Option<Unit> { (x < y).then_some(()) }
    fn u64_less_or_equal(&mut self, x: u64, y: u64) -> Option<Unit> { (x <= y).then_some(()) }
    fn u64_differ(&mut self, x: u64, y: u64) -> Option<Unit> { (x != y).then_some(()) }
    fn i64_neg(&mut self, x: i64) -> i64 { x.wrapping_neg() }
    fn i64_min(&mut self, x: i64, y: i64) -> i64 { x.min(y) }
    fn i64_max(&mut self, x: i64, y: i64) -> i64 { x.max(y) }
    fn i64_abs(&mut self, x: i64) -> i64 { x.wrapping_abs() }
    fn i64_as_u64(&mut self, x: i64) -> u64 { x as u64 }
    fn i64_shr(&mut self, x: i64, bits: u64) -> i64 { x.wrapping_shr(bits as u32) }
    fn i64_div(&mut self, x: i64, y: i64) -> Option<i64> { x.checked_div(y) }
    fn i64_rem(&mut self, x: i64, y: i64) -> Option<i64> { x.checked_rem(y) }
    fn i64_neg_in(&mut self, ty: Type, x: i64) -> Option<i64> {
        let negative = x.checked_neg()?;
        (signed(ty, negative as u64) == negative).then_some(negative)
    }
    fn u64_holds(&mut self, cc: &IntCC, x: u64, y: u64) -> Option<u64> {
        if *cc == IntCC::UnsignedGreaterThanOrEqual { return Some((x >= y).into()) }
        holds(cc, IntCC::UnsignedLessThan, IntCC::UnsignedLessThanOrEqual, IntCC::UnsignedGreaterThan, x, y)
    }
    fn i64_holds(&mut self, cc: &IntCC, x: i64, y: i64) -> Option<u64> {
        if *cc == IntCC::SignedGreaterThanOrEqual { return Some((x >= y).into()) }
        holds(cc, IntCC::SignedLessThan, IntCC::SignedLessThanOrEqual, IntCC::SignedGreaterThan, x, y)
    }

    fn bits_clz(&mut self, ty: Type, x: u64) -> u64 { (u64::from(x.leading_zeros()) + ty.bits()).saturating_sub(64) }
    fn bits_ctz(&mut self, ty: Type, x: u64) -> u64 { u64::from(x.trailing_zeros()).min(ty.bits()) }
    fn bits_popcnt(&mut self, x: u64) -> u64 { x.count_ones().into() }
    fn bits_rotl(&mut self, ty: Type, x: u64, bits: u64) -> u64 {
        let (bits, width) = ((bits % ty.bits()) as u32, ty.bits() as u32);
        (x.wrapping_shl(bits) | x.checked_shr(width - bits).unwrap_or(0)) & ty.mask()
    }
    fn bits_bswap(&mut self, ty: Type, x: u64) -> u64 { x.swap_bytes() >> (64 - ty.bits().min(64)) }
    fn bits_bitrev(&mut self, ty: Type, x: u64) -> u64 { x.reverse_bits() >> (64 - ty.bits().min(64)) }
    fn power_of_two(&mut self, x: u64) -> Option<u64> { x.is_power_of_two().then(|| x.trailing_zeros().into()) }
    fn not_zero(&mut self, x: u64) -> Option<()> { (x != 0).then_some(()) }
    fn negative(&mut self, x: i64) -> Option<()> { (x < 0).then_some(()) }

    // Numbers in the place of those that are right: the rules only pass them on.
    fn udiv_magic(&mut self, _: Type, k: u64) -> Option<Magic> {
        (k > 2 && k % 2 == 1).then(|| Magic { factor: u64::MAX / k, shift: 3 })
    }
    fn udiv_long_magic(&mut self, _: Type, k: u64) -> Option<Magic> {
        (k > 2 && k % 2 == 0).then(|| Magic { factor: u64::MAX / k, shift: 4 })
    }
    fn sdiv_magic(&mut self, ty: Type, k: u64) -> Option<Magic> {
        (signed(ty, k) > 2).then(|| Magic { factor: u64::MAX / k, shift: 5 })
    }

    fn commutative(&mut self, op: &BinaryOp) -> Option<()> {
        use BinaryOp::*;
        matches!(op, Iadd | Imul | Umulhi | Smulhi | Umin | Umax | Smin | Smax | Band | Bor | Bxor | Fadd | Fmul)
            .then_some(())
    }
    fn shift(&mut self, op: &BinaryOp) -> Option<()> {
        use BinaryOp::*;
        matches!(op, Ishl | Ushr | Sshr | Rotl | Rotr).then_some(())
    }
    fn total(&mut self, op: &BinaryOp) -> Option<()> {
        use BinaryOp::*;
        matches!(op, Iadd | Isub | Imul | Umulhi | Smulhi | Umin | Umax | Smin | Smax | Band | Bor | Bxor)
            .then_some(())
    }
    fn low_bits_only(&mut self, op: &BinaryOp) -> Option<()> {
        use BinaryOp::*;
        matches!(op, Iadd | Isub | Imul | Band | Bor | Bxor).then_some(())
    }
    fn equality(&mut self, cc: &IntCC) -> Option<()> {
        matches!(cc, IntCC::Equal | IntCC::NotEqual).then_some(())
    }
}
