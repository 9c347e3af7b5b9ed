//! What the rules ask of the function and of the machine.
use crate::code::{Context, ExtendOp, MInst, ValueRegs};
use crate::function::*;
use crate::machine::*;

/// The lowering of one instruction.
pub struct Lowering<'a> {
    function: &'a Function,
    pub emitted: Vec<MInst>,
    registers: u32,
    sunk: u32,
}

impl<'a> Lowering<'a> {
    pub fn new(function: &'a Function) -> Self {
        Lowering {
            function,
            emitted: Vec::new(),
            registers: 0,
            sunk: 0,
        }
    }

    /// Forgets what the last instruction became.
    pub fn begin(&mut self) {
        self.emitted.clear();
        self.registers = 1_000_000;
    }
}

/// A number of a type, in 64 bits, without its sign.
fn zero_extended(ty: Type, number: u64) -> u64 {
    number & mask(ty)
}

/// A number of a type, in 64 bits, with its sign.
fn sign_extended(ty: Type, number: u64) -> i64 {
    let unused = 64 - u32::from(ty.bits().min(64));
    ((number << unused) as i64) >> unused
}

fn mask(ty: Type) -> u64 {
    u64::MAX >> (64 - u32::from(ty.bits().min(64)))
}

fn fits(ty: Type, bits: u8) -> Option<Type> {
    (ty.is_scalar_int() && ty.bits() <= bits).then_some(ty)
}

#[rustfmt::skip]
impl Context for Lowering<'_> {
    fn ty_int(&mut self, ty: Type) -> Option<Type> { ty.is_scalar_int().then_some(ty) }
    fn fits_in_16(&mut self, ty: Type) -> Option<Type> { fits(ty, 16) }
    fn fits_in_32(&mut self, ty: Type) -> Option<Type> { fits(ty, 32) }
    fn fits_in_64(&mut self, ty: Type) -> Option<Type> { fits(ty, 64) }
    fn ty_32_or_64(&mut self, ty: Type) -> Option<Type> { (ty == I32 || ty == I64).then_some(ty) }
    fn ty_scalar_float(&mut self, ty: Type) -> Option<Type> { (ty == F32 || ty == F64).then_some(ty) }
    fn ty_vec128(&mut self, ty: Type) -> Option<Type> { (ty.lanes > 1).then_some(ty) }
    fn ty_vec128_int(&mut self, ty: Type) -> Option<Type> { (ty.lanes > 1 && !ty.float).then_some(ty) }
    fn ty_vec128_float(&mut self, ty: Type) -> Option<Type> { (ty.lanes > 1 && ty.float).then_some(ty) }
    fn bits_at_least_16(&mut self, ty: Type) -> Option<Type> { (ty.bits() >= 16).then_some(ty) }
    fn multiplies(&mut self, ty: Type) -> Option<()> { (ty == I16X8 || ty == I32X4).then_some(()) }
    fn ty_bits(&mut self, ty: Type) -> u8 { ty.bits() }
    fn ty_mask(&mut self, ty: Type) -> u64 { mask(ty) }
    fn ty_bytes(&mut self, ty: Type) -> u8 { ty.bits() / 8 }
    fn lane_type(&mut self, ty: Type) -> Type { Type { lanes: 1, ..ty } }
    fn vector_of(&mut self, ty: Type) -> Type { Type { lanes: 128 / ty.lane_bits, ..ty } }

    fn u8_sub(&mut self, x: u8, y: u8) -> u8 { x.wrapping_sub(y) }
    fn u8_and(&mut self, x: u8, y: u8) -> u8 { x & y }
    fn u8_as_u64(&mut self, x: u8) -> u64 { x.into() }
    fn u64_add(&mut self, x: u64, y: u64) -> u64 { x.wrapping_add(y) }
    fn u64_sub(&mut self, x: u64, y: u64) -> u64 { x.wrapping_sub(y) }
    fn u64_and(&mut self, x: u64, y: u64) -> u64 { x & y }
    fn u64_not(&mut self, x: u64) -> u64 { !x }
    fn u64_shr(&mut self, x: u64, bits: u8) -> u64 { x.wrapping_shr(bits.into()) }
    fn u64_low32(&mut self, x: u64) -> u32 { x as u32 }
    fn u64_high32(&mut self, x: u64) -> u32 { (x >> 32) as u32 }
    fn u64_as_u8(&mut self, x: u64) -> u8 { x as u8 }
    fn u64_as_i64(&mut self, x: u64) -> i64 { x as i64 }
    fn i64_as_u64(&mut self, x: i64) -> u64 { x as u64 }
    fn i64_neg(&mut self, x: i64) -> i64 { x.wrapping_neg() }
    fn i64_add(&mut self, x: i64, y: i64) -> i64 { x.wrapping_add(y) }
    fn i32_as_i64(&mut self, x: i32) -> i64 { x.into() }
    fn i32_from_u32(&mut self, x: u32) -> i32 { x as i32 }
    fn i32_checked_add(&mut self, x: i32, y: i32) -> Option<i32> { x.checked_add(y) }
    fn i32_from_i64(&mut self, x: i64) -> Option<i32> { x.try_into().ok() }
    fn power_of_two(&mut self, x: u64) -> Option<u8> { x.is_power_of_two().then(|| x.trailing_zeros() as u8) }
    fn not_zero(&mut self, x: u64) -> Option<()> { (x != 0).then_some(()) }
    fn nonnegative(&mut self, x: i64) -> Option<()> { (x >= 0).then_some(()) }
    fn safe_divisor(&mut self, x: i64) -> Option<()> { (x != 0 && x != -1).then_some(()) }
    fn index_shift(&mut self, x: u64) -> Option<u8> { (x <= 4).then_some(x as u8) }
    fn imm64_zero_extended(&mut self, ty: Type, imm: Imm64) -> u64 { zero_extended(ty, imm.0) }
    fn imm64_sign_extended(&mut self, ty: Type, imm: Imm64) -> i64 { sign_extended(ty, imm.0) }
    fn ieee32_bits(&mut self, imm: Ieee32) -> u64 { imm.0.into() }
    fn ieee64_bits(&mut self, imm: Ieee64) -> u64 { imm.0 }
    fn zero_ieee32(&mut self, imm: Ieee32) -> Option<()> { (imm.0 == 0).then_some(()) }
    fn zero_ieee64(&mut self, imm: Ieee64) -> Option<()> { (imm.0 == 0).then_some(()) }

    fn def_inst(&mut self, value: Value) -> Option<Inst> { self.function.def(value) }
    fn value_type(&mut self, value: Value) -> Type { self.function.ty(value) }
    fn result_type(&mut self, inst: Inst) -> Option<Type> { self.function.result_type(inst) }
    fn inst_data_value(&mut self, inst: Inst) -> InstructionData { self.function.data(inst) }
    fn sinkable(&mut self, inst: Inst) -> Option<Inst> { (inst.0 % 2 == 0).then_some(inst) }
    fn sink(&mut self, _: Inst) -> Unit { self.sunk += 1 }
    fn unpack_value_array_2(&mut self, array: ValueArray2) -> (Value, Value) { (array[0], array[1]) }
    fn unpack_value_array_3(&mut self, array: ValueArray3) -> (Value, Value, Value) { (array[0], array[1], array[2]) }
    fn value_slice_unwrap(&mut self, slice: ValueSlice) -> Option<(Value, ValueSlice)> {
        (slice.0 < slice.1).then(|| (Value(slice.0), ValueSlice(slice.0 + 1, slice.1)))
    }
    fn unsigned_from_value(&mut self, value: Value) -> Option<u64> {
        Some(zero_extended(self.function.ty(value), self.function.constant(value)?))
    }
    fn signed_from_value(&mut self, value: Value) -> Option<i64> {
        Some(sign_extended(self.function.ty(value), self.function.constant(value)?))
    }
    fn run_from_value(&mut self, value: Value) -> Option<Run> {
        let (ty, number) = (self.function.ty(value), self.function.constant(value)?);
        run_of(zero_extended(ty, number)).or_else(|| run_of(sign_extended(ty, number) as u64))
    }
    fn truth(&mut self, value: Value) -> Option<()> {
        let data = self.function.data(self.function.def(value)?);
        matches!(data, InstructionData::IntCompare { .. } | InstructionData::FloatCompare { .. }).then_some(())
    }

    fn xreg_new(&mut self, reg: Reg) -> XReg { XReg(reg) }
    fn freg_new(&mut self, reg: Reg) -> FReg { FReg(reg) }
    fn vreg_new(&mut self, reg: Reg) -> VReg { VReg(reg) }
    fn xreg_to_reg(&mut self, reg: XReg) -> Reg { reg.0 }
    fn freg_to_reg(&mut self, reg: FReg) -> Reg { reg.0 }
    fn vreg_to_reg(&mut self, reg: VReg) -> Reg { reg.0 }
    fn writable_xreg_new(&mut self, reg: WritableReg) -> WritableXReg { WritableXReg(reg.0) }
    fn writable_freg_new(&mut self, reg: WritableReg) -> WritableFReg { WritableFReg(reg.0) }
    fn writable_vreg_new(&mut self, reg: WritableReg) -> WritableVReg { WritableVReg(reg.0) }
    fn writable_preg_new(&mut self, reg: WritableReg) -> WritablePReg { WritablePReg(reg.0) }
    fn writable_xreg_to_xreg(&mut self, reg: WritableXReg) -> XReg { XReg(reg.0) }
    fn writable_freg_to_freg(&mut self, reg: WritableFReg) -> FReg { FReg(reg.0) }
    fn writable_vreg_to_vreg(&mut self, reg: WritableVReg) -> VReg { VReg(reg.0) }
    fn writable_preg_to_preg(&mut self, reg: WritablePReg) -> PReg { PReg(reg.0) }
    fn temp_writable_reg(&mut self, _: &RegClass) -> WritableReg {
        self.registers += 1;
        WritableReg(Reg(self.registers))
    }
    fn put_in_reg(&mut self, value: Value) -> Reg { Reg(2 * value.0) }
    fn put_in_value_regs(&mut self, value: Value) -> ValueRegs {
        ValueRegs { low: XReg(Reg(2 * value.0)), high: XReg(Reg(2 * value.0 + 1)) }
    }

    fn output_none(&mut self) -> InstOutput { InstOutput::Nothing }
    fn output_reg(&mut self, reg: Reg) -> InstOutput { InstOutput::Reg(reg) }
    fn output_value_regs(&mut self, regs: &ValueRegs) -> InstOutput { InstOutput::Pair(regs.low, regs.high) }
    fn output_value(&mut self, value: Value) -> InstOutput { InstOutput::Value(value) }
    fn output_pair(&mut self, first: XReg, second: XReg) -> InstOutput { InstOutput::Pair(first, second) }
    fn emit(&mut self, inst: &MInst) -> Unit { self.emitted.push(inst.clone()) }
    fn unit(&mut self) -> Unit {}

    fn u12_from_u64(&mut self, x: u64) -> Option<U12> { (x < 4096).then_some(U12(x as u16)) }
    fn u12_from_i64(&mut self, x: i64) -> Option<U12> { (0..4096).contains(&x).then_some(U12(x as u16)) }
    fn u12_from_negated_i64(&mut self, x: i64) -> Option<U12> { (-4095..0).contains(&x).then(|| U12(-x as u16)) }
    fn simm10_from_i64(&mut self, x: i64) -> Option<Simm10> { (-512..512).contains(&x).then_some(Simm10(x as i16)) }
    fn simm10_from_i32(&mut self, x: i32) -> Option<Simm10> { (-512..512).contains(&x).then_some(Simm10(x as i16)) }
    fn simm16_from_i64(&mut self, x: i64) -> Option<Simm16> { x.try_into().ok().map(Simm16) }
    fn run_from_u64(&mut self, x: u64) -> Option<Run> { run_of(x) }
    fn u12(&mut self, x: u16) -> U12 { U12(x) }
    fn simm10(&mut self, x: i64) -> Simm10 { Simm10(x as i16) }
    fn run_of_ones(&mut self, first: u8, bits: u8) -> Run {
        let ones = u64::MAX.checked_shr(64 - u32::from(bits)).unwrap_or(0);
        Run(ones.wrapping_shl(first.into()))
    }
    fn shifted_simm16(&mut self, x: i64) -> Option<(Simm16, u8)> {
        let shift = x.trailing_zeros() & !15;
        Some((Simm16((x.checked_shr(shift)?).try_into().ok()?), shift as u8))
    }
    fn elements_from_bytes(&mut self, ty: Type, offset: i32) -> Option<U12> {
        let bytes = i32::from(ty.bits() / 8);
        (offset % bytes == 0 && (0..4096).contains(&(offset / bytes))).then(|| U12((offset / bytes) as u16))
    }
    fn field_fits(&mut self, ty: Type, first: u8, bits: u8) -> Option<Unit> {
        (bits > 0 && u32::from(first) + u32::from(bits) <= u32::from(ty.bits())).then_some(())
    }
    fn word_extend(&mut self, op: &ExtendOp) -> Option<()> {
        matches!(op, ExtendOp::Signed32 | ExtendOp::Unsigned32).then_some(())
    }
    fn prefers_pool(&mut self) -> Option<Unit> { None }
    fn mem_flags_trusted(&mut self) -> MemFlags { MemFlags(3) }
    fn constant_splat(&mut self, _: Type, constant: Constant) -> Option<i64> {
        (constant.0 % 2 == 0).then(|| i64::from(constant.0) - 4)
    }

    fn trap_division_by_zero(&mut self) -> TrapCode { TrapCode(1) }
    fn trap_integer_overflow(&mut self) -> TrapCode { TrapCode(2) }
    fn trap_bad_conversion(&mut self) -> TrapCode { TrapCode(3) }
    fn below_least(&mut self, signed: bool, to: Type, from: Type) -> u64 {
        u64::from(signed) << 16 | u64::from(to.bits()) << 8 | u64::from(from.bits())
    }
    fn above_greatest(&mut self, signed: bool, to: Type, from: Type) -> u64 {
        u64::from(signed) << 24 | u64::from(to.bits()) << 8 | u64::from(from.bits())
    }
    fn near_global(&mut self, global: GlobalValue) -> Option<(ExternalName, i64)> {
        (global.0 % 2 == 0).then_some((ExternalName(global.0), 16))
    }
    fn far_global(&mut self, global: GlobalValue) -> (ExternalName, i64) { (ExternalName(global.0), 16) }
    fn near_func(&mut self, func: FuncRef) -> Option<ExternalName> {
        (func.0 % 2 == 0).then_some(ExternalName(func.0))
    }
    fn far_func(&mut self, func: FuncRef) -> ExternalName { ExternalName(func.0) }
    fn func_ref_data(&mut self, func: FuncRef) -> (SigRef, ExternalName, bool) {
        (SigRef(func.0), ExternalName(func.0), func.0 % 2 == 0)
    }
    fn gen_call(&mut self, _: ExternalName, _: SigRef, _: ValueSlice) -> InstOutput { InstOutput::Nothing }
    fn gen_call_indirect(&mut self, _: XReg, _: SigRef, _: ValueSlice) -> InstOutput { InstOutput::Nothing }
    fn gen_return(&mut self, _: ValueSlice) -> Unit {}
    fn one_target(&mut self, labels: LabelSlice) -> Option<Label> {
        (labels.0 + 1 == labels.1).then_some(Label(labels.0))
    }
    fn two_targets(&mut self, labels: LabelSlice) -> Option<(Label, Label)> {
        (labels.0 + 2 == labels.1).then_some((Label(labels.0), Label(labels.0 + 1)))
    }
    fn table_targets(&mut self, labels: LabelSlice) -> Option<(Label, LabelSlice)> {
        (labels.0 < labels.1).then_some((Label(labels.0), LabelSlice(labels.0 + 1, labels.1)))
    }
}
