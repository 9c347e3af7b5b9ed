//! Terms that give one result. The answers were worked out from the rules by hand.
mod common;
use common::*;
use Opcode::*;

#[test]
fn makers_of_values() {
    let mut v = Values::default();
    let (x, y) = (v.param(I64), v.param(I64));
    let made = v.run(|ctx| {
        [
            constructor_iadd(ctx, I32, x, y),
            constructor_ishl(ctx, I32, x, y),
            constructor_ineg(ctx, I64, x),
            constructor_iconst(ctx, I8, -3),
        ]
    });
    assert_eq!(
        made.0.map(|value| v.graph.text(value)),
        ["(Iadd.32 p0 p1)", "(Ishl.32 p0 p1)", "(Ineg.64 p0)", "-3"]
    );
}

#[test]
fn sizes() {
    for (ty, want) in [
        (I8, Size::Size32),
        (I16, Size::Size32),
        (I32, Size::Size32),
        (I64, Size::Size64),
    ] {
        assert_eq!(gives(|ctx| constructor_size_of(ctx, ty)), want);
    }
    let (a, b) = (Size::Size32, Size::Size64);
    assert!(gives(|ctx| constructor_same_size(ctx, &a, &a)));
    assert!(!gives(|ctx| constructor_same_size(ctx, &a, &b)));
}

#[test]
#[should_panic(
    expected = "no rule matched for term size_of at rules/lower.isle line 3; should it be partial?"
)]
fn no_rule_matches() {
    gives(|ctx| constructor_size_of(ctx, Type(128)));
}

#[test]
fn flags() {
    let (r1, r2) = (Reg(1), Reg(2));
    let nop = || MInst::Nop;
    let cset = |cond| MInst::CSet {
        rd: WritableReg(r1),
        cond,
    };
    assert!(matches!(
        gives(|ctx| constructor_compare(ctx, I64, ZERO, ZERO)),
        ProducesFlags::AlreadyThere
    ));
    assert!(matches!(
        gives(|ctx| constructor_compare(ctx, I32, r1, r2)),
        ProducesFlags::SideEffect {
            inst: MInst::Cmp {
                size: Size::Size32,
                rn: Reg(1),
                rm: Reg(2)
            }
        }
    ));
    assert!(matches!(
        gives(|ctx| constructor_set_if(ctx, &Cond::Ne)),
        ConsumesFlags::Twice {
            second: MInst::Nop,
            result: Reg(1),
            ..
        }
    ));
    assert!(matches!(
        gives(|ctx| constructor_set_if(ctx, &Cond::Ge)),
        ConsumesFlags::WithResult {
            inst: MInst::CSet { .. },
            result: Reg(1)
        }
    ));
    let mut v = Values::default();
    for (p, c, want) in [
        (
            ProducesFlags::AlreadyThere,
            ConsumesFlags::WithResult {
                inst: cset(Cond::Lt),
                result: r2,
            },
            (r2, vec!["cset 1 <- Lt"]),
        ),
        (
            ProducesFlags::SideEffect { inst: nop() },
            ConsumesFlags::WithResult {
                inst: cset(Cond::Lt),
                result: r2,
            },
            (r2, vec!["nop", "cset 1 <- Lt"]),
        ),
        (
            ProducesFlags::SideEffect {
                inst: cset(Cond::Eq),
            },
            ConsumesFlags::Twice {
                first: cset(Cond::Ne),
                second: nop(),
                result: r1,
            },
            (r1, vec!["cset 1 <- Eq", "cset 1 <- Ne", "nop"]),
        ),
        (
            ProducesFlags::WithResult {
                inst: nop(),
                result: r1,
            },
            ConsumesFlags::SideEffect {
                inst: cset(Cond::Ge),
            },
            (r1, vec!["nop", "cset 1 <- Ge"]),
        ),
    ] {
        let got = v.run(|ctx| constructor_with_flags(ctx, &p, &c));
        assert_eq!(
            (
                got.0,
                got.1.iter().map(|line| line.as_str()).collect::<Vec<_>>()
            ),
            want
        );
    }
}
#[test]
fn lower() {
    let mut v = Values::default();
    // v0 to v8: their registers are 100 to 108
    let (x, y, narrow, five, much, zero) = (
        v.param(I64),
        v.param(I64),
        v.param(I32),
        v.k(5),
        v.k(5000),
        v.k(0),
    );
    let three = v.k(3);
    let (eight, six) = (v.k(8), v.k(6));
    let by_eight = v.two(Ishl, I64, y, eight);
    let by_six = v.two(Ishl, I64, y, six);
    let sum = v.two(Iadd, I64, x, y);
    let scaled = v.two(Iadd, I64, x, by_eight);
    let unscaled = v.two(Iadd, I64, x, by_six);
    let less = v.compare(Cond::Lt, x, y);
    let same = v.compare(Cond::Eq, x, y);
    assert_eq!((by_six, scaled), (Value(10), Value(12)));
    let r = |number| Some(Reg(number));
    for (of, want, code) in [
        (zero, Some(ZERO), vec![]),
        (five, r(1), vec!["Add.x 1 <- 0 #5"]),
        (much, None, vec![]),
        (v.two(Iadd, I64, x, three), r(1), vec!["Add.x 1 <- 100 #3"]),
        (
            v.two(Iadd, I32, narrow, three),
            r(1),
            vec!["Add.w 1 <- 102 #3"],
        ),
        (v.two(Iadd, I64, x, much), r(1), vec!["Add.x 1 <- 100 104"]),
        (v.two(Iadd, I32, x, y), r(1), vec!["Add.w 1 <- 100 101"]),
        (v.two(Isub, I64, x, x), Some(ZERO), vec![]),
        (v.two(Isub, I64, x, y), r(1), vec!["Sub.x 1 <- 100 101"]),
        (v.one(Ineg, I32, y), r(1), vec!["Sub.w 1 <- 0 101"]),
        (v.load(8, x), r(1), vec!["load 1 <- [100 + 8]"]),
        (v.load(0, x), r(1), vec!["load 1 <- [100 + 0]"]),
        (v.load(0, sum), r(1), vec!["load 1 <- [100 + 101]"]),
        (v.load(8, sum), r(1), vec!["load 1 <- [111 + 8]"]),
        (v.load(0, scaled), r(1), vec!["load 1 <- [100 + 101 << 3]"]),
        (v.load(0, unscaled), r(1), vec!["load 1 <- [100 + 110]"]),
        (v.call(77), Some(ZERO), vec!["call 77 [1, 2]"]),
        (less, r(1), vec!["cmp.x 100 101", "cset 1 <- Lt"]),
        (
            v.compare(Cond::Ne, narrow, y),
            r(1),
            vec!["cmp.w 102 101", "cset 1 <- Ne", "nop"],
        ),
        (
            v.one(Bnot, I8, less),
            r(1),
            vec!["cmp.x 100 101", "cset 1 <- Ge"],
        ),
        (
            v.one(Bnot, I8, same),
            r(1),
            vec!["cmp.x 100 101", "cset 1 <- Ne", "nop"],
        ),
        (v.one(Bnot, I8, x), None, vec![]),
        (v.two(Imul, I64, x, y), None, vec![]),
        (x, None, vec![]),
    ] {
        let got = v.run(|ctx| constructor_lower(ctx, of));
        assert_eq!(
            (
                got.0,
                got.1.iter().map(|line| line.as_str()).collect::<Vec<_>>()
            ),
            (want, code),
            "{}",
            v.graph.text(of)
        );
    }
}

#[test]
fn pieces_of_lower() {
    let mut v = Values::default();
    let x = v.param(I16);
    assert_eq!(v.run(|ctx| constructor_value_kind(ctx, x)).0, I16);
    assert_eq!(
        v.run(|ctx| constructor_alu(ctx, &AluOp::Mul, I64, Reg(7), Reg(8))),
        (Reg(1), vec!["Mul.x 1 <- 7 8".into()])
    );
    assert_eq!(
        v.run(|ctx| constructor_alu_imm(ctx, &AluOp::And, I8, Reg(7), Imm12(9))),
        (Reg(1), vec!["And.w 1 <- 7 #9".into()])
    );
    assert_eq!(
        v.run(|ctx| constructor_mov(ctx, &Operand::Reg(Reg(9)))),
        (Reg(9), vec![])
    );
    let memory = Operand::Mem(Box::new(Amode::RegReg {
        base: Reg(3),
        index: Reg(4),
    }));
    assert_eq!(
        v.run(|ctx| constructor_mov(ctx, &memory)),
        (Reg(1), vec!["mov 1 <- [3 + 4]".into()])
    );
    assert_eq!(
        v.run(|ctx| constructor_load(
            ctx,
            &Amode::RegOffset {
                base: Reg(3),
                offset: -4
            }
        )),
        (Reg(1), vec!["load 1 <- [3 + -4]".into()])
    );
    let info = Box::new(CallInfo {
        callee: 5,
        clobbers: vec![],
    });
    assert_eq!(
        v.run(|ctx| constructor_call(ctx, info)),
        (ZERO, vec!["call 5 []".into()])
    );
    for (of, want) in [
        (Iadd, Some(AluOp::Add)),
        (Isub, Some(AluOp::Sub)),
        (Imul, Some(AluOp::Mul)),
        (Band, Some(AluOp::And)),
        (Bor, Some(AluOp::Orr)),
        (Ishl, None),
    ] {
        assert_eq!(gives(|ctx| constructor_alu_op(ctx, &of)), want);
    }
}

#[test]
fn address_modes() {
    let (base, index) = (Reg(3), Reg(4));
    for (of, want) in [
        (Amode::RegOffset { base, offset: 0 }, Some(base)),
        (Amode::RegOffset { base, offset: 4 }, None),
        (Amode::RegReg { base, index }, Some(base)),
        (
            Amode::RegScaled {
                base,
                index,
                shift: 1,
            },
            Some(base),
        ),
        (
            Amode::RegScaled {
                base,
                index,
                shift: 2,
            },
            None,
        ),
    ] {
        assert_eq!(gives(|ctx| constructor_amode_base(ctx, &of)), want);
    }
}

#[test]
fn literals_and_constants() {
    for (ty, want) in [(I8, 8), (I16, 16), (I32, 32), (I64, 64), (Type(128), 64)] {
        assert_eq!(gives(|ctx| constructor_bits(ctx, ty)), want);
    }
    for (number, want) in [
        (-1, 1),
        (0, 2),
        (i64::MAX, 3),
        (8, 3),
        (1, 0),
        (5, 255),
        (-2, 255),
        (i64::MIN, 255),
    ] {
        assert_eq!(gives(|ctx| constructor_class(ctx, number)), want);
    }
    for (a, b, want) in [
        (u64::MAX, 1 << 64, true),
        (u64::MAX, 1, false),
        (0, 1 << 64, false),
    ] {
        assert_eq!(gives(|ctx| constructor_wide(ctx, a, b)), want);
    }
    for (a, b, want) in [
        (true, true, 3),
        (true, false, 2),
        (false, true, 1),
        (false, false, 0),
    ] {
        assert_eq!(gives(|ctx| constructor_truth(ctx, a, b)), want);
    }
    assert!(gives(|ctx| constructor_same_reg(ctx, Reg(2), Reg(2))));
    assert!(!gives(|ctx| constructor_same_reg(ctx, Reg(2), Reg(3))));
}

#[test]
fn options_of_enums() {
    let mut v = Values::default();
    let (x, y) = (v.param(I64), v.param(I64));
    for (of, want) in [
        (v.compare(Cond::Eq, x, y), Some(1)),
        (v.compare(Cond::Eq, x, x), Some(1)),
        (v.compare(Cond::Lt, x, x), Some(2)),
        (v.compare(Cond::Ne, x, x), Some(10)),
        (v.compare(Cond::Ge, y, y), Some(12)),
        (v.compare(Cond::Ge, x, y), None),
        (x, None),
    ] {
        assert_eq!(
            v.run(|ctx| constructor_cond_name(ctx, of)).0,
            want,
            "{}",
            v.graph.text(of)
        );
    }
    for (of, want) in [
        (Cond::Eq, 10),
        (Cond::Ne, 11),
        (Cond::Lt, 12),
        (Cond::Ge, 13),
    ] {
        assert_eq!(gives(|ctx| constructor_cond_number(ctx, &of)), want);
    }
}

#[test]
fn a_type_without_debug() {
    assert!(matches!(
        gives(|ctx| constructor_seal(ctx, 5)),
        Some(Secret::Sealed { blob: Blob(5) })
    ));
    assert!(matches!(
        gives(|ctx| constructor_seal(ctx, -1)),
        Some(Secret::Open)
    ));
    assert!(gives(|ctx| constructor_seal(ctx, -2)).is_none());
    for (of, want) in [
        (Secret::Open, Some(1)),
        (Secret::Sealed { blob: Blob(0) }, Some(2)),
        (Secret::Sealed { blob: Blob(3) }, None),
    ] {
        assert_eq!(gives(|ctx| constructor_opens(ctx, &of)), want);
    }
}

// No test says how a struct is handed in: these are called by terms of primitives.
#[test]
fn structs_and_fields_without_names() {
    assert_eq!(
        gives(|ctx| constructor_second_of(ctx, Reg(1), Reg(2))),
        Reg(2)
    );
    let made = gives(|ctx| constructor_pair(ctx, Reg(1), Reg(2)));
    assert_eq!((made.first, made.second), (Reg(1), Reg(2)));
    assert!(matches!(
        gives(|ctx| constructor_shape(ctx, Reg(1), 4)),
        Shape::Shifted(Reg(1), 2)
    ));
    for (number, want) in [(1, 0), (8, 3), (5, 255)] {
        assert_eq!(gives(|ctx| constructor_shift_of(ctx, Reg(1), number)), want);
    }
}

#[test]
fn a_term_that_calls_itself() {
    let mut v = Values::default();
    let x = v.param(I64);
    let once = v.one(Ineg, I64, x);
    let twice = v.one(Bnot, I64, once);
    for (of, want) in [(x, 0), (once, 1), (twice, 2)] {
        assert_eq!(v.run(|ctx| constructor_depth(ctx, of)).0, want);
    }
}
