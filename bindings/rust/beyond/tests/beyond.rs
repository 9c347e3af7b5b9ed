//! The answers were worked out from the rules by hand.
use beyond::generated_code::*;
use beyond::*;

fn leaf(number: u32) -> Tree {
    Tree::Leaf { reg: Reg(number) }
}
fn test(cond: Cond, number: u32) -> Tree {
    Tree::Test {
        cond,
        reg: Reg(number),
    }
}
fn ctx() -> Ctx {
    Ctx::default()
}

#[test]
fn partial_calls_of_enums() {
    assert_eq!(constructor_inverted(&mut ctx(), &Cond::Eq), Some(Cond::Ne));
    assert_eq!(constructor_inverted(&mut ctx(), &Cond::Lt), None);
    assert_eq!(
        constructor_inverted_test(&mut ctx(), &Cond::Ne, Reg(4)),
        Some(test(Cond::Eq, 4))
    );
    assert_eq!(
        constructor_inverted_test(&mut ctx(), &Cond::Lt, Reg(4)),
        None
    );
}

#[test]
fn tuples_with_enums() {
    for (of, want) in [
        (test(Cond::Eq, 1), 1),
        (leaf(1), 2),
        (leaf(9), 2),
        (test(Cond::Ne, 1), 3),
        (test(Cond::Lt, 1), 4),
    ] {
        assert_eq!(constructor_kind(&mut ctx(), &of), want, "{of:?}");
    }
    assert_eq!(
        constructor_cond_in(&mut ctx(), &test(Cond::Lt, 1)),
        Some(Cond::Lt)
    );
    assert_eq!(constructor_cond_in(&mut ctx(), &leaf(1)), None);
}

#[test]
fn equal_enums() {
    assert!(constructor_same(&mut ctx(), &leaf(1), &leaf(1)));
    assert!(!constructor_same(&mut ctx(), &leaf(1), &leaf(2)));
    assert!(constructor_holds_itself(&mut ctx(), &leaf(9)));
    assert!(!constructor_holds_itself(&mut ctx(), &test(Cond::Eq, 9)));
    assert!(!constructor_holds_itself(&mut ctx(), &leaf(1)));
    assert!(constructor_is_leaf_of(&mut ctx(), &leaf(1), Reg(1)));
    assert!(!constructor_is_leaf_of(&mut ctx(), &leaf(1), Reg(2)));
}

#[test]
fn values_in_two_places() {
    let mut ctx = ctx();
    let link = constructor_double(&mut ctx, &leaf(3));
    assert_eq!((link.tree, link.reg), (leaf(3), R0));
    assert_eq!(ctx.linked.len(), 1);
    assert!(
        matches!(constructor_both(&mut ctx, &leaf(3)), Both::Both { left, right } if left == leaf(3) && right == leaf(3))
    );
    assert!(
        matches!(constructor_both_made(&mut ctx, Reg(5)), Both::Both { left, right } if left == leaf(5) && right == leaf(5))
    );
    let one = constructor_one(&mut ctx, Reg(6));
    assert_eq!(constructor_inner(&mut ctx, &one), Reg(6));
    let (left, right) = (leaf(7), leaf(8));
    assert_eq!(
        constructor_inner(&mut ctx, &Both::Both { left, right }),
        Reg(7)
    );
    let (left, right) = (test(Cond::Eq, 7), leaf(8));
    assert_eq!(constructor_inner(&mut ctx, &Both::Both { left, right }), R0);
}

#[test]
fn loops_over_enums() {
    // both trees, a test by the leaf, and one more for the leaf that is that of the register
    let mut results = Vec::new();
    constructor_grown(&mut ctx(), Reg(2), &mut results);
    let mut texts: Vec<String> = results.iter().map(|tree| format!("{tree:?}")).collect();
    texts.sort();
    let mut want: Vec<String> = [
        leaf(2),
        test(Cond::Ne, 2),
        test(Cond::Lt, 2),
        test(Cond::Eq, 2),
    ]
    .iter()
    .map(|tree| format!("{tree:?}"))
    .collect();
    want.sort();
    assert_eq!(texts, want);
    // of a test: each half; a leaf of 0 beside each tree of 0; itself twice, since its first half is itself
    let mut results = Vec::new();
    constructor_split(&mut ctx(), &test(Cond::Eq, 2), &mut results);
    let mut texts: Vec<String> = results.iter().map(|both| format!("{both:?}")).collect();
    texts.sort();
    let both = |left: Tree, right: Tree| format!("{:?}", Both::Both { left, right });
    let mut want = vec![
        both(test(Cond::Eq, 0), test(Cond::Eq, 2)),
        both(test(Cond::Lt, 0), leaf(2)),
        both(leaf(0), leaf(0)),
        both(leaf(0), test(Cond::Ne, 0)),
        both(test(Cond::Eq, 2), test(Cond::Eq, 2)),
    ];
    want.sort();
    assert_eq!(texts, want);
}

#[test]
fn results_of_two_rules() {
    let mut results = Vec::new();
    constructor_doubled(&mut ctx(), Reg(2), &mut results);
    for (of, want) in [(leaf(2), 2), (test(Cond::Ne, 2), 2), (test(Cond::Eq, 2), 2)] {
        assert_eq!(
            results.iter().filter(|tree| **tree == of).count(),
            want,
            "{of:?}"
        );
    }
    assert_eq!(results.len(), 6);
}

#[test]
fn options_looked_at_twice() {
    for (of, want) in [
        (test(Cond::Eq, 1), 1),
        (leaf(1), 2),
        (test(Cond::Ne, 1), 3),
        (test(Cond::Ne, 2), 4),
    ] {
        assert_eq!(constructor_shrunk(&mut ctx(), &of), want, "{of:?}");
    }
}

#[test]
fn names() {
    assert_eq!(constructor_name_of(&mut ctx(), Name(1)), Name(2));
    for (of, want) in [
        (test(Cond::Eq, 4), Name(5)),
        (test(Cond::Ne, 4), Name(1)),
        (leaf(4), Name(1)),
    ] {
        assert_eq!(
            constructor_name_in(&mut ctx(), &of, Name(1)),
            want,
            "{of:?}"
        );
    }
    assert_eq!(
        (
            constructor_type(&mut ctx(), 1),
            constructor_type(&mut ctx(), 7)
        ),
        (2, 7)
    );
}

#[test]
fn paths() {
    assert!(constructor_is_wide(&mut ctx(), machine::WIDE));
    assert!(!constructor_is_wide(&mut ctx(), machine::Width(32)));
}

#[test]
fn deep_tests() {
    for (of, other, want) in [
        (test(Cond::Lt, 20), leaf(5), leaf(6)),
        (leaf(14), leaf(0), leaf(0)),
        (leaf(14), leaf(5), leaf(1)),
        (test(Cond::Eq, 14), leaf(5), test(Cond::Eq, 1)),
        (leaf(13), leaf(5), leaf(0)),
        (leaf(12), leaf(5), leaf(5)),
    ] {
        assert_eq!(constructor_deep(&mut ctx(), &of, &other), want, "{of:?}");
    }
    // the halves of the test of register 2: itself with its condition, and its leaf with Lt, which matches both rules
    let mut results = Vec::new();
    constructor_deep_halves(&mut ctx(), &test(Cond::Eq, 15), &mut results);
    let mut texts: Vec<String> = results.iter().map(|both| format!("{both:?}")).collect();
    texts.sort();
    let both = |left: Tree, right: Tree| format!("{:?}", Both::Both { left, right });
    let mut want = vec![
        both(test(Cond::Eq, 0), test(Cond::Eq, 2)),
        both(test(Cond::Lt, 0), leaf(2)),
        both(leaf(2), leaf(2)),
    ];
    want.sort();
    assert_eq!(texts, want);
}
