//! A `Context` for rules whose code in the original's form isn't sure to compile. They have partial calls of enums on a right
//! side, a tuple with an enum that two tests look at, equal variables of an enum with a `PartialEq` of its own, values that go to
//! two places, results of two rules, loops over enums, structs as parameters, a primitive that is neither Copy nor Clone, keywords
//! and paths as names, and tests so deep that blocks have labels. The crate has no std.
#![no_std]
extern crate alloc;

pub mod generated_code {
    #![allow(warnings)]
    include!(concat!(env!("OUT_DIR"), "/rules.rs"));
}
use alloc::vec::{IntoIter, Vec};
use generated_code::ContextIterWrapper;
pub use generated_code::{Link, Tree};

pub const MAX_ISLE_RETURNS: usize = 8;
pub type ConstructorVec<T> = Vec<T>;

#[derive(Clone, Copy, Debug, PartialEq, Eq)]
pub struct Reg(pub u32);
pub const R0: Reg = Reg(0);

/// Neither Copy nor Clone.
#[derive(Debug, PartialEq)]
pub struct Name(pub u32);

/// The rules name these by a path.
pub mod machine {
    #[derive(Clone, Copy, Debug, PartialEq, Eq)]
    pub struct Width(pub u8);
    pub const WIDE: Width = Width(64);
}

/// Not Copy.
#[derive(Clone, Debug, PartialEq)]
pub enum Cond {
    Eq,
    Ne,
    Lt,
}

// The code must not derive it, because it is written here.
impl PartialEq for Tree {
    fn eq(&self, other: &Tree) -> bool {
        match (self, other) {
            (Tree::Leaf { reg: a }, Tree::Leaf { reg: b }) => a == b,
            (Tree::Test { cond: a, reg: b }, Tree::Test { cond: c, reg: d }) => a == c && b == d,
            _ => false,
        }
    }
}

#[derive(Default)]
pub struct Ctx {
    pub linked: Vec<Link>,
}

impl generated_code::Context for Ctx {
    fn parts(&mut self, tree: &Tree) -> Option<(Cond, Tree, Reg)> {
        match tree {
            Tree::Leaf { reg } => (reg.0 == 9).then(|| (Cond::Ne, tree.clone(), *reg)),
            Tree::Test { cond, reg } => Some((cond.clone(), Tree::Leaf { reg: *reg }, *reg)),
        }
    }
    fn opposite(&mut self, cond: &Cond) -> Option<Cond> {
        match cond {
            Cond::Eq => Some(Cond::Ne),
            Cond::Ne => Some(Cond::Eq),
            Cond::Lt => None,
        }
    }
    fn leaf(&mut self, reg: Reg) -> Tree {
        Tree::Leaf { reg }
    }
    fn smaller(&mut self, tree: &Tree) -> Option<Tree> {
        match tree {
            Tree::Leaf { .. } => None,
            Tree::Test {
                cond: Cond::Eq,
                reg,
            } => Some(Tree::Leaf { reg: *reg }),
            Tree::Test { reg: Reg(1), .. } => Some(tree.clone()),
            Tree::Test { .. } => None,
        }
    }
    fn linked(&mut self, link: &Link) -> Reg {
        self.linked.push(link.clone());
        link.reg
    }
    fn link_of(&mut self, reg: Reg) -> Link {
        Link {
            tree: Tree::Leaf { reg },
            reg,
        }
    }
    type trees_returns = ContextIterWrapper<Vec<Tree>, Self>;
    fn trees(&mut self, reg: Reg, returns: &mut Self::trees_returns) {
        returns.extend([
            Tree::Leaf { reg },
            Tree::Test {
                cond: Cond::Ne,
                reg,
            },
        ]);
    }
    type halves_returns = ContextIterWrapper<IntoIter<(Cond, Tree)>, Self>;
    fn halves(&mut self, tree: &Tree, returns: &mut Self::halves_returns) {
        let halves: Vec<(Cond, Tree)> = match tree {
            Tree::Leaf { .. } => Vec::new(),
            Tree::Test { cond, reg } => [
                (cond.clone(), tree.clone()),
                (Cond::Lt, Tree::Leaf { reg: *reg }),
            ]
            .into(),
        };
        *returns = halves.into_iter().into();
    }
    // The tree of the register before, of the first register none.
    fn down(&mut self, tree: &Tree) -> Option<Tree> {
        match tree {
            Tree::Leaf { reg } => Some(Tree::Leaf {
                reg: Reg(reg.0.checked_sub(1)?),
            }),
            Tree::Test { cond, reg } => Some(Tree::Test {
                cond: cond.clone(),
                reg: Reg(reg.0.checked_sub(1)?),
            }),
        }
    }
    fn renamed(&mut self, name: Name) -> Name {
        Name(name.0 + 1)
    }
    fn labelled(&mut self, tree: &Tree) -> (Name, Cond) {
        match tree {
            Tree::Leaf { reg } => (Name(reg.0), Cond::Ne),
            Tree::Test { cond, reg } => (Name(reg.0), cond.clone()),
        }
    }
}
