//! Makes expressions simpler by the rules of `rules.isle`, which the build script compiled.

use std::fmt;

// The code of the rules. It names the types below, and calls what `Context` asks of `Exprs`.
mod rules {
    include!(concat!(env!("OUT_DIR"), "/rules.rs"));
}

type Number = i64;

/// An expression by its place among all of them.
type Value = usize;

#[derive(Clone, Copy, Debug)]
enum Expr {
    Const { value: Number },
    Var { name: char },
    Add { left: Value, right: Value },
    Mul { left: Value, right: Value },
}

/// All expressions that were made.
struct Exprs(Vec<Expr>);

impl rules::Context for Exprs {
    fn expr_of(&mut self, value: Value) -> Expr {
        self.0[value]
    }

    fn make(&mut self, expr: &Expr) -> Value {
        self.0.push(*expr);
        self.0.len() - 1
    }

    fn add_numbers(&mut self, x: Number, y: Number) -> Number {
        x.wrapping_add(y)
    }
}

impl Exprs {
    /// A value that means the same, its operands made simple first.
    fn simple(&mut self, value: Value) -> Value {
        let expr = match self.0[value] {
            Expr::Add { left, right } => Expr::Add {
                left: self.simple(left),
                right: self.simple(right),
            },
            Expr::Mul { left, right } => Expr::Mul {
                left: self.simple(left),
                right: self.simple(right),
            },
            expr => expr,
        };
        match rules::constructor_simplify(self, &expr) {
            Some(value) => value,
            None => rules::Context::make(self, &expr),
        }
    }
}

/// An expression in words.
struct Shown<'a>(&'a Exprs, Value);

impl fmt::Display for Shown<'_> {
    fn fmt(&self, out: &mut fmt::Formatter<'_>) -> fmt::Result {
        let Shown(exprs, value) = self;
        match exprs.0[*value] {
            Expr::Const { value } => write!(out, "{value}"),
            Expr::Var { name } => write!(out, "{name}"),
            Expr::Add { left, right } => {
                write!(out, "({} + {})", Shown(exprs, left), Shown(exprs, right))
            }
            Expr::Mul { left, right } => {
                write!(out, "({} * {})", Shown(exprs, left), Shown(exprs, right))
            }
        }
    }
}

/// Shows `(x + (3 + -3)) * 1`, and what the rules make of it.
fn main() {
    let mut exprs = Exprs(vec![
        Expr::Var { name: 'x' },
        Expr::Const { value: 3 },
        Expr::Const { value: -3 },
        Expr::Add { left: 1, right: 2 },
        Expr::Add { left: 0, right: 3 },
        Expr::Const { value: 1 },
        Expr::Mul { left: 4, right: 5 },
    ]);
    let simple = exprs.simple(6);
    println!("{} is {}", Shown(&exprs, 6), Shown(&exprs, simple));
}

#[cfg(test)]
mod tests {
    use super::*;

    // What an expression of two operands is made of them, in words.
    fn simplified(expr: fn(Value, Value) -> Expr, left: Expr, right: Expr) -> String {
        let mut exprs = Exprs(vec![left, right, expr(0, 1)]);
        let simple = exprs.simple(2);
        Shown(&exprs, simple).to_string()
    }

    const ADD: fn(Value, Value) -> Expr = |left, right| Expr::Add { left, right };
    const MUL: fn(Value, Value) -> Expr = |left, right| Expr::Mul { left, right };
    const X: Expr = Expr::Var { name: 'x' };

    fn number(value: Number) -> Expr {
        Expr::Const { value }
    }

    #[test]
    fn each_rule_is_taken() {
        assert_eq!(simplified(ADD, number(2), number(3)), "5");
        assert_eq!(simplified(ADD, number(0), X), "x");
        assert_eq!(simplified(ADD, X, number(0)), "x");
        assert_eq!(simplified(MUL, X, number(0)), "0");
        assert_eq!(simplified(MUL, X, number(1)), "x");
    }

    #[test]
    fn nothing_else_changes() {
        assert_eq!(simplified(ADD, X, number(1)), "(x + 1)");
        assert_eq!(simplified(MUL, number(0), X), "(0 * x)");
    }
}
