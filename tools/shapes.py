#!/usr/bin/env python3
"""Writes a set of rules of one shape and size to standard output. The same shape and size give the same text each time."""
import argparse
import random
import sys

# Each shape: a function of a size and a source of random numbers that gives the definitions, a line or more each.
SHAPES = {}


def shape(make):
    """Lists a function as a shape, by its name without a `_` at its end."""
    SHAPES[make.__name__.rstrip("_")] = make
    return make


def text(name, size):
    """Returns the definitions of a shape, in which nothing is wrong."""
    return "\n".join(SHAPES[name](size, random.Random(1))) + "\n"


# An enum whose variants nest, and a pattern of it so many levels deep: one field nests for sure, the other half the time.
TREE = "(type T (enum " + " ".join(f"(V{i} (a T) (b T))" for i in range(20)) + " (L (x u32)) (Z)))"
WORDS = " ".join(["u32"] * 8)


def tree(rand, depth):
    if depth == 0:
        return rand.choice(["_", "(T.Z)", f"(T.L {rand.randrange(50)})"])
    variant, first = rand.randrange(20), tree(rand, depth - 1)
    return f"(T.V{variant} {first} {tree(rand, depth - 1 if rand.random() < 0.5 else 0)})"


@shape
def terms(size, rand):
    """Nested patterns, ten rules of each term."""
    yield TREE
    for term in range((size + 9) // 10):
        yield f"(decl f{term} (T T) u32)"
    for rule in range(size):
        yield f"(rule {rule % 10} (f{rule // 10} {tree(rand, 3)} {tree(rand, 2)}) {rule})"


@shape
def deep(size, rand):
    """Nested patterns, all rules of one term."""
    yield TREE
    yield "(decl f (T T) u32)"
    for rule in range(size):
        yield f"(rule {rule} (f {tree(rand, 3)} {tree(rand, 2)}) {rule})"


@shape
def ints(size, rand):
    """Six integers in each rule."""
    yield f"(decl f ({WORDS}) u32)"
    for rule in range(size):
        asked = rand.sample(range(8), 6)
        arguments = [str(rand.randrange(40)) if i in asked else "_" for i in range(8)]
        yield f"(rule {rule} (f {' '.join(arguments)}) {rule})"


@shape
def classes(size, rand):
    """One to three pairs of equal arguments in each rule."""
    yield f"(decl f ({WORDS}) u32)"
    for rule in range(size):
        arguments, free = ["_"] * 8, list(range(8))
        rand.shuffle(free)
        for pair in range(rand.randrange(1, 4)):
            for _ in range(2):
                arguments[free.pop()] = f"x{pair}"
        for i in free:
            if rand.random() < 0.7:
                arguments[i] = str(rand.randrange(30))
        yield f"(rule {rule} (f {' '.join(arguments)}) {rule})"


@shape
def iflets(size, rand):
    """Two if-lets of partial calls in each rule."""
    yield "(decl pure partial p (u32 u32) u32) (extern constructor p p)"
    yield "(decl ex (u32 u32) u32) (extern extractor ex ex)"
    yield "(decl g (u32) u32) (extern constructor g g)"
    yield "(decl f (u32 u32) u32)"
    for rule in range(size):
        asked = rand.randrange(30), rand.choice(["w", str(rand.randrange(9))])
        yield f"(rule {rule} (f (ex {asked[0]} x) y) (if-let {asked[1]} (p x {rule})) (if-let z (p y y)) (g z))"


@shape
def same(size, rand):
    """One deep prefix that all rules share."""
    yield TREE
    yield "(decl f (T u32 u32) u32)"
    for rule in range(size):
        prefix = f"(T.V1 (T.V2 (T.V3 x (T.L {rule % 300})) _) (T.V4 _ _))"
        yield f"(rule {rule} (f {prefix} {rand.choice(['_', str(rule % 17)])} {rule}) {rule})"


@shape
def multi(size, rand):
    """A multi term whose rules make multi calls."""
    yield "(decl pure multi m (u32) u32) (extern constructor m m)"
    yield "(decl multi e (u32) u32) (extern extractor e e)"
    yield "(decl multi f (u32 u32 u32) u32)"
    for rule in range(size):
        first, second = rand.randrange(60), rand.choice(["(e x)", "x", "x", str(rand.randrange(60))])
        yield f"(rule (f {first} {second} y) {rand.choice(['(m y)', 'y', str(rule)])})"


@shape
def literals(size, _):
    """One literal in each rule, all of one priority."""
    yield "(decl f (u32) u32)"
    for rule in range(size):
        yield f"(rule (f {rule}) {rule})"


# Instructions of a made-up machine: so many operations, and the types of their values.
OPERATIONS = 120
TYPES = ["$I8", "$I16", "$I32", "$I64", "$I128", "$F32", "$F64", "$V128"]
CLASSES = ["fits_in_32", "fits_in_64", "any_int", "any_vector"]


def machine():
    """What a backend's rules stand on."""
    for name in ("Type", "Value", "Inst", "Reg"):
        yield f"(type {name} (primitive {name}))"
    yield "(type Opcode extern (enum " + " ".join(f"Op{i}" for i in range(OPERATIONS)) + "))"
    yield "(type Data extern (enum (Unary (op Opcode) (x Value)) (Binary (op Opcode) (x Value) (y Value)) (Constant (op Opcode) (k u64))))"
    yield "(type Amode (enum (Base (offset i32) (base Reg)) (Index (base Reg) (index Reg) (shift u8)) (Pool (at u32))))"
    yield "(type Operand (enum (Reg (r Reg)) (Mem (a Amode)) (Imm (k u32))))"
    yield "(type MInst (enum " + " ".join(f"(M{i} (ty Type) (a Reg) (b Operand) (d Reg))" for i in range(60)) + "))"
    for name in TYPES:
        yield f"(extern const {name} Type)"
    for name in CLASSES:
        yield f"(decl {name} (Type) Type) (extern extractor {name} {name})"
    yield "(decl def_inst (Inst) Value) (extern extractor def_inst def_inst)"
    yield "(decl inst_data (Data) Inst) (extern extractor infallible inst_data inst_data)"
    yield "(decl result_type (Type) Inst) (extern extractor infallible result_type result_type)"
    yield "(decl has_type (Type Inst) Inst) (extractor (has_type ty inst) (and (result_type ty) inst))"
    yield "(decl small (u32) Value) (extern extractor small small)"
    yield "(decl put_in_reg (Value) Reg) (extern constructor put_in_reg put_in_reg) (convert Value Reg put_in_reg)"
    yield "(decl operand (Value) Operand) (extern constructor operand operand) (convert Value Operand operand)"
    yield "(decl emit (MInst) Reg) (extern constructor emit emit) (decl temp (Type) Reg) (extern constructor temp temp)"
    yield "(decl pure partial as_address (Value) Amode) (extern constructor as_address as_address)"
    yield "(decl pure partial lone_use (Value) Value) (extern constructor lone_use lone_use)"
    for i in range(OPERATIONS):
        if i % 3:
            yield f"(decl op{i} (Value Value) Inst) (extractor (op{i} x y) (inst_data (Data.Binary (Opcode.Op{i}) x y)))"
        else:
            yield f"(decl op{i} (Value) Inst) (extractor (op{i} x) (inst_data (Data.Unary (Opcode.Op{i}) x)))"


def instruction(rand, names, depth):
    """A pattern of an instruction, whose variables it adds to a list of names, and how much it asks."""
    operation = int(rand.random() ** 2 * OPERATIONS)
    operands, asks = [], 1
    for _ in range(2 if operation % 3 else 1):
        chance = rand.random()
        if chance < 0.35 and depth:
            inner, more = instruction(rand, names, depth - 1)
            operands.append(f"(def_inst {inner})")
            asks += more + 1
        elif chance < 0.5:
            operands.append(f"(small {rand.choice(['_', str(rand.randrange(64))])})")
            asks += 1 + (operands[-1] != "(small _)")
        else:
            names.append(f"x{len(names)}")
            operands.append(names[-1])
    return f"(op{operation} {' '.join(operands)})", asks


def lowering(rand, helpers):
    """A rule of `lower`: how much it asks, its arguments, and the rest of it."""
    names = []
    pattern, asks = instruction(rand, names, 2)
    ty = rand.choice([rand.choice(TYPES), f"({rand.choice(CLASSES)} ty)"])
    asked = ""
    if names and rand.random() < 0.2:
        asked = f"(if-let _ ({rand.choice(['as_address', 'lone_use'])} {rand.choice(names)})) "
    value = rand.choice(names) if names else "(temp $I64)"
    other = f"(Operand.Reg {value})" if rand.random() < 0.5 else "(Operand.Imm 7)"
    made = f"(h{rand.randrange(helpers)} {'ty' if ty[0] == '(' else ty} {value} {other})"
    return asks + (asked != ""), f"(has_type {ty} {pattern})", asked + made


def operand(rand):
    """A pattern of an operand, and how much it asks."""
    return rand.choice(
        [
            ("b", 0),
            ("(Operand.Reg b)", 1),
            (f"(Operand.Imm {rand.randrange(20)})", 2),
            ("(Operand.Mem (Amode.Pool _))", 2),
            (f"(Operand.Mem (Amode.Base {rand.randrange(9)} b))", 3),
            (f"(Operand.Mem (Amode.Index b c {rand.randrange(4)}))", 3),
        ]
    )


def helping(rand, helpers):
    """A rule of a helper, likewise."""
    ty = rand.choice([rand.choice(TYPES), f"({rand.choice(CLASSES)} ty)", "ty"])
    right, asks = operand(rand)
    name = "ty" if "ty" in ty else ty
    made = f"(emit (MInst.M{rand.randrange(60)} {name} a (Operand.Imm {rand.randrange(9)}) (temp {name})))"
    if rand.random() < 0.3:
        made = f"(h{rand.randrange(helpers)} {name} {made} (Operand.Reg a))"
    return asks + (ty != "ty"), f"{ty} a {right}", made


def distinct(rand, rule, count, helpers):
    """So many rules with different arguments, those that ask more behind those that ask less: so no rule is shadowed."""
    found = {}
    while len(found) < count:
        asks, arguments, rest = rule(rand, helpers)
        found.setdefault(arguments, (asks, rest))
    return sorted((asks, arguments, rest) for arguments, (asks, rest) in found.items())


@shape
def backend(size, rand):
    """Rules like a backend's: a quarter of them lower instructions, the others are of some 600 helpers for 3,851 rules."""
    yield from machine()
    helpers = max(1, size * 599 // 3851)
    yield "(decl partial lower (Inst) Reg)"
    for helper in range(helpers):
        yield f"(decl h{helper} (Type Reg Operand) Reg)"
    lowers = size // 4
    counts = [1] * helpers
    for _ in range(size - lowers - helpers):
        counts[int(rand.random() ** 2 * helpers)] += 1
    for priority, (_, arguments, rest) in enumerate(distinct(rand, lowering, lowers, helpers)):
        yield f"(rule {priority} (lower {arguments}) {rest})"
    for helper, count in enumerate(counts):
        for priority, (_, arguments, rest) in enumerate(distinct(rand, helping, count, helpers)):
            yield f"(rule {priority} (h{helper} {arguments}) {rest})"


def nested(size, before, inside, after=")"):
    return before * size + inside + after * size


CHAIN_OF_VARIANTS = "(type T (enum (A (v T)) (Z)))"


@shape
def nest(size, _):
    """One rule: so many variants in one another."""
    yield CHAIN_OF_VARIANTS
    yield f"(decl f (T) u32) (rule (f {nested(size, '(T.A ', '_')}) 1)"


@shape
def extracts(size, _):
    """One rule: so many calls of an extractor in one another."""
    yield "(decl e (u32) u32) (extern extractor e e)"
    yield f"(decl f (u32) u32) (rule (f {nested(size, '(e ', 'x')}) x)"


@shape
def chain(size, _):
    """One rule: so many if-lets, each of what the one before binds."""
    yield "(decl pure partial p (u32) u32) (extern constructor p p)"
    iflets = " ".join(f"(if-let x{i + 1} (p x{i}))" for i in range(size))
    yield f"(decl f (u32) u32) (rule (f x0) {iflets} x{size})"


@shape
def class_(size, _):
    """One rule: so many equal arguments."""
    yield f"(decl f ({'u32 ' * size}) u32) (rule (f {'x ' * size}) 1)"


@shape
def parts(size, _):
    """One rule: a value that is equal to a field so many variants deep in it."""
    yield CHAIN_OF_VARIANTS
    yield f"(decl f (T T) u32) (rule (f (and x {nested(size, '(T.A ', '_')}) x) 1)"


@shape
def calls(size, _):
    """A multi term, each of whose rules makes a multi call that no other makes."""
    for rule in range(size):
        yield f"(decl pure multi m{rule} (u32) u32) (extern constructor m{rule} m{rule})"
    yield "(decl multi f (u32) u32)"
    for rule in range(size):
        yield f"(rule (f x) (m{rule} x))"


@shape
def fields(size, _):
    """Two rules: so many arguments of a struct of 250 fields, with six variables in each."""
    yield "(type S (struct " + " ".join(f"(f{i} u32)" for i in range(250)) + "))"
    yield f"(decl f ({'S ' * size}) u32)"
    for rule in range(2):
        named = [f"x{i // 40}" if i % 40 == rule else "_" for i in range(250)]
        structs = " ".join(["(S " + " ".join(named) + ")"] * size)
        yield f"(rule {rule} (f {structs}) {rule})"


@shape
def template(size, _):
    """One rule: a template of 30 calls of an extractor, so many times in itself."""
    yield "(decl e (u32) u32) (extern extractor e e)"
    yield f"(decl t (u32) u32) (extractor (t x) {nested(30, '(e ', 'x')})"
    yield f"(decl f (u32) u32) (rule (f {nested(size, '(t ', 'x')}) x)"


# What nests, so many levels deep: lists that are no definitions, patterns and expressions of definitions in which something else
# is wrong, and rules that are lowered.
EXTRACTOR = "(decl e (u32) u32) (extern extractor e e) "
CONSTRUCTOR = "(decl g (u32) u32) (extern constructor g g) "
RULE = "(decl f (u32) u32) (rule (f"
NESTED = {
    "lists, if the text then can't be read": lambda n: "(" * n,
    "patterns that are read and freed": lambda n: f"{EXTRACTOR}(decl h (None) u32) {RULE} {nested(n, '(e ', 'x')}) x)",
    "patterns that are typed": lambda n: f"{EXTRACTOR}{RULE} {nested(n, '(e ', 'x')}) none)",
    "patterns that are lowered to trees": lambda n: f"{EXTRACTOR}{RULE} {nested(n, '(e ', 'x')}) x)",
    "expressions that are typed and lowered": lambda n: f"{CONSTRUCTOR}{RULE} x) {nested(n, '(g ', 'x')})",
    "`and` that is lowered": lambda n: f"{RULE} {nested(n, '(and _ ', '_')}) 1)",
    "bindings by `@`": lambda n: f"{RULE} {''.join(f'x{i} @ ' for i in range(n))}_) 1)",
    "lets in one another": lambda n: f"{CONSTRUCTOR}{RULE} x) {nested(n, '(let ((x u32 (g x))) ', 'x')})",
    "templates of internal extractors": lambda n: f"(decl t (u32) u32) (extractor (t x) {nested(n, '(and _ ', 'x')}) {RULE} (t x)) x)",
}


def main():
    parser = argparse.ArgumentParser(prog="shapes.py", description=__doc__)
    parser.add_argument("shape", metavar="SHAPE", choices=SHAPES, help=", ".join(SHAPES))
    parser.add_argument("size", metavar="SIZE", type=int, help="how many rules, or how large the one rule is")
    asked = parser.parse_args()
    sys.stdout.write(text(asked.shape, asked.size))


if __name__ == "__main__":
    main()
