#!/usr/bin/env python3
"""Makes random rules with specs, judges each by trying all values (by_force.py), and compares what tools/try-smt says of them.

Usage: random_rules.py [--seed S] [--solver z3|cvc5|both] [--size N] [--keep FOLDER] COUNT

Rules come in groups: a term with a spec, one to three rules, and the terms that they call. A group begins right: its spec says what its rules
do. Most groups are then changed at a random place, so that about half of the rules are wrong. Groups of a file share types: words of 1 to
4 bits and of any width, `u8`, truths, integers, an enum, an extern enum, an enum that stands for numbers, and a struct.
A disagreement is `right` that a trial refutes, or `wrong` that no trial confirms; its smallest form is written. Counted apart is `wrong` of a rule
that is right by the law, but wrong if an assumption in which no arm fits says nothing, and a rule above with an infallible extractor doesn't
count: there the questions assume less than the law. ISLE_PROGRAM names the
program, as for tools/try-smt, and TRY_SMT another script in place of tools/try-smt."""
import argparse
import collections
import os
import random
import re
import subprocess
import sys
import tempfile

import by_force

HERE = os.path.dirname(os.path.realpath(__file__))
SCRIPT = os.environ.get("TRY_SMT") or os.path.join(os.path.dirname(HERE), "try-smt")

SHARED = """(type N (primitive N)) (model N (type Int))
(type W (primitive W)) (model W (type (bv)))
(type E (enum P Q (R (x B2)) (S (x B1) (y B2))))
(type O extern (enum U (V (x B1))))
(type K (enum X Y Z)) (model K (enum (X #b00) (Y #b01) (Z #b11)))
(type T (struct (a B2) (b B1)))
(extern const $C2 B2) (model C2 (const #b10))
(extern const $C3 B3) (model C3 (const #b101))
(decl pure either (bool bool) bool) (extern constructor either either)
(macro (least x y) (if (bvult x y) x y))
(macro (flip x) (bvnot (bvneg x)))
""" + "".join("(type B%d (primitive B%d)) (model B%d (type (bv %d)))\n" % (k, k, k, k) for k in (1, 2, 3, 4))

VARIANTS = {"E": {"P": [], "Q": [], "R": ["B2"], "S": ["B1", "B2"]}, "O": {"U": [], "V": ["B1"]}, "K": {"X": [], "Y": [], "Z": []}}
NUMBERS = {"X": "#b00", "Y": "#b01", "Z": "#b11"}
FIELDS = {"T": [("a", "B2"), ("b", "B1")]}
CONSTANTS = {"B2": ("$C2", "#b10"), "B3": ("$C3", "#b101")}
BITS = {"B1": 1, "B2": 2, "B3": 3, "B4": 4, "u8": 8, "K": 2}
SIZES = {"B1": 2, "B2": 4, "B3": 8, "B4": 16, "u8": 256, "bool": 2, "N": 5, "E": 14, "O": 5, "K": 3, "T": 8, "W": 14}
BINARY = ["bvadd", "bvsub", "bvmul", "bvudiv", "bvurem", "bvsdiv", "bvsrem", "bvand", "bvor", "bvxor", "bvshl", "bvlshr", "bvashr", "rotl", "rotr"]
ORDERS = ["bvult", "bvule", "bvugt", "bvuge", "bvslt", "bvsle", "bvsgt", "bvsge"]
CLASSES = [BINARY, ORDERS, ["bvnot", "bvneg"], ["and", "or", "=>"], ["<", "<=", ">", ">="], ["+", "-", "*"], ["zero_ext", "sign_ext", "conv_to"],
           ["true", "false"], ["least!", "bvand"]]


def bits(width, n):
    return "#b" + format(n % (1 << width), "0%db" % width)


def sort_of(ty):
    """The sort of a type's values in specs: bits, or the type itself."""
    return BITS.get(ty, ty)


class Specs:
    """Random expressions of a sort over names with sorts: [(text, sort)]. Words of any width have the sort ("any", name)."""

    def __init__(self, rng):
        self.rng = rng

    def expression(self, sort, names, depth=2):
        if isinstance(sort, int):
            return self.word(sort, names, depth)
        if sort == "bool":
            return self.truth(names, depth)
        if sort == "N":
            return self.integer(names, depth)
        if sort == "W":
            return self.wide(names, depth)
        fitting = [text for text, s in names if s == sort]
        if fitting and self.rng.random() < 0.7:
            return self.rng.choice(fitting)
        if sort == "T":
            return "(T %s)" % " ".join(self.expression(sort_of(ty), names, 0) for _, ty in FIELDS["T"])
        variant = self.rng.choice(sorted(VARIANTS[sort]))
        fields = [self.expression(sort_of(ty), names, 0) for ty in VARIANTS[sort][variant]]
        return "(%s.%s%s)" % (sort, variant, "".join(" " + field for field in fields))

    def word(self, width, names, depth):
        """A word of so many bits."""
        rng, fitting = self.rng, [text for text, s in names if s == width]
        if depth <= 0 or rng.random() < 0.15:
            if names and rng.random() < 0.8:
                return rng.choice(fitting) if fitting else self.fitted(width, *rng.choice(names))
            return bits(width, rng.randrange(1 << width))
        part = lambda w: self.word(w, names, depth - 1)
        way = rng.randrange(13)
        if way < 5:
            return "(%s %s %s)" % (rng.choice(BINARY), part(width), part(width))
        if way == 5:
            return "(%s %s)" % (rng.choice(["bvnot", "bvneg", "flip!"]), part(width))
        if way == 6 and width < 4:
            low = rng.randrange(0, 5 - width)
            return "(extract %d %d %s)" % (low + width - 1, low, part(4))
        if way == 7 and width > 1:
            narrow = rng.randrange(1, width)
            return "(%s %d %s)" % (rng.choice(["zero_ext", "sign_ext"]), width, part(narrow))
        if way == 8 and width > 1:
            narrow = rng.randrange(1, width)
            return "(concat %s %s)" % (part(narrow), part(width - narrow))
        if way == 9:
            return rng.choice(["(if %s %s %s)" % (self.truth(names, depth - 1), part(width), part(width)), "(least! %s %s)" % (part(width), part(width)),
                               "(let ((z %s)) (bvadd z %s))" % (part(width), part(width))])
        if way == 10:
            return rng.choice(["(int2bv %d %s)" % (width, self.integer(names, depth - 1)), "(rotl %s %s)" % (part(width), self.integer(names, depth - 1)),
                               "(rotr %s %d)" % (part(width), rng.randrange(-3, 9)), "(conv_to %d %s)" % (width, part(4))])
        if way == 11:
            key = rng.choice([2, 3])
            return "(switch %s (%s %s) (%s %s) (_ %s))" % (part(key), bits(key, rng.randrange(4)), part(width), bits(key, rng.randrange(4)), part(width), part(width))
        return self.by_match(width, names, depth) or "(bvadd %s %s)" % (part(width), part(width))

    def fitted(self, width, text, sort):
        """A name of another sort as a word."""
        rng, some = self.rng, lambda: bits(width, self.rng.randrange(1 << width))
        if isinstance(sort, int) and sort > width:
            low = rng.randrange(0, sort - width + 1)
            return rng.choice(["(conv_to %d %s)" % (width, text), "(extract %d %d %s)" % (low + width - 1, low, text)])
        if isinstance(sort, int):
            return "(%s %d %s)" % (rng.choice(["zero_ext", "zero_ext", "sign_ext", "sign_ext", "zero_ext", "conv_to"]), width, text)
        if sort == "W":
            return "(int2bv %d (%s %s))" % (width, rng.choice(["bv2int", "widthof"]), text)
        if sort == "bool":
            return "(if %s %s %s)" % (text, some(), some())
        if sort == "N":
            return "(int2bv %d %s)" % (width, text)
        return self.by_match(width, [(text, sort)], 1)

    def by_match(self, sort, names, depth):
        """A match on a name of an enum, or a field of a struct."""
        found = [(text, s) for text, s in names if s in ("E", "O", "T")]
        if not found:
            return None
        text, ty = self.rng.choice(found)
        if depth <= 1:
            names = [(n, s) for n, s in names if s not in ("E", "O", "T")]
        if ty == "T":
            if sort in (2, 1):
                return "(:%s %s)" % ("a" if sort == 2 else "b", text)
            return "(match %s ((T p q) %s))" % (text, self.expression(sort, names + [("p", 2), ("q", 1)], depth - 1))
        arms, variants = [], sorted(VARIANTS[ty])
        self.rng.shuffle(variants)
        for variant in variants[:self.rng.randrange(1, 4)]:
            fields = ["%s%d" % (variant.lower(), i) for i in range(len(VARIANTS[ty][variant]))]
            inner = names + [(field, sort_of(t)) for field, t in zip(fields, VARIANTS[ty][variant])]
            arms.append("((%s) %s)" % (" ".join([variant] + fields), self.expression(sort, inner, depth - 1)))
        if len(arms) < len(variants) and self.rng.random() < 0.9 or ty == "O":
            arms.append("(_ %s)" % self.expression(sort, names, depth - 1))
        return "(match %s %s)" % (text, " ".join(arms))

    def truth(self, names, depth):
        rng, fitting = self.rng, [text for text, s in names if s == "bool"]
        if depth <= 0:
            return rng.choice(fitting) if fitting and rng.random() < 0.8 else rng.choice(["true", "false"])
        way, width = rng.randrange(9), rng.choice([s for _, s in names if isinstance(s, int)] or [1, 2, 3, 4])
        if way < 3:
            return "(%s %s %s)" % (rng.choice(ORDERS), self.word(width, names, depth - 1), self.word(width, names, depth - 1))
        if way == 3:
            return "(= %s %s)" % (self.word(width, names, depth - 1), self.word(width, names, depth - 1))
        if way == 4:
            return "(%s %s %s)" % (rng.choice(["and", "or", "=>"]), self.truth(names, depth - 1), self.truth(names, depth - 1))
        if way == 5:
            return "(not %s)" % self.truth(names, depth - 1)
        if way == 6:
            return "(%s %s %s)" % (rng.choice(["<", "<=", ">", ">=", "="]), self.integer(names, depth - 1), self.integer(names, depth - 1))
        if way == 7 and rng.random() < 0.3:
            return "(either %s %s)" % (self.truth(names, 0), self.truth(names, 0))
        same = [text for text, s in names if s in ("E", "O", "T")]
        sorts = dict(names)
        if same:
            text = rng.choice(same)
            return "(= %s %s)" % (text, self.expression(sorts[text], names, 0))
        return "(= %s %s)" % (self.word(width, names, depth - 1), self.word(width, names, depth - 1))

    def integer(self, names, depth):
        rng, fitting = self.rng, [text for text, s in names if s == "N"]
        fitting = fitting or ["(bv2int %s)" % text for text, s in names if isinstance(s, int) or s == "W"]
        if depth <= 0:
            return rng.choice(fitting) if fitting and rng.random() < 0.7 else str(rng.randrange(-2, 6))
        words = [text for text, s in names if isinstance(s, int) or s == "W"]
        way = rng.randrange(4)
        if way == 0:
            return "(%s %s %s)" % (rng.choice(["+", "-", "*"]), self.integer(names, depth - 1), self.integer(names, depth - 1))
        if way == 1 and words:
            return "(%s %s)" % (rng.choice(["bv2int", "widthof"]), rng.choice(words))
        return self.integer(names, 0)

    def wide(self, names, depth):
        """A word of any width: as wide as some name of that sort."""
        rng, fitting = self.rng, [text for text, s in names if s == "W"]
        if not fitting:
            return rng.choice(["#b01", "#b1", "#b001"])
        name = rng.choice(fitting)
        if depth <= 0:
            return name
        part = lambda: self.wide(names, depth - 1)
        way = rng.randrange(10)
        if way < 4:
            return "(%s %s %s)" % (rng.choice(BINARY), part(), part())
        if way == 4:
            return "(%s %s)" % (rng.choice(["bvnot", "bvneg"]), part())
        if way == 5:
            return "(bvadd %s (int2bv (widthof %s) %s))" % (part(), name, rng.choice(["1", "3", "(- (widthof %s) 1)" % name]))
        if way == 6:
            return "(%s (widthof %s) %s)" % (rng.choice(["zero_ext", "sign_ext", "conv_to"]), name, part())
        if way == 7:
            return "(if %s %s %s)" % (rng.choice(["(= (widthof %s) %d)" % (name, rng.choice([1, 2, 3, 4])), "(bvult %s %s)" % (name, rng.choice(fitting))]), part(), part())
        if way == 8:
            return "(switch (widthof %s) (%d %s) (_ %s))" % (name, rng.choice([1, 2, 3, 4]), part(), part())
        return "(rotl %s %s)" % (part(), rng.choice(["1", "(widthof %s)" % name, "(- 0 1)"]))


class Group:
    """A term with rules and a spec, and the terms that it calls, as lists of a text."""

    def __init__(self, rng, number):
        self.rng, self.specs, self.mark, self.callees, self.forms, self.count, self.seen, self.meant = rng, Specs(rng), "_%d" % number, [], [], 0, [], {}
        self.make()

    def name(self, begin):
        self.count += 1
        return "%s%d%s" % (begin, self.count, self.mark)

    def types(self, most, product):
        """Types of arguments whose values aren't too many together."""
        found, size = [], 1
        pool = ["B1", "B2", "B2", "B3", "B3", "B4", "bool", "E", "E", "O", "K", "T", "N", "W", "W"]
        for _ in range(self.rng.randrange(1, most + 1)):
            ty = self.rng.choice(pool)
            if size * SIZES[ty] <= product:
                found.append(ty)
                size *= SIZES[ty]
        return found or ["B2"]

    def signatures(self, term, takes, gives):
        """Widths for words of any width: one width for all, a few of 1 to 4."""
        if "W" not in takes + [gives] or self.rng.random() < 0.1:
            return []
        model = lambda ty, w: "(bv %d)" % w if ty == "W" else "(bv %d)" % BITS[ty] if ty in BITS and ty != "K" else "Bool" if ty == "bool" else "Int" if ty == "N" else "(named %s)" % ty
        rows = []
        for w in self.rng.sample([1, 2, 3, 4], self.rng.choice([1, 2, 2, 3])):
            out = w if self.rng.random() < 0.9 else self.rng.choice([1, 2, 3, 4])
            rows.append("((args%s) (ret %s) (canon (bv %d)))" % ("".join(" " + model(ty, w) for ty in takes), model(gives, out), w))
        return ["(instantiate %s %s)" % (term, " ".join(rows))]

    def required(self, names):
        """A `require`, which bounds integers, as only some of them are tried."""
        bounds = ["(<= 0 %s) (<= %s 4)" % (text, text) for text, s in names if s == "N"]
        if self.rng.random() < 0.25:
            bounds.append(self.specs.truth(names, 2))
        return ["(require %s)" % " ".join(bounds)] if bounds else []

    def callee(self, takes, gives):
        """A constructor that gives a type: its spec says which value, or seldom only something of it."""
        rng, term = self.rng, self.name("c")
        flags = rng.choice(["pure ", "pure ", "", "", "pure partial "])
        names = ["p%d" % i for i in range(len(takes))]
        sorts = [(n, sort_of(ty)) for n, ty in zip(names, takes)]
        meaning = self.specs.expression(sort_of(gives), sorts)
        provide = "(= result %s)" % meaning
        if rng.random() < 0.15 and gives not in ("N", "W"):
            meaning, provide = None, self.specs.truth(sorts + [("result", sort_of(gives))], 2)
        if flags == "pure partial ":
            provide = "%s %s" % (self.specs.truth(sorts, 2), provide)
        self.forms.append("(decl %s%s (%s) %s)" % (flags, term, " ".join(takes), gives))
        self.forms.append("(extern constructor %s %s)" % (term, term))
        self.forms += self.signatures(term, takes, gives)
        self.forms.append("(spec (%s) %s (provide %s))" % (" ".join([term] + names), " ".join(self.required(sorts)), provide))
        made = (term, takes, gives, names, meaning, "pure" in flags)
        self.callees.append(made)
        return made

    def extractor(self, ty):
        """(term, outputs, test, meanings of outputs): an extractor whose outputs are known from what it looks at."""
        rng, term = self.rng, self.name("x")
        outputs = [rng.choice(["B1", "B2", "B3", "bool"]) for _ in range(rng.randrange(0, 3))]
        if ty == "W" and rng.random() < 0.6:
            outputs = [rng.choice(["N", "W"])]
        at = [("result", sort_of(ty))]
        meanings = [self.specs.expression(sort_of(out), at) if out != "N" else rng.choice(["(widthof result)", "(bv2int result)"]) for out in outputs]
        infallible = bool(outputs) and rng.random() < 0.4
        test = "true" if infallible else self.specs.truth(at, 2)
        names = ["o%d" % i for i in range(len(outputs))]
        self.forms.append("(decl %s (%s) %s)" % (term, " ".join(outputs), ty))
        self.forms.append("(extern extractor %s%s %s)" % ("infallible " if infallible else "", term, term))
        match = "" if infallible else " (match %s)" % test
        self.forms.append("(spec (%s)%s (provide true%s))" % (" ".join([term] + names), match, "".join(" (= %s %s)" % (n, m) for n, m in zip(names, meanings))))
        if outputs and rng.random() < 0.3:
            inside = self.name("y")
            self.forms.append("(decl %s (%s) %s)" % (inside, " ".join(outputs), ty))
            self.forms.append("(extractor (%s) (%s))" % (" ".join([inside] + names), " ".join([term] + names)))
            term = inside
        return term, outputs, test, meanings

    def pattern(self, ty, depth):
        """(text, wrap, names): wrap(at, inner, other) is the expression that is `inner` where the pattern matches the expression `at`, and
        names have types and the meanings that inner may use, by wrap's own names."""
        rng, way = self.rng, self.rng.random()
        if depth == 0 or way < 0.3:
            if rng.random() < 0.15:
                return "_", lambda at, inner, other: inner({}), []
            same = [v for v, t in self.seen if t == ty]
            if same and rng.random() < 0.15:
                var = rng.choice(same)
                return var, lambda at, inner, other: "(if (= %s %s) %s %s)" % (self.meant[var], at, inner({}), other), []
            var = self.name("v").replace("_", "w")
            self.seen.append((var, ty))

            def bind(at, inner, other):
                self.meant[var] = at
                return inner({var: at})
            return var, bind, [(var, ty)]
        if ty in VARIANTS:
            variant = rng.choice(sorted(VARIANTS[ty]))
            parts = [self.pattern(field, depth - 1) for field in VARIANTS[ty][variant]]
            fields = [self.name("f").replace("_", "w") for _ in parts]

            def wrap(at, inner, other):
                body = self.all_of(list(zip(parts, fields)), inner, other)
                if ty == "K":
                    return "(if (= %s %s) %s %s)" % (at, NUMBERS[variant], body, other)
                return "(match %s ((%s) %s) (_ %s))" % (at, " ".join([variant] + fields), body, other)
            return "(%s.%s%s)" % (ty, variant, "".join(" " + p[0] for p in parts)), wrap, [n for p in parts for n in p[2]]
        if ty == "T":
            parts = [self.pattern(field, depth - 1) for _, field in FIELDS[ty]]
            wrap = lambda at, inner, other: self.all_of([(p, "(:%s %s)" % (f, at)) for p, (f, _) in zip(parts, FIELDS[ty])], inner, other)
            return "(T %s)" % " ".join(p[0] for p in parts), wrap, [n for p in parts for n in p[2]]
        if ty == "bool":
            said = rng.choice(["true", "false"])
            return said, lambda at, inner, other: "(if (= %s %s) %s %s)" % (at, said, inner({}), other), []
        if ty == "N" or ty in BITS and way < 0.5:
            if ty in CONSTANTS and rng.random() < 0.4:
                text, meaning = CONSTANTS[ty]
            else:
                n = rng.randrange(4 if ty == "N" else 1 << BITS[ty])
                text, meaning = str(n), str(n) if ty == "N" else bits(BITS[ty], n)
            return text, lambda at, inner, other: "(if (= %s %s) %s %s)" % (at, meaning, inner({}), other), []
        term, outputs, test, meanings = self.extractor(ty)
        parts = [self.pattern(out, 0) for out in outputs]

        def wrap(at, inner, other):
            there = lambda text: re.sub(r"\bresult\b", at.replace("\\", ""), text)
            body = self.all_of([(p, there(m)) for p, m in zip(parts, meanings)], inner, other)
            return body if test == "true" else "(if %s %s %s)" % (there(test), body, other)
        text = "(%s)" % " ".join([term] + [p[0] for p in parts])
        if rng.random() < 0.2:
            var = self.name("v").replace("_", "w")
            return "%s @ %s" % (var, text), lambda at, inner, other: wrap(at, lambda names: inner(dict(names, **{var: at})), other), [(var, ty)] + [n for p in parts for n in p[2]]
        return text, wrap, [n for p in parts for n in p[2]]

    @staticmethod
    def all_of(parts, inner, other):
        """The expression where all patterns match, [((text, wrap, names), at)]."""
        def go(rest, names):
            if not rest:
                return inner(names)
            (_, wrap, _), at = rest[0]
            return wrap(at, lambda more: go(rest[1:], dict(names, **more)), other)
        return go(parts, {})

    def value(self, ty, names, depth, is_pure=False):
        """(text, meaning) of an expression of a rule: its meaning is an expression of specs over variables in braces, or None."""
        rng, fitting = self.rng, [n for n, t in names if t == ty]
        if fitting and (depth == 0 or rng.random() < 0.45):
            var = rng.choice(fitting)
            return var, "{%s}" % var
        if ty in VARIANTS and rng.random() < 0.6:
            variant = rng.choice(sorted(VARIANTS[ty]))
            parts = [self.value(field, names, 0, is_pure) for field in VARIANTS[ty][variant]]
            said = NUMBERS[variant] if ty == "K" else self.joined("(%s.%s%s)", [ty, variant], parts)
            return "(%s.%s%s)" % (ty, variant, "".join(" " + p[0] for p in parts)), said
        if ty == "T" and rng.random() < 0.5:
            parts = [self.value(field, names, 0, is_pure) for _, field in FIELDS[ty]]
            return "(T %s)" % " ".join(p[0] for p in parts), self.joined("(T%s)", [], parts)
        if ty == "bool" and depth == 0:
            said = rng.choice(["true", "false"])
            return said, said
        if ty in BITS and ty != "K" and (depth == 0 or rng.random() < 0.15):
            n = rng.randrange(1 << BITS[ty])
            if ty in CONSTANTS and rng.random() < 0.3:
                return CONSTANTS[ty]
            return str(n), bits(BITS[ty], n)
        known = [c for c in self.callees if c[2] == ty and (c[5] or not is_pure)]
        if known and rng.random() < 0.5:
            chosen = rng.choice(known)
        else:
            takes = [t for _, t in rng.sample(names, min(len(names), rng.randrange(0, 3)))]
            if ty == "W" and "W" not in takes and "W" in [t for _, t in names]:
                takes = takes[:1] + ["W"]
            chosen = self.callee(takes, ty)
            if is_pure and not chosen[5]:
                self.forms = [f.replace("(decl %s " % chosen[0], "(decl pure %s " % chosen[0]) for f in self.forms]
                chosen = chosen[:5] + (True,)
                self.callees[-1] = chosen
        term, takes, _, inner, meaning, _ = chosen
        parts = [self.value(t, names, max(depth - 1, 0), is_pure) for t in takes]
        said = None
        if meaning is not None and all(p[1] is not None for p in parts):
            said = self.renamed(meaning, dict(zip(inner, (p[1] for p in parts))))
        return "(%s)" % " ".join([term] + [p[0] for p in parts]), said

    @staticmethod
    def joined(form, begin, parts):
        if any(p[1] is None for p in parts):
            return None
        return form % tuple(begin + ["".join(" " + p[1] for p in parts)])

    @staticmethod
    def renamed(text, names):
        return re.sub(r"\bp[0-9]+\b", lambda m: names.get(m.group(), m.group()), text)

    def gate(self, names):
        """An if-let: of a pure partial term, whose answer is known but not where there is one, or a test of a variant."""
        rng = self.rng
        takes = [t for _, t in rng.sample(names, min(len(names), rng.randrange(1, 3)))]
        ty = rng.choice(["B1", "B2", "bool", "E"])
        term, takes, gives, inner, meaning, is_pure = self.callee(takes, ty)
        if not is_pure:
            self.forms = [f.replace("(decl %s " % term, "(decl pure partial %s " % term) for f in self.forms]
            self.callees[-1] = (term, takes, gives, inner, meaning, True)
        parts = [self.value(t, names, 0, True) for t in takes]
        text, wrap, more = self.pattern(ty, 1)
        said = self.renamed(meaning, dict(zip(inner, (p[1] for p in parts)))) if meaning is not None and all(p[1] for p in parts) else None
        return "(if-let %s (%s))" % (text, " ".join([term] + [p[0] for p in parts])), wrap, more, said

    def make(self):
        rng = self.rng
        takes, term = self.types(3, 64), "f" + self.mark
        gives = rng.choice(["B1", "B2", "B2", "B3", "B3", "B4", "bool", "E", "K", "T", "N"] + ["W", "W", "B4"] * ("W" in takes))
        names = ["x%d" % i for i in range(len(takes))]
        sorts = [(n, sort_of(ty)) for n, ty in zip(names, takes)]
        count = rng.choice([1, 1, 2, 2, 3])
        said, rules = self.specs.expression(sort_of(gives), sorts), []
        for i in range(count):
            self.seen = []
            parts = [self.pattern(ty, 0 if i == 0 and count > 1 and rng.random() < 0.8 else 2) for ty in takes]
            bound = [n for p in parts for n in p[2]]
            gates, gate = "", None
            if bound and rng.random() < 0.25:
                gate = self.gate(bound)
                gates, bound = " " + gate[0], bound + gate[2]
            text, meaning = self.value(gives, bound, 2)
            rules.append("(rule r%d%s %d (%s %s)%s %s)" % (i, self.mark, i, term, " ".join(p[0] for p in parts), gates, text))
            if meaning is None:
                meaning = self.specs.expression(sort_of(gives), sorts)

            def inner(found, meaning=meaning, gate=gate, other=said):
                body = lambda all_names: re.sub(r"\{(\w+)\}", lambda m: all_names.get(m.group(1), "true"), meaning)
                if gate is None:
                    return body(found)
                if gate[3] is None:
                    return body(dict({n: self.specs.expression(sort_of(t), sorts, 0) for n, t in gate[2]}, **found))
                return gate[1](re.sub(r"\{(\w+)\}", lambda m: found.get(m.group(1), "true"), gate[3]), lambda more: body(dict(found, **more)), other)
            said = self.all_of(list(zip(parts, names)), inner, said)
        provide = "(= result %s)" % said
        if rng.random() < 0.1 and gives not in ("W",):
            provide = self.specs.truth(sorts + [("result", sort_of(gives))], 2)
        self.forms.append("(decl partial %s (%s) %s)" % (term, " ".join(takes), gives))
        self.forms += self.signatures(term, takes, gives)
        self.forms.append("(spec (%s) %s (provide %s))" % (" ".join([term] + names), " ".join(self.required(sorts)), provide))
        self.forms += rules


def changed(rng, forms):
    """The forms with one word exchanged for another of its class, two arguments of a call exchanged, or a constant that is another."""
    forms = list(forms)
    for _ in range(20):
        i = rng.randrange(len(forms))
        if not forms[i].startswith(("(spec", "(rule", "(instantiate")):
            continue
        tokens = re.findall(r"[()]|\s+|[^\s()]+", forms[i])
        k = rng.randrange(len(tokens))
        token = tokens[k]
        kinds = [c for c in CLASSES if token in c]
        if kinds:
            tokens[k] = rng.choice([o for o in kinds[0] if o != token])
        elif re.fullmatch(r"[1-4]", token) and forms[i].startswith("(instantiate"):
            tokens[k] = rng.choice([w for w in "1234" if w != token])
        elif re.fullmatch(r"#b[01]+", token):
            place = rng.randrange(2, len(token))
            tokens[k] = token[:place] + "10"[int(token[place])] + token[place + 1:]
        elif re.fullmatch(r"[xpv][0-9w]+", token):
            others = sorted({t for t in tokens if re.fullmatch(r"[xpv][0-9w]+", t) and t != token and t[0] == token[0]})
            if not others:
                continue
            tokens[k] = rng.choice(others)
        else:
            continue
        forms[i] = "".join(tokens)
        return forms
    return forms


WORDS = "right|wrong|unknown|idle|without"


class Asked:
    """What try-smt says of a text: the words by the names of rules, or the lines of its errors."""

    def __init__(self, text, options, room):
        path = os.path.join(room, "a.isle")
        with open(path, "w", encoding="utf-8") as file:
            file.write(text)
        command = [sys.executable, SCRIPT, "--jobs", "1", "--lax", "--seconds", str(options.seconds)] + (["--solver", options.solver] if options.solver else []) + [path]
        run = subprocess.run(command, stdout=subprocess.PIPE, stderr=subprocess.STDOUT)
        self.told = run.stdout.decode("utf-8")
        lines = re.findall(r"^(%s): rule (\S+) at ([^\n]*)" % WORDS, self.told, re.M)
        self.words = {name: "idle" if word == "without" and "no call takes it" in rest else word for word, name, rest in lines}
        self.errors = sorted({int(line) for line in re.findall(r"--> \S*a\.isle:(\d+)", self.told)})


def disagree(said, force):
    """Whether the program's word is refuted."""
    return said == "right" and force == "wrong" or said == "wrong" and force in ("right", "idle") or said == "idle" and force == "wrong"


def ask_batch(groups, options, room, counts):
    """Asks about groups of forms in one file, without those that are refused: (groups, words by names)."""
    while groups:
        lines = SHARED.count("\n")
        owner, text = {}, [SHARED.rstrip("\n")]
        for group in groups:
            for form in group:
                lines += 1
                owner[lines] = group
                text.append(form)
        asked = Asked("\n".join(text), options, room)
        if asked.words or not asked.errors:
            return groups, asked
        bad = [owner[line] for line in asked.errors if line in owner]
        if not bad:
            return groups, asked
        counts["refused groups"] += len({id(g) for g in bad})
        for g in bad[:1]:
            code = re.search(r"error\[?([^\]:\n]*)", asked.told)
            counts["refused: " + (code.group(1) if code else "?")] += 1
        groups = [g for g in groups if all(g is not b for b in bad)]
    return [], None


def smaller(forms):
    """Texts of groups with one list less, or a list in place of one around it."""
    for i in range(len(forms)):
        yield forms[:i] + forms[i + 1:]
    for i, form in enumerate(forms):
        if not form.startswith(("(spec", "(rule", "(instantiate")):
            continue
        spans, stack = [], []
        for m in re.finditer(r"[()]|[^\s()]+", form):
            if m.group() == "(":
                stack.append((m.start(), []))
            elif m.group() == ")":
                start, inside = stack.pop()
                spans.append((start, m.end(), inside))
                if stack:
                    stack[-1][1].append((start, m.end()))
            elif stack:
                stack[-1][1].append((m.start(), m.end()))
        for start, end, inside in sorted(spans, key=lambda s: s[0] - s[1]):
            for a, b in inside:
                if start:
                    yield forms[:i] + [form[:start] + form[a:b] + form[end:]] + forms[i + 1:]
            for a, b in inside[1:]:
                yield forms[:i] + [form[:a] + form[b:]] + forms[i + 1:]


def shrunk(forms, rule, options, room):
    """The smallest group found in which the program still says what a trial refutes."""
    def still(candidate):
        text = SHARED + "\n".join(candidate)
        try:
            force = {r.name: w for r, w, _ in by_force.judge(text, 20000)}.get(rule)
        except Exception:
            return False
        if force not in ("right", "wrong", "idle"):
            return False
        return disagree(Asked(text, options, room).words.get(rule), force)
    tries, going = 0, True
    while going and tries < options.tries:
        going = False
        for candidate in smaller(forms):
            tries += 1
            if tries >= options.tries:
                break
            if still(candidate):
                forms, going = candidate, True
                break
    return forms


def told_of(forms, rule, said, judged, shown, options, room):
    """Writes a disagreement in its smallest form."""
    small = "\n".join(shrunk(forms, rule.name, options, room))
    report = "; seed %d: rule %s is told %s, and by force it is %s: %s\n%s%s\n" % (options.seed, rule.name, said, judged, str(shown)[:300], SHARED, small)
    print(report, flush=True)
    if options.keep:
        with open(os.path.join(options.keep, "random-%d-%s.isle" % (options.seed, rule.name)), "w", encoding="utf-8") as file:
            file.write(report)


def main(arguments):
    parser = argparse.ArgumentParser(prog="random_rules.py", description=__doc__, formatter_class=argparse.RawDescriptionHelpFormatter)
    parser.add_argument("--seed", type=int, default=1)
    parser.add_argument("--solver", choices=["z3", "cvc5", "both"])
    parser.add_argument("--seconds", type=int, default=10)
    parser.add_argument("--size", type=int, default=40, help="groups in a file (40)")
    parser.add_argument("--tries", type=int, default=300, help="how many smaller files are tried (300)")
    parser.add_argument("--keep", metavar="FOLDER", help="write each disagreement there")
    parser.add_argument("--only-judge", action="store_true", help="start no program")
    parser.add_argument("count", type=int, help="how many rules")
    options = parser.parse_args(arguments)
    counts, number, batch = collections.Counter(), 0, 0
    with tempfile.TemporaryDirectory() as room:
        while counts["rules"] < options.count:
            batch += 1
            groups, judged_by = [], {}
            while len(groups) < options.size:
                number += 1
                rng = random.Random("%d %d" % (options.seed, number))
                forms = Group(rng, number).forms
                forms = changed(rng, forms) if rng.random() < 0.5 else forms
                try:
                    force = by_force.judge(SHARED + "\n".join(forms), 20000)
                except (ValueError, KeyError, IndexError, TypeError) as error:
                    counts["not well formed: %s" % type(error).__name__] += 1
                    continue
                if any(word == "idle" for _, word, _ in force) and rng.random() < 0.8:
                    continue
                groups.append(forms)
                judged_by[id(forms)] = force
            words, kept = {}, groups
            if not options.only_judge:
                kept, asked = ask_batch(groups, options, room, counts)
                if asked is None or not asked.words:
                    print("batch %d: nothing is said: %s" % (batch, asked.told[:500] if asked else ""))
                    continue
                words = asked.words
            for forms in kept:
                for rule, judged, shown in judged_by[id(forms)]:
                    said = words.get(rule.name, "silent")
                    counts["rules"] += 1
                    counts["said " + said] += 1
                    counts["by force " + judged] += 1
                    counts["%s, by force %s" % (said, judged)] += 1
                    if disagree(said, judged) and said == "wrong" and by_force.is_wrong_leniently(SHARED + "\n".join(forms), rule.name):
                        counts["wrong by the lenient reading alone"] += 1
                    elif disagree(said, judged):
                        counts["disagreements"] += 1
                        told_of(forms, rule, said, judged, shown, options, room)
            print("%d rules, %d right, %d wrong, %d disagreements" % (counts["rules"], counts["said right"], counts["said wrong"], counts["disagreements"]), flush=True)
    for key in sorted(counts):
        print("%s: %d" % (key, counts[key]))
    return 1 if counts["disagreements"] or not counts["rules"] else 0


if __name__ == "__main__":
    sys.exit(main(sys.argv[1:]))
