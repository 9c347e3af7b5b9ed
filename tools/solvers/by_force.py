#!/usr/bin/env python3
"""Judges rules with specs by trying all values, without a solver. Usage: by_force.py FILE..

Read from docs/VERIFYING.md, docs/NOTATION.md and the law of crates/laws_specs; it shares no code with the program. Modelled are:
types, models, constants, extractors (external and internal), constructors (pure, partial, impure), if-lets, priorities, specs, macros and
signatures. `multi` terms, implicit conversions, the sort Unit and types without a model of their own are not.

A trial fixes what each place of a rule stands for: arguments, outputs of extractors, what calls give, what unknown functions give.
All trials are made, one choice after the other. A rule is
  wrong  if in some trial all that is assumed holds, no rule above takes the call, and a goal fails
  idle   if it isn't wrong and no trial ends
  right  otherwise.
Words of 1 to 4 and of 8 bits have all their values, wider ones some, and integers some around 0: a rule that is wrong only at others
is judged right here."""
import re
import sys

WIDTHS = (8, 16, 32, 64)
INTEGERS = list(range(-6, 10))


class Misfit(Exception):
    """An expression says nothing: its operands don't fit, or no arm does."""


class NoArm(Misfit):
    """No arm or case fits."""


class Excluded(Exception):
    """What is assumed doesn't hold in this trial."""


class TooMany(Exception):
    """More trials than asked for."""


class Form(list):
    """A list of a text, and the line that it begins at."""

    line = 0


def read(text):
    """The lists of a text; `x @ p` is the list (@ x p)."""
    top, stack = Form(), []
    for number, line in enumerate(text.split("\n"), 1):
        for token in re.findall(r"[()]|[^\s()]+", line.partition(";")[0]):
            if token == "(":
                stack.append(top)
                top = Form()
                top.line = number
            elif token == ")":
                done, top = top, stack.pop()
                top.append(done)
            else:
                top.append(token)
            if len(top) >= 3 and top[-2] == "@" and token != "(":
                top[-3:] = [Form(["@", top[-3], top[-1]])]
    return top


def substituted(form, names):
    if isinstance(form, str):
        return names.get(form, form)
    made = Form(substituted(part, names) for part in form)
    made.line = form.line
    return made


def is_integer(token):
    return re.fullmatch(r"-?[0-9]+", token) is not None


# ---- Values: truths are bool, integers int, words (width, number), variants and structs tuples that begin with a mark ---------------


def word(width, number):
    return (width, number % (1 << width))


def is_word(x):
    return isinstance(x, tuple) and isinstance(x[0], int)


def is_int(x):
    return isinstance(x, int) and not isinstance(x, bool)


def sort_of_value(x):
    """Two values can be compared if their sorts are equal."""
    if not isinstance(x, tuple):
        return type(x)
    if x[0] == "opaque":
        return ("variant", x[1])
    return x[:1] if isinstance(x[0], int) else x[:2]


def signed(x):
    width, n = x
    return n - (1 << width) if n >> (width - 1) else n


def words(a, b):
    if not (is_word(a) and is_word(b) and a[0] == b[0]):
        raise Misfit()
    return a[0]


def divided(a, b):
    return (1 << a[0]) - 1 if b[1] == 0 else a[1] // b[1]


def remainder(a, b):
    return a[1] if b[1] == 0 else a[1] % b[1]


def signed_divided(a, b):
    if b[1] == 0:
        return 1 if signed(a) < 0 else -1
    q = abs(signed(a)) // abs(signed(b))
    return -q if (signed(a) < 0) != (signed(b) < 0) else q


def signed_remainder(a, b):
    if b[1] == 0:
        return a[1]
    r = abs(signed(a)) % abs(signed(b))
    return -r if signed(a) < 0 else r


WORD_OPERATORS = {
    "bvadd": lambda a, b: a[1] + b[1],
    "bvsub": lambda a, b: a[1] - b[1],
    "bvmul": lambda a, b: a[1] * b[1],
    "bvudiv": divided,
    "bvurem": remainder,
    "bvsdiv": signed_divided,
    "bvsrem": signed_remainder,
    "bvand": lambda a, b: a[1] & b[1],
    "bvor": lambda a, b: a[1] | b[1],
    "bvxor": lambda a, b: a[1] ^ b[1],
    "bvshl": lambda a, b: a[1] << b[1] if b[1] < a[0] else 0,
    "bvlshr": lambda a, b: a[1] >> b[1] if b[1] < a[0] else 0,
    "bvashr": lambda a, b: signed(a) >> min(b[1], a[0]),
}
WORD_ORDERS = {
    "bvult": lambda a, b: a[1] < b[1],
    "bvule": lambda a, b: a[1] <= b[1],
    "bvugt": lambda a, b: a[1] > b[1],
    "bvuge": lambda a, b: a[1] >= b[1],
    "bvslt": lambda a, b: signed(a) < signed(b),
    "bvsle": lambda a, b: signed(a) <= signed(b),
    "bvsgt": lambda a, b: signed(a) > signed(b),
    "bvsge": lambda a, b: signed(a) >= signed(b),
}
INTEGER_OPERATORS = {
    "<": lambda a, b: a < b,
    "<=": lambda a, b: a <= b,
    ">": lambda a, b: a > b,
    ">=": lambda a, b: a >= b,
    "+": lambda a, b: a + b,
    "-": lambda a, b: a - b,
    "*": lambda a, b: a * b,
}
FOLDED = {"and", "or", "+", "*", "bvadd", "bvmul", "bvand", "bvor", "bvxor"}


def turned(x, places):
    width, n = x
    places %= width
    return word(width, (n << places) | (n >> (width - places)))


def need(is_so):
    if not is_so:
        raise Misfit()


def applied(name, xs):
    """What an operator gives; conv_to to more bits is a choice, and so not here."""
    if name in FOLDED and len(xs) > 2:
        return applied(name, [applied(name, xs[:2])] + xs[2:])
    if name in ("and", "or", "not", "=>"):
        need(all(isinstance(x, bool) for x in xs))
        return {"and": all(xs), "or": any(xs), "not": not xs[0], "=>": not xs[0] or xs[-1]}[name]
    if name == "=":
        need(sort_of_value(xs[0]) == sort_of_value(xs[1]))
        return xs[0] == xs[1]
    if name in INTEGER_OPERATORS:
        need(all(is_int(x) for x in xs))
        return INTEGER_OPERATORS[name](*xs)
    if name in WORD_OPERATORS:
        return word(words(*xs), WORD_OPERATORS[name](*xs))
    if name in WORD_ORDERS:
        words(*xs)
        return WORD_ORDERS[name](*xs)
    if name in ("rotl", "rotr"):
        need(is_word(xs[0]) and (is_int(xs[1]) or words(*xs)))
        places = xs[1] if is_int(xs[1]) else xs[1][1]
        return turned(xs[0], places if name == "rotl" else -places)
    if name == "int2bv":
        need(is_int(xs[0]) and xs[0] > 0 and is_int(xs[1]))
        return word(xs[0], xs[1])
    if name == "extract":
        need(is_int(xs[0]) and is_int(xs[1]) and is_word(xs[2]) and 0 <= xs[1] <= xs[0] < xs[2][0])
        return word(xs[0] + 1 - xs[1], xs[2][1] >> xs[1])
    if name in ("zero_ext", "sign_ext"):
        need(is_int(xs[0]) and is_word(xs[1]) and xs[0] >= xs[1][0])
        return word(xs[0], xs[1][1] if name == "zero_ext" else signed(xs[1]))
    need(all(is_word(x) for x in xs))
    if name == "bvnot":
        return word(xs[0][0], ~xs[0][1])
    if name == "bvneg":
        return word(xs[0][0], -xs[0][1])
    if name == "concat":
        return (xs[0][0] + xs[1][0], (xs[0][1] << xs[1][0]) | xs[1][1])
    if name == "bv2int":
        return xs[0][1]
    if name == "widthof":
        return xs[0][0]
    raise ValueError("unknown operator %s" % name)


# ---- What a text declares ------------------------------------------------------------------------------------------------------------


class Term:
    def __init__(self, flags, takes, gives):
        self.flags, self.takes, self.gives = flags, takes, gives
        self.names, self.require, self.provide, self.match, self.signatures = None, [], [], [], []
        self.extractor, self.fallible = None, True


class Rule:
    def __init__(self, form):
        parts = form[1:]
        self.name = parts.pop(0) if isinstance(parts[0], str) and not is_integer(parts[0]) else None
        self.priority = int(parts.pop(0)) if isinstance(parts[0], str) else 0
        self.line, self.left, self.gates, self.right = form.line, parts[0], parts[1:-1], parts[-1]
        self.term = self.left[0]


class Declared:
    """What a text declares, and its rules."""

    def __init__(self, text):
        self.types, self.models, self.constants, self.terms, self.macros, self.rules, forms = {}, {}, {}, {}, {}, [], {}
        self.widths, self.domains, read_text = set(WIDTHS), {}, read(text)
        for bits in (8, 16, 32, 64, 128):
            self.models["u%d" % bits] = self.models["i%d" % bits] = ("bv", bits)
        self.models["bool"] = ("Bool",)
        for form in read_text:
            if form[0] == "type":
                self.read_type(form)
            elif form[0] == "decl":
                name = form[-3]
                self.terms[name] = Term(set(form[1:-3]), form[-2], form[-1])
            elif form[0] == "form":
                forms[form[1]] = form[2:]
            elif form[0] == "macro":
                self.macros[form[1][0]] = (form[1][1:], form[2])
        for form in read_text:
            if form[0] == "extern" and form[1] == "const":
                self.constants[form[2][1:]] = (form[3], None)
            elif form[0] == "extern" and form[1] == "extractor":
                self.terms[form[-2]].extractor, self.terms[form[-2]].fallible = "extern", form[2] != "infallible"
            elif form[0] == "extractor":
                self.terms[form[1][0]].extractor = (form[1][1:], form[2])
            elif form[0] == "instantiate":
                signatures = forms[form[2]] if isinstance(form[2], str) else form[2:]
                self.terms[form[1]].signatures += [([self.model_of(m) for m in s[0][1:]], self.model_of(s[1][1])) for s in signatures]
            elif form[0] == "spec":
                self.read_spec(form)
            elif form[0] == "rule":
                self.rules.append(Rule(form))
        for form in read_text:
            if form[0] == "model":
                self.read_model(form)

    def read_type(self, form):
        body = [part for part in form[2:] if part not in ("extern", "nodebug")][0]
        if body[0] == "enum":
            variants = {(v if isinstance(v, str) else v[0]): ([] if isinstance(v, str) else [f[1] for f in v[1:]]) for v in body[1:]}
            self.types[form[1]] = ("enum", "extern" in form, variants)
        elif body[0] == "struct":
            self.types[form[1]] = ("struct", [f[0] for f in body[1:]], [f[1] for f in body[1:]])
        else:
            self.types[form[1]] = ("primitive",)

    def model_of(self, form):
        if isinstance(form, str):
            return (form,)
        if form[0] == "named":
            return ("named", form[1])
        if len(form) == 2:
            self.widths.add(int(form[1]))
        return ("bv", int(form[1]) if len(form) == 2 else None)

    def read_model(self, form):
        name, (kind, *rest) = form[1], form[2]
        if kind == "type":
            self.models[name] = self.model_of(rest[0])
        elif kind == "const":
            self.constants[name] = (self.constants[name][0], Trial(self, Choices()).says(rest[0], {}))
        else:
            self.models[name] = ("enum", {v[0]: Trial(self, Choices()).says(v[1], {}) for v in rest})

    def read_spec(self, form):
        term = self.terms[form[1][0]]
        term.names = form[1][1:]
        for part in form[2:]:
            setattr(term, part[0], getattr(term, part[0]) + part[1:])

    def fits(self, x, sort):
        """Whether a value is of a model."""
        if sort[0] == "named":
            return self.is_of(x, sort[1])
        if sort[0] == "Bool":
            return isinstance(x, bool)
        if sort[0] == "Int":
            return is_int(x)
        if sort[0] == "enum":
            return x in sort[1].values()
        return is_word(x) and (x[0] in self.widths if sort[1] is None else x[0] == sort[1])

    def is_of(self, x, name):
        if name in self.models:
            return self.fits(x, self.models[name])
        if not isinstance(x, tuple) or x[1] != name:
            return False
        kinds = self.types[name]
        if x[0] == "opaque":
            return True
        takes = kinds[2] if kinds[0] == "struct" else kinds[2].get(x[2], [])
        return len(x[-1]) == len(takes) and all(self.is_of(part, ty) for part, ty in zip(x[-1], takes))

    def domain(self, name):
        """The values that a type stands for."""
        if name not in self.domains:
            self.domains[name] = self.values_of(name)
        return self.domains[name]

    def values_of(self, name):
        if name in self.models:
            sort = self.models[name]
            if sort[0] == "Bool":
                return [False, True]
            if sort[0] == "Int":
                return INTEGERS
            if sort[0] == "enum":
                return list(sort[1].values())
            return [x for width in ([sort[1]] if sort[1] else sorted(self.widths)) for x in words_of(width, sort[1] is not None)]
        kind = self.types[name]
        if kind[0] == "struct":
            return [("struct", name, parts) for parts in self.products(kind[2])]
        made = [("variant", name, v, parts) for v, takes in kind[2].items() for parts in self.products(takes)]
        return made + ([("opaque", name, 0), ("opaque", name, 1)] if kind[1] else [])

    def products(self, takes):
        rows = [()]
        for ty in takes:
            rows = [row + (x,) for row in rows for x in self.domain(ty)]
        return rows


def words_of(width, is_fixed):
    """All words of few bits, and of more some."""
    if width <= 4 or width == 8 and is_fixed:
        return [(width, n) for n in range(1 << width)]
    return [word(width, n) for n in (0, 1, 2, 3, 5, -1, -2, 1 << (width - 1), (1 << (width - 1)) - 1)]


# ---- What a rule asks and makes: places are nested tuples ------------------------------------------------------------------------------


class Demands:
    """What a rule tests, in order, its impure calls and its result, on places."""

    def __init__(self, unit, rule):
        self.unit, self.rule, self.tests, self.equal, self.impure, self.bound, self.has_infallible = unit, rule, [], [], [], {}, False
        term = unit.terms[rule.term]
        for i, (p, ty) in enumerate(zip(rule.left[1:], term.takes)):
            self.pattern(p, ("argument", i), ty)
        self.gated = True
        for gate in rule.gates:
            e = gate[-1]
            place, ty = self.expression(e, None)
            self.pattern(gate[1] if gate[0] == "if-let" else "_", place, ty)
        self.gated = False
        self.result, _ = self.expression(rule.right, term.gives)

    def test(self, place, *what):
        if (place,) + what not in self.tests:
            self.tests.append((place,) + what)

    def pattern(self, p, place, ty):
        if isinstance(p, str):
            if p in ("true", "false"):
                self.test(place, "truth", p == "true")
            elif is_integer(p):
                self.test(place, "number", int(p), ty)
            elif p.startswith("$"):
                self.test(place, "constant", p[1:])
            elif p in self.bound:
                self.equal.append((self.bound[p][0], place))
            elif p != "_":
                self.bound[p] = (place, ty)
            return
        head, parts = p[0], p[1:]
        if head == "and":
            for part in parts:
                self.pattern(part, place, ty)
        elif head == "@":
            self.pattern(parts[0], place, ty)
            self.pattern(parts[1], place, ty)
        elif head in self.unit.types:
            for i, (part, field) in enumerate(zip(parts, self.unit.types[head][2])):
                self.pattern(part, ("part", place, i), field)
        elif "." in head:
            name, variant = head.split(".")
            self.test(place, "variant", name, variant)
            for i, (part, field) in enumerate(zip(parts, self.unit.types[name][2][variant])):
                self.pattern(part, ("field", place, variant, i), field)
        else:
            self.extracted(self.unit.terms[head], head, parts, place, ty)

    def extracted(self, term, head, parts, place, ty):
        if term.extractor != "extern":
            names, body = term.extractor
            return self.pattern(substituted(body, dict(zip(names, parts))), place, ty)
        call = ("extracted", head, place)
        self.has_infallible |= not term.fallible
        if term.fallible:
            self.test(call, "present")
        for i, (part, output) in enumerate(zip(parts, term.takes)):
            self.pattern(part, ("output", call, i), output)

    def expression(self, e, ty):
        """The place of an expression of a rule, and its type."""
        if isinstance(e, str):
            if e in ("true", "false"):
                return ("truth", e == "true"), "bool"
            if is_integer(e):
                return ("literal", int(e), ty), ty
            if e.startswith("$"):
                return ("constant", e[1:]), self.unit.constants[e[1:]][0]
            return self.bound[e]
        head, parts = e[0], e[1:]
        if head == "let":
            for name, of, body in parts[0]:
                self.bound[name] = self.expression(body, of)
            return self.expression(parts[1], ty)
        if head in self.unit.types:
            return ("struct", head, self.expressions(parts, self.unit.types[head][2])), head
        if "." in head:
            name, variant = head.split(".")
            return ("variant", name, variant, self.expressions(parts, self.unit.types[name][2][variant])), name
        term = self.unit.terms[head]
        places = self.expressions(parts, term.takes)
        if "pure" in term.flags:
            call = ("pure", head, places)
            if self.gated and "partial" in term.flags:
                self.test(call, "present")
        else:
            call = ("impure", len(self.impure), head, places)
            self.impure.append(call)
        return call, term.gives

    def expressions(self, parts, takes):
        return tuple(self.expression(part, ty)[0] for part, ty in zip(parts, takes))


# ---- Trials ----------------------------------------------------------------------------------------------------------------------------


class Choices:
    """The choices of a trial; `advance` goes to the next trial."""

    def __init__(self):
        self.path, self.at = [], 0

    def choose(self, options):
        if not options:
            raise Excluded()
        if self.at == len(self.path):
            self.path.append([0, len(options)])
        self.at += 1
        return options[self.path[self.at - 1][0]]

    def advance(self):
        del self.path[self.at:]
        while self.path and self.path[-1][0] + 1 == self.path[-1][1]:
            self.path.pop()
        if not self.path:
            return False
        self.path[-1][0] += 1
        self.at = 0
        return True


def mentions(form, names):
    return form in names if isinstance(form, str) else any(mentions(part, names) for part in form)


class Trial:
    """`is_lenient`: where no arm fits, an assumption says nothing, and a rule above that has an infallible extractor or tests nothing but
    structs doesn't count. So fewer rules are right; the law has it otherwise."""

    def __init__(self, unit, choices, is_lenient=False):
        self.unit, self.choices, self.values, self.unknowns, self.is_lenient = unit, choices, {}, {}, is_lenient

    # -- what specs say

    def says(self, e, names):
        if isinstance(e, str):
            return self.says_word(e, names)
        head, parts = e[0], e[1:]
        if head == "if":
            test = self.says(parts[0], names)
            need(isinstance(test, bool))
            return self.says(parts[1] if test else parts[2], names)
        if head == "let":
            for name, body in parts[0]:
                names = dict(names, **{name: self.says(body, names)})
            return self.says(parts[1], names)
        if head == "switch":
            return self.says_case(self.says(parts[0], names), parts[1:], names)
        if head == "match":
            return self.says_arm(self.says(parts[0], names), parts[1:], names)
        if head.endswith("!"):
            takes, body = self.unit.macros[head[:-1]]
            return self.says(body, dict(zip(takes, [self.says(part, names) for part in parts])))
        xs = [self.says(part, names) for part in parts]
        if head.startswith(":"):
            need(isinstance(xs[0], tuple) and xs[0][0] == "struct")
            return xs[0][2][self.unit.types[xs[0][1]][1].index(head[1:])]
        if head in self.unit.types:
            return ("struct", head, tuple(xs))
        if "." in head:
            return self.variant(head, xs)
        if head in self.unit.terms:
            key = (head, tuple(xs))
            if key not in self.unknowns:
                self.unknowns[key] = self.choices.choose(self.unit.domain(self.unit.terms[head].gives))
            return self.unknowns[key]
        if head == "conv_to":
            return self.converted(*xs)
        return applied(head, xs)

    def says_word(self, e, names):
        if e in names:
            return names[e]
        if e in ("true", "false"):
            return e == "true"
        if is_integer(e):
            return int(e)
        if e[0] == "#":
            return (4 * len(e[2:]), int(e[2:], 16)) if e[1] == "x" else (len(e[2:]), int(e[2:], 2))
        return self.variant(e, [])

    def variant(self, name, xs):
        ty, variant = name.split(".")
        sort = self.unit.models.get(ty)
        return sort[1][variant] if sort else ("variant", ty, variant, tuple(xs))

    def converted(self, width, x):
        need(is_int(width) and width > 0 and is_word(x))
        if width <= x[0]:
            return word(width, x[1])
        key = ("conv_to", width, x)
        if key not in self.unknowns:
            self.unknowns[key] = self.choices.choose([n for _, n in words_of(width - x[0], False)])
        return (width, (self.unknowns[key] << x[0]) | x[1])

    def says_case(self, x, cases, names):
        for key, body in cases:
            if key == "_":
                return self.says(body, names)
            k = self.says(key, names)
            need(sort_of_value(k) == sort_of_value(x))
            if k == x:
                return self.says(body, names)
        raise NoArm()

    def says_arm(self, x, arms, names):
        for key, body in arms:
            if key == "_":
                return self.says(body, names)
            head, fields = (key, []) if isinstance(key, str) else (key[0], key[1:])
            need(isinstance(x, tuple))
            if x[0] == "variant" and x[2] == head or x[0] == "struct" and x[1] == head:
                return self.says(body, dict(names, **dict(zip(fields, x[-1]))))
            if not isinstance(x[0], str):
                raise ValueError("a match on an enum that stands for numbers")
        raise NoArm()

    def holds(self, parts, names, is_assumed=False):
        """Each expression comes to true."""
        return all(self.holds_one(e, names, is_assumed) for e in parts)

    def holds_one(self, e, names, is_assumed):
        try:
            return self.says(e, names) is True
        except NoArm:
            return is_assumed and self.is_lenient
        except Misfit:
            return False

    def required(self, term, xs, is_assumed=False):
        shapes = [s for s in term.signatures if all(self.unit.fits(x, m) for x, m in zip(xs, s[0]))]
        return (not term.signatures or bool(shapes)) and self.holds(term.require, dict(zip(term.names, xs)), is_assumed)

    def provided(self, term, xs, result):
        whole = [s for s in term.signatures if all(self.unit.fits(x, m) for x, m in zip(xs, s[0])) and self.unit.fits(result, s[1])]
        names = dict(zip(term.names, xs), result=result)
        return (not term.signatures or bool(whole)) and self.holds(term.provide + term.match, names)

    def solved(self, parts, names, open_names):
        """Values of open names: that of an equation which gives it, else any of its type. Then all parts hold."""
        rest = list(parts)
        for name, ty in open_names:
            sides = [(e, e[2] if e[1] == name else e[1]) for e in rest if isinstance(e, list) and e[0] == "=" and len(e) == 3 and name in e[1:]]
            sides = [(e, side) for e, side in sides if not mentions(side, [n for n, _ in open_names])]
            if not sides:
                names[name] = self.choices.choose(self.unit.domain(ty))
                continue
            try:
                names[name] = self.says(sides[0][1], names)
            except NoArm:
                if not self.is_lenient:
                    raise Excluded()
                names[name] = self.choices.choose(self.unit.domain(ty))
            except Misfit:
                raise Excluded()
            if not self.unit.is_of(names[name], ty):
                raise Excluded()
            rest = [e for e in rest if e is not sides[0][0]]
        if not self.holds(rest, names, True):
            raise Excluded()
        return names

    # -- what places stand for

    def value(self, place):
        if place not in self.values:
            self.values[place] = self.value_of(place)
        return self.values[place]

    def value_of(self, place):
        kind = place[0]
        if kind == "truth":
            return place[1]
        if kind == "literal":
            sort = self.unit.models.get(place[2])
            if sort == ("Int",):
                return place[1]
            return word(sort[1], place[1]) if sort[1] else self.choices.choose(self.unit.domain(place[2]))
        if kind == "constant":
            ty, x = self.unit.constants[place[1]]
            return self.choices.choose(self.unit.domain(ty)) if x is None else x
        if kind == "variant":
            return self.variant("%s.%s" % place[1:3], [self.value(p) for p in place[3]])
        if kind == "struct":
            return ("struct", place[1], tuple(self.value(p) for p in place[2]))
        if kind == "part":
            return self.value(place[1])[2][place[2]]
        if kind == "field":
            return self.value(place[1])[3][place[3]]
        if kind == "output":
            return self.value(place[1])[place[2]]
        if kind == "extracted":
            return self.outputs(self.unit.terms[place[1]], self.value(place[2]))
        if kind == "pure":
            term, xs = self.unit.terms[place[1]], [self.value(p) for p in place[2]]
            return self.answer(term, xs) if self.required(term, xs) else self.choices.choose(self.unit.domain(term.gives))
        raise ValueError(place)

    def outputs(self, term, looked_at):
        names = self.solved(term.require + term.provide + term.match, {"result": looked_at}, list(zip(term.names, term.takes)))
        xs = tuple(names[name] for name in term.names)
        if term.signatures and not (self.required(term, xs) and self.provided(term, xs, looked_at)):
            raise Excluded()
        return xs

    def answer(self, term, xs):
        result = self.solved(term.provide + term.match, dict(zip(term.names, xs)), [("result", term.gives)])["result"]
        if term.signatures and not self.provided(term, xs, result):
            raise Excluded()
        return result

    def is_met(self, test):
        place, kind, *what = test
        x = self.value(place)
        if kind == "present":
            return True
        if kind == "truth":
            return x is what[0]
        if kind == "variant":
            return self.is_variant(x, *what)
        if kind == "number":
            sort = self.unit.models.get(what[1])
            return x == (what[0] if sort == ("Int",) else word(sort[1], what[0])) if sort == ("Int",) or sort[1] else True
        constant = self.unit.constants[what[0]][1]
        return constant is None or x == constant

    def is_variant(self, x, name, variant):
        sort = self.unit.models.get(name)
        return x == sort[1][variant] if sort else x[0] == "variant" and x[2] == variant

    # -- a rule

    def failed(self, demands, args):
        """Whether a goal of a rule fails; Excluded if the rule isn't taken."""
        term = self.unit.terms[demands.rule.term]
        for i, x in enumerate(args):
            self.values[("argument", i)] = x
        if not (self.required(term, args, True) and all(self.is_met(test) for test in demands.tests)):
            raise Excluded()
        if not all(self.value(a) == self.value(b) for a, b in demands.equal):
            raise Excluded()
        for call in demands.impure:
            called, xs = self.unit.terms[call[2]], [self.value(p) for p in call[3]]
            if not self.required(called, xs):
                return "require of " + call[2]
            self.values[call] = self.answer(called, xs)
        result = self.value(demands.result)
        return None if self.provided(term, args, result) else "provide"

    def takes_it(self, above, own):
        """Whether a rule above surely takes the call: each of its tests is one of the rule's own, or is of a variant or a truth and is met."""
        if self.is_lenient and (above.has_infallible or not above.tests):
            return False
        return all(test in own.tests or self.surely_met(test) for test in above.tests) and all(pair in own.equal or pair[::-1] in own.equal for pair in above.equal)

    def surely_met(self, test):
        place, kind, *what = test
        if kind not in ("variant", "truth"):
            return False
        try:
            x = self.known(place)
        except KeyError:
            return False
        return x is what[0] if kind == "truth" else self.is_variant(x, *what)

    def known(self, place):
        """What a place stands for, of the arguments' parts and of calls that the rule makes."""
        if place[0] == "part":
            return self.known(place[1])[2][place[2]]
        if place[0] == "field":
            x = self.known(place[1])
            if x[0] != "variant" or x[2] != place[2]:
                raise KeyError()
            return x[3][place[3]]
        if place[0] == "output":
            return self.known(place[1])[place[2]]
        return self.values[place]


def lacks(unit, demands):
    """A called term or a type without a meaning: then the rule isn't judged."""
    def below(place):
        if isinstance(place, tuple):
            if place and place[0] in ("pure", "impure", "extracted"):
                name = place[2 if place[0] == "impure" else 1]
                if unit.terms[name].names is None:
                    return name
            for part in place:
                found = below(part)
                if found:
                    return found
        return None
    return below(tuple(demands.tests) + tuple(demands.equal) + tuple(demands.impure) + (demands.result,))


def judged(unit, rule, limit=200000, is_lenient=False):
    """The word of a rule, and the trial that shows that it is wrong: arguments, which goal fails, and what places stand for."""
    demands = Demands(unit, rule)
    if lacks(unit, demands):
        return "without", lacks(unit, demands)
    above = [Demands(unit, other) for other in unit.rules if other.term == rule.term and other.priority > rule.priority]
    choices, ended, count = Choices(), False, 0
    while True:
        trial, count = Trial(unit, choices, is_lenient), count + 1
        if count > limit:
            raise TooMany()
        try:
            args = [choices.choose(unit.domain(ty)) for ty in unit.terms[rule.term].takes]
            failed = trial.failed(demands, args)
            ended = True
            if failed and not any(trial.takes_it(other, demands) for other in above):
                return "wrong", (args, failed, dict(trial.values))
        except Excluded:
            pass
        if not choices.advance():
            return "right" if ended else "idle", None


def is_wrong_leniently(text, name, limit=200000):
    """Whether the rule of that name is wrong where assumptions in which no arm fits say nothing."""
    unit = Declared(text)
    return any(judged(unit, rule, limit, True)[0] == "wrong" for rule in unit.rules if rule.name == name)


def judge(text, limit=200000):
    """(rule, word, trial) of each rule of a term with a spec; the word is "many" where there are too many trials."""
    unit, found = Declared(text), []
    for rule in unit.rules:
        if unit.terms[rule.term].names is not None:
            try:
                found.append((rule,) + judged(unit, rule, limit))
            except TooMany:
                found.append((rule, "many", None))
    return found


def main(paths):
    for rule, said, shown in judge("\n".join(open(path, encoding="utf-8").read() for path in paths)):
        why = " (%s), where the arguments are %s" % (shown[1], shown[0]) if said == "wrong" else ""
        print("%s: rule %sat line %d of %s%s" % (said, rule.name + " " if rule.name else "", rule.line, rule.term, why))


if __name__ == "__main__":
    main(sys.argv[1:])
