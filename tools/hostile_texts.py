"""Texts of up to 1 MB that are hard on a compiler: much of one thing, deep nesting, and what is wrong in many places."""
import random

import shapes

# Each text: its name, a function of a size that gives its parts, and the sizes.
TEXTS = []

WRITER = "(decl g (u32) u32) (extern constructor g g)"
PARTIAL = "(decl pure partial p (u32) u32) (extern constructor p p)"
EXTRACTOR = "(decl e (u32) u32) (extern extractor e e)"
TERM = "(decl f (u32) u32)"
PAIRS = "(type T (enum (N (a T) (b T)) (L)))"


def text(name, *sizes):
    """Lists a function as a text, in these sizes."""

    def listed(make):
        TEXTS.extend((f"{name} {size:,}" if size else name, make, size) for size in sizes)
        return make

    return listed


def texts():
    """Gives each text with its name, in bytes."""
    for name, make, size in TEXTS:
        made = make(size)
        yield name, made if isinstance(made, bytes) else "".join(f"{part}\n" for part in made).encode("utf-8")


def numbered(form, size):
    """One line for each number, which stands for `#` in it."""
    return (form.replace("#", str(number)) for number in range(size))


# ---- Many places -----------------------------------------------------------------------------------------------------


@text("terms", 2000, 24900)
def terms(size):
    return numbered("(decl f# (u8) u8)(rule (f# 1) 2)", size)


@text("a backend's rules", 3851)
def backend(size):
    return [shapes.text("backend", size)]


@text("terms of ten rules", 3000)
def tens(size):
    return [shapes.text("terms", size)]


@text("terms that call the next one", 18000)
def calling(size):
    yield "(decl f0 (u8) u8) (rule (f0 x) x)"
    yield from (f"(decl f{i} (u8) u8) (rule (f{i} x) (f{i - 1} x))" for i in range(1, size))


@text("a ring of terms", 18000)
def ring_of_terms(size):
    return (f"(decl f{i} (u8) u8) (rule (f{i} x) (f{(i + 1) % size} x))" for i in range(size))


@text("terms that call the one behind", 18000)
def calling_behind(size):
    yield from (f"(decl f{i} (u8) u8) (rule (f{i} x) (f{i + 1} x))" for i in range(size))
    yield f"(decl f{size} (u8) u8) (rule (f{size} x) x)"


@text("a ring of terms with `rec`", 16000)
def ring_with_rec(size):
    return (f"(decl rec f{i} (u8) u8) (rule (f{i} x) (f{(i + 1) % size} x))" for i in range(size))


@text("a term that calls all others", 14000)
def calling_all(size):
    yield "(decl partial f (u32) u8)"
    yield from numbered("(decl g# (u8) u8) (rule (g# x) x) (rule (f #) (g# 1))", size)


@text("constants", 15000)
def constants(size):
    yield TERM
    yield from numbered("(extern const $C# u32) (rule (f $C#) #)", size)


@text("literals", 30000)
def literals(size):
    yield TERM
    yield from numbered("(rule (f #) #)", size)


@text("literals out of range", 30000)
def literals_out_of_range(size):
    yield "(decl partial f (u8 u32) u32)"
    yield from numbered("(rule (f 300 #) #)", size)


@text("variants, all but one taken", 15000)
def variants(size):
    yield "(type T (enum " + " ".join(f"(V{i})" for i in range(size)) + "))"
    yield "(decl f (T) u32)"
    yield from numbered("(rule (f (T.V#)) #)", size - 1)


@text("unused variables", 30000)
def unused(size):
    yield "(decl partial f (u32 u32) u32)"
    yield from numbered("(rule (f # x) #)", size)


@text("priorities without effect", 30000)
def idle_priorities(size):
    yield "(decl partial f (u32) u32)"
    yield from numbered("(rule # (f #) #)", size)


@text("fields", 40000)
def fields(size):
    return ["(type S (struct " + " ".join(f"(field{i} u32)" for i in range(size)) + "))"]


@text("types", 25000)
def types(size):
    return numbered("(type T# (enum (A) (B (x u8))))", size)


@text("arguments", 100000)
def arguments(size):
    return ["(decl f (" + "u32 " * size + ") u32)"]


@text("templates", 15000)
def templates(size):
    yield "(decl t0 (u32) u32) (extractor (t0 x) x)"
    yield from (f"(decl t{i} (u32) u32) (extractor (t{i} x) (and _ x))" for i in range(1, size))


@text("specs", 10000)
def specs(size):
    yield from numbered("(decl h# (u32) u32) (spec (h# x) (provide (= result (bvadd x x)))) (rule (h# x) x)", size)


# ---- Rules that meet -------------------------------------------------------------------------------------------------


@text("rules that all overlap", 1000, 2000, 4000, 30000)
def overlapping(size):
    yield TERM
    yield from numbered("(rule (f x) #)", size)


@text("rules that overlap in pairs", 15000)
def pairs(size):
    yield "(decl partial f (u32 u32) u32)"
    yield from numbered("(rule (f # _) 1) (rule (f # 7) 2)", size)


@text("shadowed rules", 30000)
def shadowed(size):
    yield TERM
    yield "(rule 1 (f _) 1)"
    yield from numbered("(rule (f #) #)", size)


@text("rules that all shadow one another", 1000, 2000, 30000)
def shadowing(size):
    yield TERM
    yield from numbered("(rule # (f x) #)", size)


@text("rules of one term, no key apart", 6000, 20000)
def no_key(size):
    return [shapes.text("ints", size)]


@text("multi extractors of their own", 500, 6000)
def multi_extractors(size):
    yield "(decl multi f (u8) u8)"
    yield from numbered("(decl multi e# (u8) u8) (extern extractor e# e#) (rule (f (e# x)) x)", size)


@text("multi calls of their own", 500)
def multi_calls(size):
    return [shapes.text("calls", size)]


# ---- What is wrong in many places ------------------------------------------------------------------------------------


@text("a ring of extractors", 500, 1000, 12000)
def ring(size):
    return (f"(decl a{i} (u8) u8) (extractor (a{i} x) (a{(i + 1) % size} x))" for i in range(size))


@text("misspelled terms", 700, 10000)
def misspelled(size):
    for i in range(size):
        yield f"(decl lower_the_term_{i} (u8) u8)"
        yield f"(rule (lower_the_term_{i} x) (lower_teh_term_{i} x))"


@text("unknown variables", 18000)
def unknown(size):
    yield TERM
    yield from numbered("(rule (f #) unknown_name_#)", size)


@text("wrong types", 25000)
def wrong_types(size):
    yield "(decl f (u32) u32) (decl h (u8) u32) (rule (h x) 1)"
    yield from numbered("(rule # (f x) (h x))", size)


@text("one name for all types", 25000)
def one_name(size):
    return numbered("(type T (enum (A#)))", size)


@text("one name for all rules", 25000)
def one_rule_name(size):
    yield TERM
    yield from numbered("(rule name # (f x) x)", size)


@text("terms without rules", 19000)
def undefined(size):
    yield TERM
    yield from numbered("(decl h# (u32) u32) (rule # (f x) (h# x))", size)


@text("misspelled variants", 10000)
def misspelled_variants(size):
    yield "(type T (enum " + " ".join(f"(VariantOfNumber{i})" for i in range(size)) + "))"
    yield "(decl f (T) u32)"
    yield from numbered("(rule (f (T.VariantOfNubmer#)) #)", size)


@text("misspelled types", 12000)
def misspelled_types(size):
    return numbered("(type TheType# (primitive T#)) (decl f# (TheTpye#) u32)", size)


@text("misspelled constants", 12000)
def misspelled_constants(size):
    yield TERM
    yield from numbered("(extern const $THE_NAME_# u32) (rule (f $THE_NAEM_#) #)", size)


@text("one name for all terms", 30000)
def one_term_name(size):
    return numbered("(decl f (u32) u32) ; #", size)


@text("too many arguments", 20000)
def argument_counts(size):
    yield WRITER
    yield TERM
    yield from numbered("(rule # (f x) (g x x # x))", size)


@text("functions of terms that aren't declared", 15000)
def undeclared(size):
    return numbered("(extern constructor h# h#) (extern extractor h# h#)", size)


@text("conversions twice", 15000)
def conversions(size):
    yield "(type A (primitive A)) (type B (primitive B))"
    yield from numbered("(decl c# (A) B) (convert A B c#)", size)


@text("conversions that are missing", 15000)
def missing_conversions(size):
    yield "(type A (primitive A)) (type B (primitive B)) (decl f (A) B)"
    yield from numbered("(rule # (f x) x)", size)


@text("literals of no integer type", 20000)
def wrong_literals(size):
    yield "(type A (primitive A)) (decl f (A) A)"
    yield from numbered("(rule # (f #) #)", size)


@text("variables bound twice", 14000)
def bound_twice(size):
    yield "(decl f (u32 u32) u32)"
    yield from numbered("(rule # (f x x @ y) (let ((z# u32 x) (z# u32 q#)) z#))", size)


@text("unreachable rules", 15000)
def unreachable(size):
    yield "(type T (enum (A) (B)))"
    yield "(decl f (T u32) u32)"
    yield from numbered("(rule (f (and (T.A) (T.B)) #) #)", size)


@text("internal extractors that match nothing", 8000)
def impossible(size):
    yield "(type T (enum (A) (B)))"
    yield "(decl f (T u32) u32)"
    yield from numbered("(decl b# () T) (extractor (b#) (and (T.A) (T.B))) (rule (f (b#) #) #)", size)


@text("a multi extractor behind an internal one", 15000)
def behind(size):
    yield "(decl multi m (u32) u32) (extern extractor m m) (decl i (u32) u32) (extractor (i x) (m x))"
    yield TERM
    yield from numbered("(rule # (f (i x)) x)", size)


@text("lists that aren't closed", 20000)
def unclosed(size):
    yield TERM
    yield from numbered("(rule # (f x) (g x)", size)


# ---- Half-written ----------------------------------------------------------------------------------------------------


@text("a backend's rules, cut in the middle of", 7000)
def cut(size):
    written = shapes.text("backend", size)
    return written[: len(written) // 2].encode("utf-8")


@text("a backend's rules, a parenthesis missing in each of", 7000)
def broken(size):
    return (line.replace("))", ")", 1) for line in shapes.text("backend", size).splitlines())


@text("rules that are begun", 100000)
def begun(size):
    yield TERM
    yield from numbered("(rule (f", size)


@text("rules without a right side", 50000)
def without_right_side(size):
    yield TERM
    yield from numbered("(rule (f #))", size)


@text("deep: a pattern that is begun,", 990)
def begun_pattern(size):
    return [EXTRACTOR, TERM + " (rule (f " + "(e " * size]


# ---- One rule --------------------------------------------------------------------------------------------------------


def full(depth):
    return "_" if depth == 0 else f"(T.N {full(depth - 1)} {full(depth - 1)})"


@text("a full pattern of depth", 9, 11, 13, 16)
def full_pattern(depth):
    return [PAIRS, f"(decl f (T) u32) (rule (f {full(depth)}) 1)"]


@text("a template in itself, times", 256)
def template(size):
    return [shapes.text("template", size)]


@text("a template twice in itself, times", 16)
def doubled(size):
    yield PAIRS
    yield "(decl t0 () T) (extractor (t0) (T.L))"
    for i in range(1, size):
        yield f"(decl t{i} () T) (extractor (t{i}) (T.N (t{i - 1}) (t{i - 1})))"
    yield f"(decl f (T) u32) (rule (f (t{size - 1})) 1)"


@text("if-lets in one rule", 32000)
def iflets(size):
    return [PARTIAL, TERM, "(rule (f x) " + "(if-let _ (p x)) " * size + "x)"]


@text("if-lets in a chain", 20000)
def chain(size):
    return [shapes.text("chain", size)]


@text("equal arguments", 256)
def equal(size):
    return [shapes.text("class", size)]


@text("equal fields", 20000)
def equal_fields(size):
    yield PAIRS
    yield "(type S (struct " + " ".join(f"(x{i} u32)" for i in range(250)) + "))"
    structs = size // 250
    yield f"(decl f ({'S ' * structs}) u32) (rule (f {('(S ' + 'x ' * 250 + ') ') * structs}) 1)"


@text("lets in one line", 200, 900)
def lets(size):
    return [WRITER, f"{TERM} (rule (f x) {shapes.nested(size, '(let ((x u32 (g x))) ', 'x')})"]


@text("definitions of one let", 25000)
def one_let(size):
    return [WRITER, f"{TERM} (rule (f x) (let ({'(y u32 (g x)) ' * size}) y))"]


@text("an `and` of literals", 65000)
def literals_of_one(size):
    return [TERM, "(rule (f (and " + " ".join(str(number) for number in range(size)) + ")) 1)"]


# ---- Deep ------------------------------------------------------------------------------------------------------------


def deep(what):
    """Lists a form that nests."""

    @text(f"deep: {what},", 990)
    def nested(size):
        return [shapes.NESTED[what](size)]

    return nested


for form in shapes.NESTED:
    deep(form)


@text("deep: specs,", 990)
def deep_specs(size):
    return [TERM, f"(spec (f x) (provide (= result {shapes.nested(size, '(bvnot ', 'x')}))) (rule (f x) x)"]


@text("deep: templates in one another,", 256)
def deep_templates(size):
    yield EXTRACTOR + " (decl t0 (u32) u32) (extractor (t0 x) x)"
    for i in range(1, size):
        yield f"(decl t{i} (u32) u32) (extractor (t{i} x) {shapes.nested(900, '(e ', f'(t{i - 1} x)')})"
    yield f"{TERM} (rule (f (t{size - 1} x)) x)"


@text("opened lists", 1000000)
def opened(size):
    return b"(" * size


@text("closed lists", 1000000)
def closed(size):
    return b")" * size


@text("empty lists", 500000)
def empty_lists(size):
    return b"()" * size


@text("block comments", 300000)
def block_comments(size):
    return b"(;" * size


# ---- Tokens and bytes ------------------------------------------------------------------------------------------------


@text("a name of letters", 500000)
def long_name(size):
    name = "n" * size
    return [f"(decl {name} (u8) u8)(rule ({name} x) x)"]


@text("unknown names of letters", 250000)
def long_names(size):
    return [f"{TERM}(rule (f x) {'a' * size})(rule (f 1) {'b' * size})"]


@text("an integer of digits", 1000000)
def long_integer(size):
    return [f"{TERM}(rule (f {'1' * size}) 1)"]


@text("bytes 0", 1000000)
def zeros(size):
    return b"\0" * size


@text("line feeds behind carriage returns", 20000)
def carriage_returns(size):
    return "".join(f"(decl f{i} (u32) u32)\r\n(rule (f{i} y) x)\r\n" for i in range(size)).encode("ascii")


@text("a comment", 1000000)
def comment(size):
    return [";" + "c" * size]


@text("empty lines", 1000000)
def empty_lines(size):
    return b"\n" * size


@text("one line of rules", 15000)
def one_line(size):
    return [TERM + " ".join(numbered("(rule (f #) #)", size))]


@text("one line with something wrong at each place", 15000)
def one_wrong_line(size):
    return [TERM + " ".join(numbered("(rule (f #) y#)", size))]


@text("tokens by chance", 200000)
def tokens(size):
    rand = random.Random(1)
    words = ["(", "(", "(", ")", ")", ")", "decl", "rule", "type", "enum", "extractor", "extern", "if-let", "let", "and", "u8", "x", "1", "@", "_", "$A", ";"]
    return ["\n".join(" ".join(rand.choice(words) for _ in range(20)) for _ in range(size // 20))]


@text("bytes by chance", 1000000)
def random_bytes(size):
    return random.Random(2).randbytes(size)


@text("wrong UTF-8", 1000000)
def wrong_bytes(size):
    return b"(decl f (u8) u8)\n" + b"\xff" * size


@text("letters beyond ASCII", 15000)
def letters(size):
    yield "(decl partial f (u32) u32)"
    yield from numbered("(rule (f #) \U0001d546#) ; \U0001d546\u00e9", size)
