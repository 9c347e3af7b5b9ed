"""What a list of definitions declares, by `isle lower --format json`, and values of its types by chance.

A value is the word that `isle run` has for it, or a tuple of a name and the values of the fields.
"""
import re

# The built-in types of integers: how many bits they have, and whether they are signed.
SIZES = {"8": 8, "16": 16, "32": 32, "64": 64, "128": 128, "size": 64}
INTS = {f"{mark}{size}": (bits, mark == "i") for mark in "ui" for size, bits in SIZES.items()}


def words(value):
    """A value as `isle run` writes it."""
    return value if isinstance(value, str) else f"({' '.join([value[0], *map(words, value[1:])])})"


def values_in(text):
    """The values that stand behind each other in a text."""
    stack = [[]]
    for word in re.findall(r"[()]|[^\s()]+", text):
        if word == "(":
            stack.append([])
        elif word == ")":
            value = tuple(stack.pop())
            stack[-1].append(value)
        else:
            stack[-1].append(word)
    return stack[0]


def numbers_in(part):
    """The integers in a part of the JSON, each with its type."""
    if isinstance(part, dict):
        if part.get("kind") == "int":
            yield part["type"], int(part["value"])
        part = list(part.values())
    if isinstance(part, list):
        for it in part:
            yield from numbers_in(it)


class Function:
    """A function from outside: the terms whose constructor or extractor it is, and what it takes and gives."""

    def __init__(self, name, number, arguments, outputs, answer, is_impure):
        self.name = name
        self.number = number
        self.arguments = arguments
        self.outputs = outputs
        # plain, option or iterator
        self.answer = answer
        self.is_impure = is_impure
        # each with what stands before it in a file of answers
        self.terms = []


class Shape:
    """A form of the values of an enum or a struct: its name, its name in the type, and the names (or None) and types of its fields."""

    def __init__(self, name, own, fields):
        self.name = name
        self.own = own
        self.labels = [it["name"] for it in fields]
        self.types = [it["type"] for it in fields]


class Definitions:
    """What a list declares, and the numbers that its rules write."""

    def __init__(self, lowered):
        self.types = {it["name"]: it for it in lowered["types"]}
        self.heads = {it["name"]: it for it in lowered["all_terms"]}
        self.terms = {it["name"]: it for it in lowered["terms"]}
        self.constants = {it["name"]: it["type"] for it in lowered["constants"] if it["name"] not in ("true", "false")}
        # the numbers that constants have in the program: no other value has them
        self.kept = set()
        self.written = {}
        for ty, number in numbers_in(lowered["terms"]):
            self.written.setdefault(ty, set()).add(self.reduced(ty, number))
        self.functions = []
        self.add_functions()

    def add_functions(self):
        by_name = {}
        for name, head in self.heads.items():
            arguments, result = head["signature"]["arguments"], head["signature"]["result"]
            made, taken = head["constructor"], head["extractor"]
            for part, before, takes, gives in ((made, "", arguments, [result]), (taken, "extract " if made else "", [result], arguments)):
                if part and part["kind"] == "extern":
                    is_impure = part is made and not head["flags"]["pure"]
                    if part["function"] not in by_name:
                        by_name[part["function"]] = Function(part["function"], len(by_name), takes, gives, part["answer"], is_impure)
                    by_name[part["function"]].terms.append((before, name))
        self.functions = list(by_name.values())

    # ---- Types -----------------------------------------------------------------------------------------------------------

    def is_opaque(self, ty):
        """Whether a type is an enum from outside, which has values of none of its variants."""
        known = self.types.get(ty)
        return known is not None and known["kind"] == "enum" and known["extern"]

    def is_of_numbers(self, ty):
        """Whether a type's values are numbers in Rust: an integer type, a primitive one, or an enum from outside without variants."""
        return ty in INTS or (ty in self.types and (self.types[ty]["kind"] == "primitive" or (self.is_opaque(ty) and not self.shapes(ty))))

    def shapes(self, ty):
        """The forms of a type's values that have fields, or could have."""
        known = self.types.get(ty)
        if known is None or known["kind"] == "primitive":
            return []
        if known["kind"] == "struct":
            return [Shape(ty, None, known["fields"])]
        return [Shape(f"{ty}.{it['name']}", it["name"], it["fields"]) for it in known["variants"]]

    def is_endless(self, ty, outer=()):
        """Whether values of a type hold, or would hold, values of the same type."""
        return ty in outer or any(self.is_endless(field, (*outer, ty)) for it in self.shapes(ty) for field in it.types)

    def has_value(self, ty):
        if ty == "bool" or self.is_of_numbers(ty) or self.is_opaque(ty):
            return True
        return any(all(map(self.has_value, it.types)) for it in self.shapes(ty))

    def reduced(self, ty, number):
        """The number of a type's range that an integer stands for. `isle run` shows those of u128 as numbers of i128."""
        if ty not in INTS:
            return number
        bits, is_signed = INTS[ty]
        number %= 1 << bits
        return number - (1 << bits) if (is_signed or bits == 128) and number >> (bits - 1) else number

    # ---- Terms -----------------------------------------------------------------------------------------------------------

    def needed(self, name):
        """The terms with rules whose code runs in calls of one of them."""
        found = [name]
        for term in found:
            for site in self.terms[term]["sites"]:
                if site["what"]["kind"] == "call" and site["what"]["name"] in self.terms and site["what"]["name"] not in found:
                    found.append(site["what"]["name"])
        return found

    def constants_of(self, name):
        """The constants that the rules of a term name."""
        sites, rules = self.terms[name]["sites"], self.terms[name]["rules"]
        kinds = [site["what"] for site in sites] + [it["is"] for rule in rules for it in rule["constraints"]]
        return {it["name"] for it in kinds if it["kind"] == "constant"}

    def why_left_out(self, name):
        """Why a term isn't called, or None where it is."""
        if any(map(self.is_endless, self.types)):
            return "a type holds values of its own"
        if not all(map(self.has_value, self.heads[name]["signature"]["arguments"])):
            return "an argument's type has no value"
        named = {self.constants.get(it) for term in self.needed(name) for it in self.constants_of(term)}
        if not all(ty and self.is_of_numbers(ty) for ty in named):
            return "a constant's type has no numbers, or has variants"
        return None

    # ---- Values by chance ------------------------------------------------------------------------------------------------

    def parts(self, ty, value):
        """A value and all that is in it, each with its type."""
        yield ty, value
        if not isinstance(value, str):
            shape = next(it for it in self.shapes(ty) if it.name == value[0])
            for field, part in zip(shape.types, value[1:]):
                yield from self.parts(field, part)

    def value(self, chance, ty, near=()):
        """A value of a type, which has one. It may be one that is near, or have such in it."""
        same = [value for other, value in near if other == ty]
        if same and chance.random() < 0.3:
            return chance.choice(same)
        if ty == "bool":
            return chance.choice(("true", "false"))
        if self.is_of_numbers(ty):
            return self.number(chance, ty)
        shapes = [it for it in self.shapes(ty) if all(map(self.has_value, it.types))]
        if self.is_opaque(ty) and (not shapes or chance.random() < 0.2):
            return f"{ty}#{chance.randrange(4)}"
        shape = chance.choice(shapes)
        return (shape.name, *(self.value(chance, field, near) for field in shape.types))

    def number(self, chance, ty):
        """A value of a type of numbers: a constant, a number that the rules write, a small one, one at an edge of the range, or any."""
        constants = [name for name, other in self.constants.items() if other == ty]
        if constants and chance.random() < 0.25:
            return f"${chance.choice(constants)}"
        if self.is_opaque(ty):
            return f"{ty}#{chance.randrange(4)}"
        form = chance.randrange(8)
        number = chance.choice((0, 1, 2, 3, 7, -1))
        if form < 4 and ty in self.written:
            number = chance.choice(sorted(self.written[ty]))
        elif form == 6:
            bits = INTS.get(ty, (32, True))[0]
            number = chance.choice((1 << (bits - 1), (1 << (bits - 1)) - 1, -1))
        elif form == 7:
            number = chance.randrange(1 << 31)
        while self.reduced(ty, number) in self.kept:
            number += 1
        return str(self.reduced(ty, number))

    def arguments(self, chance, name):
        """Arguments of a term: half of them as the patterns of one of its rules ask, as far as these say it."""
        types = self.heads[name]["signature"]["arguments"]
        rules = self.terms[name]["rules"]
        patterns = [None] * len(types)
        if rules and chance.random() < 0.5:
            patterns = chance.choice(rules)["expanded"]["arguments"]
        near, values = [], []
        for ty, pattern in zip(types, patterns):
            value = self.matching(chance, pattern, ty, near) if pattern else self.value(chance, ty, near)
            near += self.parts(ty, value)
            values.append(value)
        return values

    def matching(self, chance, pattern, ty, near):
        """A value that a pattern may match. Variables that are bound twice aren't seen to: equal values are often near."""
        kind = pattern["kind"]
        if kind == "bind":
            return self.matching(chance, pattern["pattern"], ty, near)
        if kind == "and" and pattern["patterns"]:
            return self.matching(chance, chance.choice(pattern["patterns"]), ty, near)
        if kind == "bool":
            return "true" if pattern["value"] else "false"
        if kind == "int":
            return str(self.reduced(ty, int(pattern["value"])))
        if kind == "constant":
            return f"${pattern['name']}"
        shape = next((it for it in self.shapes(ty) if kind == "term" and it.name == pattern["name"]), None)
        if shape is None:
            return self.value(chance, ty, near)
        parts = zip(pattern["arguments"], shape.types)
        return (shape.name, *(self.matching(chance, part, field, near) for part, field in parts))
