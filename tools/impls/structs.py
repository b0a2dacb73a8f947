"""Types that are made at random, and what their impls have to say."""
import re

WORDS = ("host", "port", "name", "limit", "rate", "log", "path", "max", "size", "user", "group", "key", "retry", "cache",
         "index", "level", "mode", "color", "width", "tab")
LEAST = {"i8": -2**7, "i16": -2**15, "i32": -2**31, "i64": -2**63, "u8": 0, "u16": 0, "u32": 0, "u64": 0}
MOST = {"i8": 2**7 - 1, "i16": 2**15 - 1, "i32": 2**31 - 1, "i64": 2**63 - 1, "u8": 2**8 - 1, "u16": 2**16 - 1,
        "u32": 2**32 - 1, "u64": 2**64 - 1}


def capital(word):
    return word[:1].upper() + word[1:]


# Each case of serde, of a name in snake case.
CASES = {
    "lowercase": lambda name: name,
    "UPPERCASE": lambda name: name.upper(),
    "PascalCase": lambda name: "".join(map(capital, name.split("_"))),
    "camelCase": lambda name: name.split("_")[0] + "".join(map(capital, name.split("_")[1:])),
    "snake_case": lambda name: name,
    "SCREAMING_SNAKE_CASE": lambda name: name.upper(),
    "kebab-case": lambda name: name.replace("_", "-"),
    "SCREAMING-KEBAB-CASE": lambda name: name.upper().replace("_", "-"),
}


def parted(name):
    """Returns a name in Pascal case in snake case."""
    return re.sub(r"(?<!^)(?=[A-Z])", "_", name).lower()


# Each case of serde, of a name in Pascal case.
VARIANT_CASES = {
    "lowercase": lambda name: name.lower(),
    "UPPERCASE": lambda name: name.upper(),
    "PascalCase": lambda name: name,
    "camelCase": lambda name: name[:1].lower() + name[1:],
    "snake_case": parted,
    "SCREAMING_SNAKE_CASE": lambda name: parted(name).upper(),
    "kebab-case": lambda name: parted(name).replace("_", "-"),
    "SCREAMING-KEBAB-CASE": lambda name: parted(name).upper().replace("_", "-"),
}


def integer(kind, value):
    """Returns an integer as a list of fields has it."""
    if kind[0] == "u":
        return str(value)
    return "(negsuc %d)" % (-value - 1) if value < 0 else "(pos %d)" % value


class Field:
    """A field: its name, its type, its attributes, and its entry in the list."""

    def __init__(self, chance, name, known):
        self.name = name
        self.key = None
        self.way = "needed"
        self.default = ""
        self.attributes = []
        self.kind = self.some_kind(chance, known)
        self.is_option = chance.random() < 0.25
        if chance.random() < 0.15:
            self.key = chance.choice(("the ", "", "x-")) + name.replace("_", chance.choice(("-", " ", ".")))
            self.attributes.append('rename = "%s"' % self.key)
        if self.is_option:
            self.way = "maybe"
            if chance.random() < 0.2:
                self.attributes.append('skip_serializing_if = "Option::is_none"')
        elif chance.random() < 0.5:
            self.take_default(chance)

    @staticmethod
    def some_kind(chance, known):
        kind = chance.choice(sorted(LEAST) + ["bool", "bool", "String", "String", "Float"] + known[-4:])
        shape = chance.random()
        if shape < 0.1:
            return "Vec<%s>" % kind
        if shape < 0.2:
            return "BTreeMap<String, %s>" % chance.choice((kind, "Vec<%s>" % kind))
        return kind

    def take_default(self, chance):
        if self.kind == "bool":
            value = chance.choice(("true", "false"))
            self.default = value + " "
        elif self.kind == "String" or self.kind.startswith("Vec<"):
            self.way, self.default = ("or_text", '"" ') if self.kind == "String" else ("or_empty", "")
            self.attributes.append("default")
            return
        elif self.kind in LEAST:
            number = chance.choice((0, LEAST[self.kind], MOST[self.kind], chance.randint(LEAST[self.kind], MOST[self.kind])))
            value = hex(number) if number >= 0 and chance.random() < 0.2 else str(number)
            self.default = integer(self.kind, number) + " "
        else:
            return
        self.way = "or"
        is_own = value in ("0", "false") and chance.random() < 0.5
        self.attributes.append("default" if is_own else "default = " + value)

    def text(self):
        """Returns its lines in a struct, by itself or with each attribute on a line of its own."""
        lines = ["    #[serde(%s)]\n" % one for one in self.attributes]
        kind = "Option<%s>" % self.kind if self.is_option else self.kind
        return "%s    pub %s: %s,\n" % ("".join(lines), self.name, kind)

    def entry(self, case):
        key = self.key or (CASES[case](self.name) if case else self.name)
        return "%s ⟦<%s as Returns<'static>>⟧ \"%s\" %s(λ s. s.%s)" % (self.way, self.kind, key, self.default, self.name)


class Struct:
    """A struct of so many fields, else of 1 to 40, which may be of earlier structs."""

    def __init__(self, chance, name, known, size):
        self.name = name
        self.case = chance.choice([None, None] + sorted(CASES))
        self.is_strict = chance.random() < 0.5
        self.fields = []
        size = size or chance.choice((1, 2, 3, 5, 8, 13, 21, 30, 40))
        names, keys = set(), set()
        while len(self.fields) < size:
            words = [chance.choice(WORDS) for _ in range(chance.randint(1, 4))]
            field = Field(chance, "_".join(words + [str(size)] if chance.random() < 0.5 else words), known)
            key = field.entry(self.case).split('"')[1]
            if field.name not in names and key not in keys:
                names.add(field.name)
                keys.add(key)
                self.fields.append(field)

    def text(self):
        rules = ['rename_all = "%s"' % self.case] if self.case else []
        rules += ["deny_unknown_fields"] if self.is_strict else []
        attribute = "#[serde(%s)]\n" % ", ".join(rules) if rules else ""
        fields = "".join(field.text() for field in self.fields)
        return "/// A record.\n#[derive(Debug, Drop, Serialize, Deserialize)]\n%spub struct %s {\n%s}\n" % (attribute, self.name, fields)

    def listed(self):
        return self.is_strict, [field.entry(self.case) for field in self.fields]


class Enum:
    """An enum of 1 to 12 variants."""

    def __init__(self, chance, name):
        self.name = name
        self.case = chance.choice([None] + sorted(VARIANT_CASES))
        self.variants = {}
        for _ in range(chance.choice((1, 2, 3, 5, 8, 12))):
            variant = "".join(capital(chance.choice(WORDS)) for _ in range(chance.randint(1, 3)))
            key = "the " + variant if chance.random() < 0.2 else None
            if variant not in self.variants and (key or self.key(variant)) not in map(self.key, self.variants):
                self.variants[variant] = key

    def key(self, variant):
        return self.variants.get(variant) or (VARIANT_CASES[self.case](variant) if self.case else variant)

    def text(self):
        rule = '#[serde(rename_all = "%s")]\n' % self.case if self.case else ""
        lines = ['    #[serde(rename = "%s")]\n    %s,\n' % (key, variant) if key else "    %s,\n" % variant
                 for variant, key in self.variants.items()]
        return "/// A choice.\n#[derive(Debug, Clone, Copy, Serialize, Deserialize)]\n%spub enum %s {\n%s}\n" % (
            rule, self.name, "".join(lines))

    def listed(self):
        return {variant: self.key(variant) for variant in self.variants}


class Forms:
    """An untagged enum of two variants: one holds a table, as a struct made before, and one another value."""

    def __init__(self, chance, name, structs, enums):
        self.name = name
        table = chance.choice(structs[-2:] * 3 + ["BTreeMap<String, u8>", "BTreeMap<String, Vec<%s>>" % structs[-1]])
        other = chance.choice(["String", "bool", "i64", "u8", "Float", "Vec<String>", "Vec<%s>" % structs[-1]] + enums)
        self.table, self.other = table, other
        self.variants = [(capital(chance.choice(WORDS)) + "Table", table, "one"),
                         (capital(chance.choice(WORDS)), other, "other")]
        if chance.random() < 0.5:
            self.variants.reverse()

    def text(self):
        lines = ["    %s(%s),\n" % (variant, kind) for variant, kind, _ in self.variants]
        derive = "#[derive(Debug, Drop, Serialize, Deserialize)]\n#[serde(untagged)]\n"
        return "/// One of two forms.\n%spub enum %s {\n%s}\n" % (derive, self.name, "".join(lines))

    def listed(self):
        return self.table, self.other, [(variant, side) for variant, _, side in self.variants]


# What a file may bring in already, by what needs it.
USES = {"Float": "use basic_toml::Float;\n", "Serialize": "use serde::{Deserialize, Serialize};\n",
        "BTreeMap": "use std::collections::BTreeMap;\n"}


class File:
    """A file of structs, each of so many fields or of any number, and of enums that they have fields of.

    Behind `forms` of a hundred structs stands a choice of two forms.
    """

    def __init__(self, chance, module, first, sizes, forms):
        self.structs = []
        self.forms = []
        self.module = module
        self.enums = [Enum(chance, "%s%sOf%d" % (capital(chance.choice(WORDS)), capital(chance.choice(WORDS)), first + each))
                      for each in range(2)]
        self.types = list(self.enums)
        for each, size in enumerate(sizes, first):
            name = "%s%s%d" % (capital(chance.choice(WORDS)), capital(chance.choice(WORDS)), each)
            self.add(self.structs, Struct(chance, name, [one.name for one in self.types], size))
            if forms and chance.randrange(100) < forms:
                names = [[one.name for one in kind] for kind in (self.structs, self.enums)]
                self.add(self.forms, Forms(chance, "%sOr%d" % (capital(chance.choice(WORDS)), each), *names))
        self.uses = [word for word in USES if chance.random() < 0.5]

    def add(self, kind, one):
        kind.append(one)
        self.types.append(one)

    def text(self, is_whole):
        """Returns the file, with the `use` lines that it needs where it `is_whole`, else with some."""
        types = "\n".join(one.text() for one in self.types)
        uses = "".join(line for word, line in USES.items() if (word in types if is_whole else word in self.uses))
        return "//! Types that were made at random.\n\n%s%s" % (uses + "\n" if uses else "", types)


def changed(chance, text, made):
    """Returns the name of a struct, and the text with a field of it changed: left out, added or given another type."""
    struct = chance.choice(made.structs)
    found = re.search(r"^pub struct %s \{\n(.*?)^\}\n" % struct.name, text, re.M | re.S)
    lines = found[1].splitlines(keepends=True)
    way = chance.choice(("add", "drop", "change"))
    place = chance.randrange(len(lines))
    if way == "add" or (way == "drop" and len(lines) == 1):
        lines.insert(place, "    pub a_new_one: u16,\n")
    elif way == "drop":
        del lines[place]
    else:
        lines[place] = re.sub(r": .*", ": Option<Vec<Vec<u16>>>,", lines[place])
    return struct.name, text[:found.start(1)] + "".join(lines) + text[found.end(1):]
