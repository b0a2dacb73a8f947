"""Files that toml_impls refuses, and what it says of each behind `stdin:`; and others that it takes."""

FIELD = "struct S {\n    #[serde(%s)]\n    a: %s,\n}\n"
TYPE = "#[serde(%s)]\nstruct S {\n    a: u8,\n}\n"
CASES = ("none of lowercase, UPPERCASE, PascalCase, camelCase, snake_case, SCREAMING_SNAKE_CASE, kebab-case and "
         "SCREAMING-KEBAB-CASE")
KEY = 'a key is text between quotes, of printable ASCII without `"` and `\\`'
NO_DEFAULT = "a default of a type that is none of `bool`, the integers, `String` and `Vec`: make it an `Option`"
NO_VALUE = "a default is `true`, `false` or an integer"
MISFIT = "a default that is no value of its type"
ONE_KEY = "a field has one key, for reading and for writing"
SKIP_IF = 'only `skip_serializing_if = "Option::is_none"` is taken, at an option'
BY_HAND = ": write its impls by hand, or keep it in another file"
VARIANT_DATA = "a variant with data, where the enum is not `untagged`" + BY_HAND
NOT_TWO = "an `untagged` enum of more or fewer variants than two" + BY_HAND
NOT_ONE = "a variant that does not hold one value, as `Version(String)` does" + BY_HAND
SAME_FORM = "both variants hold a table, or neither does" + BY_HAND
FORM_TYPE = "it is not known here whether this type is a table: take a type of this file, or write the impls by hand"
OTHER_TEST = "another test than `is_table`: leave out what serde has at the enum, and its impls stay"
FORMS = "#[serde(untagged)]\nenum E {\n    A(%s),\n    B(%s),\n}\n"
FORMS_TYPE = "#[serde(untagged, %s)]\nenum E {\n    A(u8),\n    B(Table),\n}\n"
FORMS_RULE = "#[serde(untagged)]\nenum E {\n    #[serde(%s)]\n    A(u8),\n    B(#[serde(%s)] Table),\n}\n"
LIST = """struct S {
    a: u8,
}

impl RoundTrip for S {
    ghost fields = { %s };
}
"""

REFUSED = [
    # types
    ("struct S<T> {\n    a: T,\n}\n", "1:9: a generic type: write its impls by hand, or keep it in another file"),
    ("struct S<'a> {\n    a: &'a str,\n}\n", "1:9: a generic type: write its impls by hand, or keep it in another file"),
    ("pub struct S(u8);\n", "1:13: a struct without named fields: write its impls by hand, or keep it in another file"),
    ("pub struct S;\n", "1:12: a type without fields or variants: write its impls by hand, or keep it in another file"),
    ("pub struct S {}\n", "1:12: a type without fields or variants: write its impls by hand, or keep it in another file"),
    ("struct S {\n    a: u8,\n    ghost low: { a < 9 },\n}\n",
     "3:5: a struct with an invariant: write its impls by hand, or keep it in another file"),
    ("struct S {\n    a: u8,\n", "1:8: a bracket that is not closed"),
    ("struct S {\n    a u8,\n}\n", "2:7: expected :"),
    ("enum E {\n    A,\n}\n", "1:6: an enum needs the path of its module: --module my_crate::settings"),
    ("enum E {\n    A,\n    B(u8),\n}\n", "3:6: " + VARIANT_DATA),
    ("enum E {\n    A { a: u8 },\n}\n", "2:7: " + VARIANT_DATA),
    ("enum E {\n    A(u8),\n    B(Table),\n}\n", "2:6: " + VARIANT_DATA),
    ("enum E {}\n", "1:6: a type without fields or variants: write its impls by hand, or keep it in another file"),
    # two forms
    (FORMS % ("u8", "Table"), "2:6: an enum needs the path of its module: --module my_crate::settings"),
    ("#[serde(untagged)]\nenum E {\n    A(u8),\n}\n", "2:6: " + NOT_TWO),
    ("#[serde(untagged)]\nenum E {\n    A(u8),\n    B(Table),\n    C(bool),\n}\n", "2:6: " + NOT_TWO),
    ("#[serde(untagged)]\nenum E {\n    A(u8, u8),\n    B(Table),\n}\n", "3:5: " + NOT_ONE),
    ("#[serde(untagged)]\nenum E {\n    A(u8),\n    B(),\n}\n", "4:5: " + NOT_ONE),
    ("#[serde(untagged)]\nenum E {\n    A(u8),\n    B { b: Table },\n}\n", "4:5: " + NOT_ONE),
    ("#[serde(untagged)]\nenum E {\n    A(u8),\n    B,\n}\n", "4:5: " + NOT_ONE),
    *((FORMS % kinds, "2:6: " + SAME_FORM)
      for kinds in (("u8", "String"), ("Float", "Vec<Table>"), ("Table", "BTreeMap<String, u8>"))),
    (FORMS % ("S", "Table") + "\nstruct S {\n    a: u8,\n}\n", "2:6: " + SAME_FORM),
    (FORMS % ("Two", "u8") + "\nenum Two {\n    A,\n    B,\n}\n", "2:6: " + SAME_FORM),
    *((FORMS % ("Table", kind), "4:7: " + FORM_TYPE)
      for kind in ("Unknown", "super::S", "Option<u8>", "usize", "Value", "BTreeMap<u8, u8>")),
    (FORMS % ("E", "Table"), "3:7: " + FORM_TYPE),
    (FORMS % ("u8", "&Table"), "4:7: a type that is no path, as `Vec<String>` is one"),
    *((FORMS_TYPE % word, "1:19: `%s` says nothing of an `untagged` enum: leave it out" % word.split()[0])
      for word in ('rename_all = "lowercase"', "deny_unknown_fields")),
    (FORMS_TYPE % 'tag = "kind"', "1:19: `tag` is not taken"),
    *((FORMS_RULE % (word, ""), "3:13: `%s` says nothing of an `untagged` enum: leave it out" % word.split()[0])
      for word in ('rename = "a"', 'alias = "a"', "default", 'skip_serializing_if = "Option::is_none"')),
    (FORMS_RULE % ("untagged", ""), "3:13: `untagged` is not taken"),
    (FORMS_RULE % ("", "default"), "5:15: `default` says nothing of an `untagged` enum: leave it out"),
    (FORMS_RULE % ("", 'with = "m"'), "5:15: `with` is not taken"),
    ("#[serde(untagged)]\nenum E {\n    A,\n    B,\n}\n", "1:9: `untagged` is not taken"),
    (FORMS % ("u8", "Table") + "\nimpl Forms for E {\n    ghost forms = { by_test is_array };\n}\n",
     "7:1: " + OTHER_TEST),
    # fields
    ("struct S {\n    a: &u8,\n}\n", "2:8: a type that is no path, as `Vec<String>` is one"),
    ("struct S {\n    a: (u8, u8),\n}\n", "2:8: a type that is no path, as `Vec<String>` is one"),
    ("struct S {\n    a: Vec<[u8; 4]>,\n}\n", "2:12: a type that is no path, as `Vec<String>` is one"),
    ("struct S {\n    a: Option<Option<u8>>,\n}\n", "2:15: an option of an option, which TOML has not"),
    ("struct S {\n    a: ,\n}\n", "2:8: expected a type"),
    ("struct S {\n    größe: u8,\n}\n", "2:5: " + KEY),
    # keys
    (FIELD % ("alias = \"b\"", "u8"), "2:13: `alias` is not taken: a field has one key"),
    (FIELD % ("rename(serialize = \"b\")", "u8"), "2:19: " + ONE_KEY),
    (FIELD % ("rename = b", "u8"), "2:22: expected a string"),
    (FIELD % (r'rename = "b\"c"', "u8"), "2:22: " + KEY),
    (FIELD % ('rename = "größe"', "u8"), "2:22: " + KEY),
    (FIELD % ('rename = r"b"', "u8"), "2:22: " + KEY),
    ("struct S {\n    a: u8,\n    #[serde(rename = \"a\")]\n    b: u8,\n}\n", "4:5: the key of another field"),
    (TYPE % 'rename_all = "Title Case"', "1:22: " + CASES),
    # defaults
    (FIELD % ("default", "Float"), "2:13: " + NO_DEFAULT),
    (FIELD % ("default", "BTreeMap<String, u8>"), "2:13: " + NO_DEFAULT),
    (FIELD % ("default = 1", "Vec<u8>"), "2:23: " + MISFIT),
    (FIELD % ("default = 1", "Float"), "2:23: " + NO_DEFAULT),
    (FIELD % ("default = 1", "Option<u8>"), "2:23: an option has no default: where the key lacks it is `None`"),
    (FIELD % ('default = "port"', "u16"),
     "2:23: a default by a function, whose value is not known here: write the value, as `default = 8080`"),
    (FIELD % ("default = 256", "u8"), "2:23: " + MISFIT),
    (FIELD % ("default = -1", "u8"), "2:23: " + MISFIT),
    (FIELD % ("default = -129", "i8"), "2:23: " + MISFIT),
    (FIELD % ("default = true", "u8"), "2:23: " + MISFIT),
    (FIELD % ("default = 1", "bool"), "2:23: " + MISFIT),
    (FIELD % ("default = 8080u16", "u16"), "2:23: " + NO_VALUE),
    (FIELD % ("default = 1 + 1", "u16"), "2:25: " + NO_VALUE),
    (FIELD % ("default = PORT", "u16"), "2:23: " + NO_VALUE),
    (FIELD % ("default = 99999999999999999999", "u64"), "2:23: " + NO_VALUE),
    # what else serde has
    (FIELD % ('skip_serializing_if = "Option::is_none"', "u8"), "2:35: " + SKIP_IF),
    (FIELD % ('skip_serializing_if = "is_odd"', "Option<u8>"), "2:35: " + SKIP_IF),
    *((FIELD % (word, "u8"), "2:13: `%s` is not taken" % word.split()[0])
      for word in ("skip", "flatten", 'with = "m"', "skip_serializing", "borrow")),
    *((TYPE % word, "1:9: `%s` is not taken" % word.split()[0])
      for word in ("default", 'tag = "kind"', 'content = "c"', "untagged", "transparent")),
    # lists that were not written so
    (LIST % 'own ⟦<u8 as Returns<\'static>>⟧ "a" (λ s. s.a)\n        done',
     "6:22: an entry that is none of `needed`, `maybe`, `or`, `or_empty` and `or_text`"),
    (LIST % 'or ⟦<u8 as Returns<\'static>>⟧ "a" (two 3) (λ s. s.a)\n        done', "6:61: expected negsuc"),
    # names of another's
    ("use std::error::Error;\n\nstruct S {\n    a: u8,\n}\n",
     "1:1: `Error` is another's: the impls need that of basic_toml"),
    ("use serde::{Deserialize, de::Visitor};\n\nstruct S {\n    a: u8,\n}\n",
     "1:1: `Deserialize` is another's: the impls need that of basic_toml"),
    ("struct Node {\n    a: u8,\n}\n", "1:8: `Node` is another's: the impls need that of basic_toml"),
]

# A type, and what the list of a struct says of a field of it.
TYPES = [
    ("Option<u8>", "maybe ⟦<u8 as Returns<'static>>⟧"),
    ("std::option::Option< Vec<u8> >", "maybe ⟦<Vec<u8> as Returns<'static>>⟧"),
    ("Option<\n        BTreeMap<String, u8>,\n    >", "maybe ⟦<BTreeMap<String, u8> as Returns<'static>>⟧"),
    ("Option<BTreeMap<String,Vec<Option<u8>>>>", "maybe ⟦<BTreeMap<String, Vec<Option<u8>>> as Returns<'static>>⟧"),
    ("Vec<Option<u8>>", "needed ⟦<Vec<Option<u8>> as Returns<'static>>⟧"),
    ("BTreeMap<String, Option<u8>>", "needed ⟦<BTreeMap<String, Option<u8>> as Returns<'static>>⟧"),
    ("crate::places :: Point", "needed ⟦<crate::places::Point as Returns<'static>>⟧"),
    ("OptionSet", "needed ⟦<OptionSet as Returns<'static>>⟧"),
]

# A struct whose list is one of reading alone.
READ_ALONE = """#[derive(Drop, Serialize)]
struct S {
    a: u8,
}

impl Record for S {
    ghost fields = { strict
        (or ⟦<u8 as Deserialize<'static>>⟧ "b" 7 (λ s. s.a)
        done) };
}
"""

# A choice of two forms of types from elsewhere, whose impl says which of them is a table, by this test.
FORMS_BY_HAND = """use crate::details::Detail;

enum E {
    A(Detail),
    B(crate::versions::Version),
}

impl Forms for E {
    ghost use Rattle.made.specs.declared.forms.E.TheVariants.{A, B};

    ghost forms = { by_test %s ⟦<Detail as Returns<'static>>⟧ ⟦<crate::versions::Version as Returns<'static>>⟧
        (elim [ A detail ↦ one detail | B version ↦ other version ]) (λ x. refl) (λ x. refl) };
}
"""
