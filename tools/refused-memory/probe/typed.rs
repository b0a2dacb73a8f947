//! Reading types of a caller's own.
ghost use Rattle.std.specs.Prelude.{◌∷◌, []};
ghost use Rattle.basic_toml.specs.FieldKeys.{key_of};
ghost use Rattle.basic_toml.specs.TypeReads.{HasOnly, array_reads, field_reads, map_reads, optional_reads};

use crate::show::show_error;
use basic_toml::{
    Deserialize, Error, Node, Tree, from_str, only_fields, read_field, read_optional,
};
use std::alloc::Global;
use std::collections::BTreeMap;
use std::io;
use toml_callers::types::{Color, Lower, NonEmpty, Parent, Strict, Title};

/// A record of a text, a number, a list, a map and what may be absent.
#[derive(Debug, Drop)]
struct Package {
    name: String,
    level: u8,
    authors: Vec<String>,
    limits: BTreeMap<String, i64>,
    license: Option<String>,
}

impl<'de> Deserialize<'de> for Package {
    ghost reads = { λ d p.
        HasOnly (key_of "name" ∷ key_of "level" ∷ key_of "authors" ∷ key_of "limits" ∷ key_of "license" ∷ []) d
        × field_reads ⟦<String as Deserialize<'static>>⟧.reads (key_of "name") d p.name
        × field_reads ⟦<u8 as Deserialize<'static>>⟧.reads (key_of "level") d p.level
        × field_reads (array_reads ⟦<String as Deserialize<'static>>⟧.reads) (key_of "authors") d p.authors
        × field_reads (map_reads ⟦<i64 as Deserialize<'static>>⟧.reads) (key_of "limits") d p.limits
        × optional_reads ⟦<String as Deserialize<'static>>⟧.reads (key_of "license") d p.license };

    fn deserialize(alloc: Global, node: Node<'_, 'de>) -> Result<Package, Error> {
        only_fields(
            alloc,
            node,
            &["name", "level", "authors", "limits", "license"],
        )?;
        Ok(Package {
            name: read_field(alloc, node, "name")?,
            level: read_field(alloc, node, "level")?,
            authors: read_field(alloc, node, "authors")?,
            limits: read_field(alloc, node, "limits")?,
            license: read_optional(alloc, node, "license")?,
        })
    }

    fn from_tree(alloc: Global, tree: Tree<'de>) -> Result<Package, Error> {
        Package::deserialize(alloc, tree.root())
    }
}

/// Reads a text as each of some types, and shows the value or the error.
pub(crate) fn each(rt: &impl Print, alloc: Global, text: &str) -> io::Result<()> {
    as_package(rt, alloc, text)?;
    as_strict(rt, alloc, text)?;
    as_lower(rt, alloc, text)?;
    as_title(rt, alloc, text)?;
    as_colors(rt, alloc, text)?;
    as_texts(rt, alloc, text)
}

fn as_package(rt: &impl Print, alloc: Global, text: &str) -> io::Result<()> {
    print!(rt; "package: ")?;
    match from_str::<Package>(alloc, text) {
        Ok(package) => println!(rt; "{package:?}"),
        Err(error) => show_error(rt, &error),
    }
}

fn as_strict(rt: &impl Print, alloc: Global, text: &str) -> io::Result<()> {
    print!(rt; "strict: ")?;
    match from_str::<Parent<Strict>>(alloc, text) {
        Ok(parent) => {
            print!(rt; "{}", parent.p_a)?;
            for child in &parent.p_b {
                print!(rt; " {} {}", child.c_a, child.c_b)?;
            }
            println!(rt; "")
        }
        Err(error) => show_error(rt, &error),
    }
}

fn as_lower(rt: &impl Print, alloc: Global, text: &str) -> io::Result<()> {
    print!(rt; "lower: ")?;
    match from_str::<Parent<Lower>>(alloc, text) {
        Ok(parent) => {
            print!(rt; "{}", parent.p_a)?;
            for child in &parent.p_b {
                print!(rt; " {} {}", child.c_a, child.c_b.0)?;
            }
            println!(rt; "")
        }
        Err(error) => show_error(rt, &error),
    }
}

fn as_title(rt: &impl Print, alloc: Global, text: &str) -> io::Result<()> {
    print!(rt; "title: ")?;
    match from_str::<Title<'_>>(alloc, text) {
        Ok(record) => {
            let title = record.title.as_str();
            let has_rate = record.rate.is_some();
            println!(rt; "{title} {has_rate}")
        }
        Err(error) => show_error(rt, &error),
    }
}

fn as_colors(rt: &impl Print, alloc: Global, text: &str) -> io::Result<()> {
    print!(rt; "colors: ")?;
    match from_str::<BTreeMap<String, Color>>(alloc, text) {
        Ok(colors) => println!(rt; "{colors:?}"),
        Err(error) => show_error(rt, &error),
    }
}

fn as_texts(rt: &impl Print, alloc: Global, text: &str) -> io::Result<()> {
    print!(rt; "texts: ")?;
    match from_str::<BTreeMap<String, NonEmpty>>(alloc, text) {
        Ok(texts) => {
            for (key, value) in &texts {
                print!(rt; "{key} {} ", value.0)?;
            }
            println!(rt; "")
        }
        Err(error) => show_error(rt, &error),
    }
}
