//! Does one row: the first line of standard input says which, and the rest is its text. It prints what was read and
//! written, or the error; what it does itself takes no memory. (Rattle: `run` builds it, with an arm for each row.)
#![tactic(auto)]

mod types;

use basic_toml_serde::{
    Error, TomlFloat, TomlTable, TomlValue, from_slice, to_string, to_string_rows_first,
};
use serde::{Deserialize, Serialize};
use std::alloc::Global;
use std::borrow::CowStr;
use std::collections::BTreeMap;
use std::default::MadeWith;
use std::fmt::Debug;
use std::io::{self, Read};
use std::net::{IpAddr, SocketAddr};
use std::str;
use types::*;

const ROOM: usize = 8192;

fn main(rt: HostRuntime) -> io::Result<()> {
    let mut room = [0u8; ROOM];
    let mut length = 0usize;
    let mut reader = rt.reader();
    for _ in 0..ROOM {
        let Some(rest) = room.get_mut(length..) else {
            break;
        };
        let more = reader.read(rest)?;
        if more == 0 {
            break;
        }
        length = length.saturating_add(more);
    }
    let input = room.get(..length).unwrap_or(&[]);
    let at = input.iter().position(|byte| *byte == b'\n').unwrap_or(0);
    let row = str::from_utf8(input.get(..at).unwrap_or(&[])).unwrap_or("");
    let text = input.get(at.saturating_add(1)..).unwrap_or(&[]);
    do_row(&rt, rt.alloc(), row, text)
}

fn do_row(rt: &HostRuntime, alloc: Global, row: &str, text: &[u8]) -> io::Result<()> {
    match row {
        // ARMS
        _ => println!(rt; "no such row"),
    }
}

fn read<'a, T: Deserialize<'a> + Serialize + Debug>(
    rt: &HostRuntime,
    alloc: Global,
    text: &'a [u8],
) -> io::Result<()> {
    match from_slice::<T>(alloc, text) {
        Ok(value) => {
            println!(rt; "value {value:?}")?;
            write(rt, alloc, &value)
        }
        Err(e) => println!(rt; "error {e}"),
    }
}

fn read_rows_first<'a, T: Deserialize<'a> + Serialize + Debug>(
    rt: &HostRuntime,
    alloc: Global,
    text: &'a [u8],
) -> io::Result<()> {
    match from_slice::<T>(alloc, text) {
        Ok(value) => {
            println!(rt; "value {value:?}")?;
            write_rows_first(rt, alloc, &value)
        }
        Err(e) => println!(rt; "error {e}"),
    }
}

fn write<T: Serialize>(rt: &HostRuntime, alloc: Global, value: &T) -> io::Result<()> {
    print_text(rt, to_string(alloc, value))
}

fn write_rows_first<T: Serialize>(rt: &HostRuntime, alloc: Global, value: &T) -> io::Result<()> {
    print_text(rt, to_string_rows_first(alloc, value))
}

fn print_text(rt: &HostRuntime, text: Result<String, Error>) -> io::Result<()> {
    match text {
        Ok(text) => print!(rt; "written\n{text}"),
        Err(e) => println!(rt; "unwritten {e}"),
    }
}

/// A map whose keys are no texts.
fn number_keys(alloc: Global) -> io::Result<At<BTreeMap<u8, u8>>> {
    Ok(At {
        at: BTreeMap::from_array(alloc, [(1u8, 2u8)])?,
    })
}

/// Values that are texts.
#[derive(Debug, Drop, PartialEq, Serialize, Deserialize)]
struct Server {
    #[serde(with = "basic_toml_serde::as_text")]
    address: IpAddr,
    #[serde(with = "basic_toml_serde::as_text")]
    socket: SocketAddr,
}

/// A number that is a key.
#[derive(Clone, Copy, Debug, Eq, Ord, PartialEq, PartialOrd, Serialize, Deserialize)]
struct Id(#[serde(with = "basic_toml_serde::as_text")] u16);

/// Fields that are made where they are not there.
#[derive(Debug, Drop, PartialEq, Serialize, Deserialize)]
struct Made<'a> {
    #[serde(default)]
    names: Vec<String>,
    #[serde(default)]
    limits: Limits,
    #[serde(default = "nobody")]
    author: CowStr<'a>,
}

#[derive(Debug, Drop, PartialEq, Serialize, Deserialize)]
struct Limits {
    rows: u8,
    names: Vec<String>,
}

impl MadeWith<Global> for Limits {
    fn made_with(alloc: Global) -> Limits {
        Limits {
            rows: 8,
            names: Vec::new(alloc),
        }
    }
}

fn nobody<'a>() -> CowStr<'a> {
    CowStr::Borrowed("nobody")
}
