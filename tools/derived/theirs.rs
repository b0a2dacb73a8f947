//! The same by Rust's serde over basic-toml.
mod types;

use serde::{Deserialize, Serialize};
use std::borrow::Cow;
use std::collections::BTreeMap;
use std::fmt::Debug;
use std::io::{self, Read};
use types::*;

type CowStr<'a> = Cow<'a, str>;

fn main() -> io::Result<()> {
    let mut input = Vec::new();
    io::stdin().read_to_end(&mut input)?;
    let at = input.iter().position(|byte| *byte == b'\n').unwrap_or(0);
    let row = std::str::from_utf8(&input[..at]).unwrap_or("");
    do_row(row, &input[at + 1..])
}

#[allow(unused_variables)]
fn do_row(row: &str, text: &[u8]) -> io::Result<()> {
    let (rt, alloc) = (&(), ());
    match row {
        // ARMS
        _ => Ok(println!("no such row")),
    }
}

fn read<'a, T: Deserialize<'a> + Serialize + Debug>(rt: &(), alloc: (), text: &'a [u8]) -> io::Result<()> {
    match basic_toml::from_slice::<T>(text) {
        Ok(value) => {
            println!("value {value:?}");
            write(rt, alloc, &value)
        }
        Err(e) => Ok(println!("error {e}")),
    }
}

fn write<T: Serialize>(_rt: &(), _alloc: (), value: &T) -> io::Result<()> {
    match basic_toml::to_string(value) {
        Ok(text) => Ok(print!("written\n{text}")),
        Err(e) => Ok(println!("unwritten {e}")),
    }
}

fn number_keys(_alloc: ()) -> io::Result<At<BTreeMap<u8, u8>>> {
    Ok(At { at: BTreeMap::from([(1u8, 2u8)]) })
}
