//! Reading and writing texts.
use crate::show::{show_error, show_table};
use basic_toml::{Table, from_str, round_trip, to_string};
use std::alloc::Global;
use std::io;

/// Reads a text into a table.
pub(crate) fn reading(rt: &impl Print, alloc: Global, text: &str) -> io::Result<()> {
    print!(rt; "read: ")?;
    match from_str::<Table>(alloc, text) {
        Ok(table) => show_table(rt, &table),
        Err(error) => show_error(rt, &error),
    }
}

/// Reads a text, writes its table, copies it, and writes and reads it back.
pub(crate) fn writing(rt: &impl Print, alloc: Global, text: &str) -> io::Result<()> {
    let table: Table = match from_str(alloc, text) {
        Ok(table) => table,
        Err(error) => {
            print!(rt; "read: ")?;
            return show_error(rt, &error);
        }
    };
    print!(rt; "read: ")?;
    show_table(rt, &table)?;
    print!(rt; "write: ")?;
    match to_string(alloc, &table) {
        Ok(text) => {
            let text = text.as_str();
            println!(rt; "{text:?}")?;
        }
        Err(error) => show_error(rt, &error)?,
    }
    print!(rt; "copy: ")?;
    match table.clone() {
        Ok(copy) => {
            let is_same = copy == table;
            println!(rt; "{is_same}")?;
        }
        Err(error) => println!(rt; "{error:?}")?,
    }
    print!(rt; "write and read back: ")?;
    match round_trip(alloc, &table) {
        Ok(table) => show_table(rt, &table),
        Err(error) => show_error(rt, &error),
    }
}
