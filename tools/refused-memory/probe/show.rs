//! What a table and an error hold.
use basic_toml::{Error, Table, Value};
use std::io;

// More than the levels that a text can have.
const LEVELS: usize = 300;

/// A table, piece by piece.
pub(crate) fn show_table(rt: &impl Print, table: &Table) -> io::Result<()> {
    members(rt, table, LEVELS)?;
    println!(rt; "")
}

/// An error's text, whether it is want of memory, and where it stands.
pub(crate) fn show_error(rt: &impl Print, error: &Error) -> io::Result<()> {
    let is_out_of_memory = error.is_out_of_memory();
    let place = error.line_col();
    println!(rt; "error, {error}, {is_out_of_memory}, {place:?}")
}

#[cycle(shown)]
fn members(rt: &impl Print, table: &Table, levels: usize) -> io::Result<()> {
    if levels == 0 {
        return Ok(());
    }
    print!(rt; "{{")?;
    for (key, value) in table.iter() {
        print!(rt; " {key:?}: ")?;
        member(rt, value, levels - 1)?;
    }
    print!(rt; " }}")
}

#[cycle(shown)]
fn member(rt: &impl Print, value: &Value, levels: usize) -> io::Result<()> {
    if levels == 0 {
        return Ok(());
    }
    match value {
        Value::Integer(number) => {
            let number = *number;
            print!(rt; "{number}")
        }
        Value::Float(float) => print!(rt; "{}", float.as_str()),
        Value::Boolean(truth) => {
            let truth = *truth;
            print!(rt; "{truth}")
        }
        Value::String(text) => {
            let text = text.as_str();
            print!(rt; "{text:?}")
        }
        Value::Array(values) => {
            print!(rt; "[")?;
            for value in values {
                print!(rt; " ")?;
                member(rt, value, levels - 1)?;
            }
            print!(rt; " ]")
        }
        Value::Table(table) => members(rt, table, levels - 1),
    }
}
