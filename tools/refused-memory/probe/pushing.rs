//! Building a table pair by pair.
use crate::show::show_table;
use basic_toml::{PushRefusal, Table, Value};
use std::alloc::Global;
use std::io;

/// Pushes each line of a text as a key, and shows the table. What is refused memory is tried once more, and where that is
/// refused too, the lines after it are left out.
pub(crate) fn each(rt: &impl Print, alloc: Global, text: &str) -> io::Result<()> {
    let mut table = Table::new(alloc);
    for line in text.lines() {
        let Some(key) = key_of(rt, alloc, line)? else {
            break;
        };
        if let Some((key, value)) = pushed(rt, &mut table, key, Value::Boolean(true))? {
            if pushed(rt, &mut table, key, value)?.is_some() {
                break;
            }
        }
    }
    show_table(rt, &table)
}

fn key_of(rt: &impl Print, alloc: Global, line: &str) -> io::Result<Option<String>> {
    if let Ok(key) = String::from_str(alloc, line) {
        return Ok(Some(key));
    }
    println!(rt; "key: out of memory")?;
    Ok(String::from_str(alloc, line).ok())
}

// Pushes a pair and prints what came; the pair where memory was refused.
fn pushed(
    rt: &impl Print,
    table: &mut Table,
    key: String,
    value: Value,
) -> io::Result<Option<(String, Value)>> {
    let before = table.len();
    match table.push(key, value) {
        Ok(()) => {
            let after = table.len();
            println!(rt; "push: {before} pairs, then {after}")?;
            Ok(None)
        }
        Err((refusal, key, value)) => {
            let after = table.len();
            let key_text = key.as_str();
            let is_there = table.get(key_text).is_some();
            println!(rt;
                "push: {refusal:?} {key_text} {value:?} {is_there}, {before} pairs, then {after}"
            )?;
            match refusal {
                PushRefusal::OutOfMemory => Ok(Some((key, value))),
                PushRefusal::KeyPresent => Ok(None),
            }
        }
    }
}
