//! The same by Rust's serde over basic-toml.
mod records;

use records::{Document, LentDocument};
use serde::{Deserialize, Serialize};
use std::io::Read;
use std::process::ExitCode;

fn main() -> ExitCode {
    let what = std::env::args().nth(1).unwrap_or_default();
    let mut text = String::new();
    std::io::stdin().read_to_string(&mut text).unwrap();
    let went_well = match what.as_str() {
        "read" => is_read::<Document>(&text),
        "read-borrowed" => is_read::<LentDocument>(&text),
        "write" => is_written::<Document>(&text),
        "write-borrowed" => is_written::<LentDocument>(&text),
        _ => false,
    };
    ExitCode::from(!went_well as u8)
}

fn is_read<'a, T: Deserialize<'a>>(text: &'a str) -> bool {
    basic_toml::from_str::<T>(text).is_ok()
}

fn is_written<'a, T: Deserialize<'a> + Serialize>(text: &'a str) -> bool {
    match basic_toml::from_str::<T>(text) {
        Ok(document) => basic_toml::to_string(&document).is_ok_and(|written| written == text),
        Err(_) => false,
    }
}
