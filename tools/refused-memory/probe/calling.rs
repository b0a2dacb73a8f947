//! Calls of a serializer.
use basic_toml::{Float, Serializer, WriteError};
use std::alloc::Global;
use std::io;

/// Makes calls of each kind up to the first that is refused, and shows the text or the error; and after an error what
/// the calls after it answer.
pub(crate) fn each(rt: &impl Print, alloc: Global) -> io::Result<()> {
    let Ok(Some(float)) = Float::parse(alloc, "+1.5e3") else {
        return println!(rt; "float: out of memory");
    };
    println!(rt; "float: {}", float.as_str())?;
    let mut ser = Serializer::new(alloc);
    match calls(&mut ser, &float) {
        Ok(()) => match ser.finish() {
            Ok(text) => {
                let text = text.as_str();
                println!(rt; "calls: {text:?}")
            }
            Err(error) => println!(rt; "finish: {error:?}"),
        },
        Err(error) => {
            let has_refused = ser.has_refused();
            let next = ser.serialize_bool(true);
            let end = ser.finish();
            println!(rt; "calls: {error:?}, {has_refused}, then {next:?} and {end:?}")
        }
    }
}

fn calls(ser: &mut Serializer, float: &Float) -> Result<(), WriteError> {
    ser.serialize_map(None)?;
    numbers(ser, float)?;
    strings(ser)?;
    options(ser)?;
    for name in ["first", "second", "third"] {
        sections(ser, name)?;
    }
    ser.end()
}

fn numbers(ser: &mut Serializer, float: &Float) -> Result<(), WriteError> {
    ser.serialize_field("boolean", &true)?;
    ser.serialize_key(&"integers")?;
    ser.serialize_tuple(3)?;
    ser.serialize_element(&-1_i64)?;
    ser.serialize_element(&2_u64)?;
    ser.serialize_bytes(&[3, 255])?;
    ser.end()?;
    ser.serialize_field("a float of a longer key", float)
}

fn strings(ser: &mut Serializer) -> Result<(), WriteError> {
    ser.serialize_key(&"strings")?;
    ser.serialize_seq(None)?;
    ser.serialize_char('\u{1f600}')?;
    ser.serialize_str(
        "\"\\\u{7f} and more text than fits a small buffer, so that it has to grow more than once",
    )?;
    ser.serialize_unit_variant("Color", 0, "Red")?;
    ser.end()
}

fn options(ser: &mut Serializer) -> Result<(), WriteError> {
    let absent: Option<u8> = None;
    ser.serialize_field("absent", &absent)?;
    ser.serialize_field("there", &Some(1_u8))
}

fn sections(ser: &mut Serializer, name: &str) -> Result<(), WriteError> {
    ser.serialize_key(&name)?;
    ser.serialize_seq(None)?;
    for _ in 0..2 {
        section(ser)?;
    }
    ser.end()
}

fn section(ser: &mut Serializer) -> Result<(), WriteError> {
    ser.serialize_map(None)?;
    for key in [
        "a", "b", "c", "d", "e", "f", "g", "h", "i", "j", "k", "l", "m", "n", "o", "p", "q", "r",
    ] {
        ser.serialize_field(key, &1_u8)?;
    }
    ser.serialize_key(&"table")?;
    ser.serialize_struct("Empty", 0)?;
    ser.end()?;
    ser.end()
}
