// basic-toml, which reads into a value that keeps the order of keys: read | tidy. Or records of six fields are made of the
// lines of the text, as toml_bench makes them: records; and written, too: write.
// Status 0 where it was read (and written), 1 where the text was refused, 2 where it cannot be written.
use serde::de::{Deserialize, Deserializer, Error, MapAccess, SeqAccess, Visitor};
use serde::ser::{Serialize, SerializeMap, SerializeSeq, SerializeStruct, Serializer};
use std::io::{Read, Write};
use std::process::exit;

enum Value {
    Int(i64),
    Float(f64),
    Bool(bool),
    Str(String),
    Array(Vec<Value>),
    Table(Vec<(String, Value)>),
}

struct Any;

impl<'de> Visitor<'de> for Any {
    type Value = Value;
    fn expecting(&self, f: &mut std::fmt::Formatter) -> std::fmt::Result {
        f.write_str("any TOML value")
    }
    fn visit_i64<E: Error>(self, v: i64) -> Result<Value, E> {
        Ok(Value::Int(v))
    }
    fn visit_f64<E: Error>(self, v: f64) -> Result<Value, E> {
        Ok(Value::Float(v))
    }
    fn visit_bool<E: Error>(self, v: bool) -> Result<Value, E> {
        Ok(Value::Bool(v))
    }
    fn visit_str<E: Error>(self, v: &str) -> Result<Value, E> {
        Ok(Value::Str(v.to_owned()))
    }
    fn visit_string<E: Error>(self, v: String) -> Result<Value, E> {
        Ok(Value::Str(v))
    }
    fn visit_seq<A: SeqAccess<'de>>(self, mut a: A) -> Result<Value, A::Error> {
        let mut v = Vec::with_capacity(a.size_hint().unwrap_or(0).min(4096));
        while let Some(x) = a.next_element()? {
            v.push(x);
        }
        Ok(Value::Array(v))
    }
    fn visit_map<A: MapAccess<'de>>(self, mut a: A) -> Result<Value, A::Error> {
        let mut v = Vec::new();
        while let Some(pair) = a.next_entry()? {
            v.push(pair);
        }
        Ok(Value::Table(v))
    }
}

impl<'de> Deserialize<'de> for Value {
    fn deserialize<D: Deserializer<'de>>(d: D) -> Result<Value, D::Error> {
        d.deserialize_any(Any)
    }
}

impl Serialize for Value {
    fn serialize<S: Serializer>(&self, s: S) -> Result<S::Ok, S::Error> {
        match self {
            Value::Int(v) => s.serialize_i64(*v),
            Value::Float(v) => s.serialize_f64(*v),
            Value::Bool(v) => s.serialize_bool(*v),
            Value::Str(v) => s.serialize_str(v),
            Value::Array(v) => {
                let mut list = s.serialize_seq(Some(v.len()))?;
                for x in v {
                    list.serialize_element(x)?;
                }
                list.end()
            }
            Value::Table(v) => {
                let mut map = s.serialize_map(Some(v.len()))?;
                for (k, x) in v {
                    map.serialize_entry(k, x)?;
                }
                map.end()
            }
        }
    }
}

struct Record {
    id: u32,
    name: String,
    on: bool,
    size: i64,
    note: Option<String>,
    tags: Vec<String>,
}

// What serde's derive writes for it.
impl Serialize for Record {
    fn serialize<S: Serializer>(&self, s: S) -> Result<S::Ok, S::Error> {
        let mut fields = s.serialize_struct("Record", 6)?;
        fields.serialize_field("id", &self.id)?;
        fields.serialize_field("name", &self.name)?;
        fields.serialize_field("on", &self.on)?;
        fields.serialize_field("size", &self.size)?;
        fields.serialize_field("note", &self.note)?;
        fields.serialize_field("tags", &self.tags)?;
        fields.end()
    }
}

struct Records {
    rec: Vec<Record>,
}

impl Serialize for Records {
    fn serialize<S: Serializer>(&self, s: S) -> Result<S::Ok, S::Error> {
        let mut fields = s.serialize_struct("Records", 1)?;
        fields.serialize_field("rec", &self.rec)?;
        fields.end()
    }
}

fn start_of(line: &str, len: usize) -> String {
    line.get(..len).unwrap_or(line).to_owned()
}

fn records_of(text: &str) -> Records {
    let mut rec = Vec::new();
    let (mut id, mut size) = (0u32, 0i64);
    for line in text.lines() {
        id = id.wrapping_add(2_654_435_761);
        size = size.wrapping_add(100_000_007);
        rec.push(Record {
            id,
            name: start_of(line, 12),
            on: id % 2 == 0,
            size,
            note: if id % 4 < 2 { Some(line.to_owned()) } else { None },
            tags: (0..id % 3).map(|_| start_of(line, 5)).collect(),
        });
    }
    Records { rec }
}

fn print(text: &str) {
    std::io::stdout().lock().write_all(text.as_bytes()).unwrap();
}

fn main() {
    let how = std::env::args().nth(1).unwrap_or_default();
    let mut text = Vec::new();
    std::io::stdin().lock().read_to_end(&mut text).unwrap();
    if how == "records" || how == "write" {
        let records = records_of(std::str::from_utf8(&text).unwrap());
        if how == "write" {
            print(&basic_toml::to_string(&records).unwrap());
        }
        return;
    }
    let value: Value = basic_toml::from_slice(&text).unwrap_or_else(|e| {
        eprintln!("{}", e);
        exit(1)
    });
    if how != "tidy" {
        return; // and the value is freed
    }
    let written = basic_toml::to_string(&value).unwrap_or_else(|e| {
        eprintln!("{}", e);
        exit(2)
    });
    drop(value);
    print(&written);
}
