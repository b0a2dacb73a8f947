//! Records of six fields that derive: one file for both programs.
use serde::{Deserialize, Serialize};

#[derive(Drop, Serialize, Deserialize)]
pub struct Document {
    pub rec: Vec<Record>,
}

#[derive(Drop, Serialize, Deserialize)]
pub struct Record {
    pub id: u32,
    pub name: String,
    pub on: bool,
    pub size: i64,
    pub note: Option<String>,
    pub tags: Vec<String>,
}

/// The same, borrowed from the text.
#[derive(Drop, Serialize, Deserialize)]
pub struct LentDocument<'a> {
    #[serde(borrow)]
    pub rec: Vec<LentRecord<'a>>,
}

#[derive(Drop, Serialize, Deserialize)]
pub struct LentRecord<'a> {
    pub id: u32,
    pub name: &'a str,
    pub on: bool,
    pub size: i64,
    pub note: Option<&'a str>,
    #[serde(borrow)]
    pub tags: Vec<&'a str>,
}
