//! Types that derive, for the rows: one file for both programs. What Rust's serde does not have (`Drop` in a derive, the
//! mark of a type that holds itself), `run` takes out for it.
use serde::{Deserialize, Serialize};
use std::collections::BTreeMap;

// ---- a Cargo.toml

#[derive(Debug, Drop, PartialEq, Serialize, Deserialize)]
#[serde(rename_all = "kebab-case")]
pub struct Manifest<'a> {
    #[serde(borrow)]
    pub package: Package<'a>,
    pub lib: Option<Target>,
    #[serde(borrow)]
    pub dependencies: Option<BTreeMap<String, Dependency<'a>>>,
    #[serde(borrow)]
    pub dev_dependencies: Option<BTreeMap<String, Dependency<'a>>>,
    pub features: Option<BTreeMap<String, Vec<String>>>,
    pub workspace: Option<Workspace>,
}

#[derive(Debug, Drop, PartialEq, Serialize, Deserialize)]
#[serde(rename_all = "kebab-case")]
pub struct Package<'a> {
    pub name: &'a str,
    pub version: &'a str,
    #[serde(default)]
    pub authors: Vec<String>,
    pub edition: Option<Edition>,
    pub rust_version: Option<&'a str>,
    pub build: Option<String>,
    #[serde(default = "yes")]
    pub autobins: bool,
    pub description: &'a str,
}

pub fn yes() -> bool {
    true
}

#[derive(Clone, Copy, Debug, Drop, PartialEq, Serialize, Deserialize)]
pub enum Edition {
    #[serde(rename = "2015")]
    E2015,
    #[serde(rename = "2018")]
    E2018,
    #[serde(rename = "2021")]
    E2021,
}

#[derive(Debug, Drop, PartialEq, Serialize, Deserialize)]
#[serde(rename_all = "kebab-case", deny_unknown_fields)]
pub struct Target {
    pub name: Option<String>,
    pub path: Option<String>,
    pub proc_macro: Option<bool>,
    pub doc_scrape_examples: Option<bool>,
}

#[derive(Debug, Drop, PartialEq, Serialize, Deserialize)]
#[serde(untagged)]
pub enum Dependency<'a> {
    Version(&'a str),
    Detailed(Detail),
}

#[derive(Debug, Drop, PartialEq, Serialize, Deserialize)]
#[serde(rename_all = "kebab-case")]
pub struct Detail {
    pub version: Option<String>,
    pub path: Option<String>,
    #[serde(skip_serializing_if = "Option::is_none")]
    pub optional: Option<bool>,
    #[serde(default = "yes")]
    pub default_features: bool,
    #[serde(default)]
    pub features: Vec<String>,
}

#[derive(Debug, Drop, PartialEq, Serialize, Deserialize)]
pub struct Workspace {
    pub members: Vec<String>,
}

// ---- a pyproject.toml

#[derive(Debug, Drop, PartialEq, Serialize, Deserialize)]
#[serde(rename_all = "kebab-case")]
pub struct Project<'a> {
    #[serde(borrow)]
    pub build_system: BuildSystem<'a>,
    pub project: Metadata,
    pub tool: Option<Tools>,
}

#[derive(Debug, Drop, PartialEq, Serialize, Deserialize)]
#[serde(rename_all = "kebab-case")]
pub struct BuildSystem<'a> {
    #[serde(borrow, rename = "requires")]
    pub needs: Vec<&'a str>,
    pub build_backend: Option<&'a str>,
}

#[derive(Debug, Drop, PartialEq, Serialize, Deserialize)]
#[serde(rename_all = "kebab-case")]
pub struct Metadata {
    pub name: String,
    pub version: Option<String>,
    pub requires_python: Option<String>,
    #[serde(flatten)]
    pub people: People,
    pub readme: Option<Readme>,
    pub urls: Option<BTreeMap<String, String>>,
}

#[derive(Debug, Drop, PartialEq, Serialize, Deserialize)]
pub struct People {
    pub authors: Option<Vec<Person>>,
    pub maintainers: Option<Vec<Person>>,
}

#[derive(Debug, Drop, PartialEq, Serialize, Deserialize)]
pub struct Person {
    pub name: String,
    pub email: Option<String>,
}

#[derive(Debug, Drop, PartialEq, Serialize, Deserialize)]
#[serde(untagged)]
pub enum Readme {
    Path(String),
    File {
        file: String,
        #[serde(rename = "content-type")]
        content_type: Option<String>,
    },
}

#[derive(Debug, Drop, PartialEq, Serialize, Deserialize)]
pub struct Tools {
    pub black: Option<Black>,
    #[serde(default)]
    pub steps: Vec<Step>,
}

#[derive(Debug, Drop, PartialEq, Serialize, Deserialize)]
#[serde(rename_all = "kebab-case")]
pub struct Black {
    pub line_length: u16,
    #[serde(default)]
    pub target_version: Vec<String>,
    pub ratio: Option<f64>,
}

#[derive(Debug, Drop, PartialEq, Serialize, Deserialize)]
#[serde(tag = "kind", rename_all = "snake_case")]
pub enum Step {
    Run { command: String, times: u8 },
    Wait { seconds: f64 },
    Stop,
}

// ---- small types

/// One field, of any type.
#[derive(Debug, Drop, PartialEq, Serialize, Deserialize)]
pub struct At<T> {
    pub at: T,
}

/// Any type under an option, which is left out where it is not there.
#[derive(Debug, Drop, PartialEq, Serialize, Deserialize)]
pub struct Maybe<T> {
    pub at: Option<T>,
    pub last: bool,
}

/// Four forms of variants.
#[derive(Debug, Drop, PartialEq, Serialize, Deserialize)]
pub enum Shape {
    Dot,
    Circle(f64),
    Line(u8, u8),
    Rect { w: u8, h: u8 },
}

#[derive(Debug, Drop, PartialEq, Serialize, Deserialize)]
#[serde(deny_unknown_fields)]
pub struct Point {
    pub x: i8,
    pub y: i8,
}

#[derive(Debug, Drop, PartialEq, Serialize, Deserialize)]
#[serde(tag = "t", content = "c")]
pub enum Adjacent {
    A(u8),
    B { x: u8 },
    C(u8, bool),
    D,
}

#[derive(Debug, Drop, PartialEq, Serialize, Deserialize)]
#[serde(untagged)]
pub enum Either {
    Number(u8),
    Truth(bool),
    Pair(u8, bool),
    Point(Point),
}

#[derive(Debug, Drop, PartialEq, Serialize, Deserialize)]
pub struct Celsius(pub f64);

#[derive(Debug, Drop, PartialEq, Serialize, Deserialize)]
pub struct Pair(pub i64, pub String);

/// A field by two names.
#[derive(Debug, Drop, PartialEq, Serialize, Deserialize)]
pub struct Renamed {
    #[serde(alias = "colour")]
    pub color: String,
}

/// Two fields, each by two names.
#[derive(Debug, Drop, PartialEq, Serialize, Deserialize)]
#[serde(deny_unknown_fields)]
pub struct Aliased {
    #[serde(alias = "b")]
    pub z: u8,
    #[serde(alias = "y")]
    pub a: u8,
}

/// A type that holds itself.
#[derive(Debug, Drop, PartialEq, Serialize, Deserialize)]
#[serde(recursive)]
pub struct Nest {
    #[serde(recursive)]
    pub a: Option<Box<Nest>>,
}

#[derive(Debug, Drop, PartialEq, Serialize, Deserialize)]
#[serde(recursive)]
pub struct Branches {
    #[serde(recursive)]
    pub a: Vec<Branches>,
}
