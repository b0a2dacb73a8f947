//! The same records, read and written by hand. (Rattle; what they read and write is stated nowhere, so no proof is meant.)
use basic_toml::{
    Deserialize, Error, Node, Serialize, Serializer, Tree, WriteError, read_field, read_optional,
};
use std::alloc::Global;

#[derive(Drop)]
pub struct HandDocument {
    pub rec: Vec<HandRecord>,
}

#[derive(Drop)]
pub struct HandRecord {
    pub id: u32,
    pub name: String,
    pub on: bool,
    pub size: i64,
    pub note: Option<String>,
    pub tags: Vec<String>,
}

impl<'de> Deserialize<'de> for HandDocument {
    ghost use Rattle.std.specs.Prelude.{⊤};

    ghost reads = { λ _ _. ⊤ };

    fn deserialize(alloc: Global, node: Node<'_, 'de>) -> Result<HandDocument, Error> {
        Ok(HandDocument {
            rec: read_field(alloc, node, "rec")?,
        })
    }

    fn from_tree(alloc: Global, tree: Tree<'de>) -> Result<HandDocument, Error> {
        HandDocument::deserialize(alloc, tree.root())
    }
}

impl<'de> Deserialize<'de> for HandRecord {
    ghost use Rattle.std.specs.Prelude.{⊤};

    ghost reads = { λ _ _. ⊤ };

    fn deserialize(alloc: Global, node: Node<'_, 'de>) -> Result<HandRecord, Error> {
        Ok(HandRecord {
            id: read_field(alloc, node, "id")?,
            name: read_field(alloc, node, "name")?,
            on: read_field(alloc, node, "on")?,
            size: read_field(alloc, node, "size")?,
            note: read_optional(alloc, node, "note")?,
            tags: read_field(alloc, node, "tags")?,
        })
    }

    fn from_tree(alloc: Global, tree: Tree<'de>) -> Result<HandRecord, Error> {
        HandRecord::deserialize(alloc, tree.root())
    }
}

impl Serialize for HandDocument {
    ghost use Rattle.std.specs.Prelude.{[]};

    ghost calls = { λ _. [] };

    fn serialize(&self, _alloc: Global, ser: &mut Serializer) -> Result<(), WriteError> {
        ser.serialize_struct("Document", 1)?;
        ser.serialize_field("rec", &self.rec)?;
        ser.end()
    }
}

impl Serialize for HandRecord {
    ghost use Rattle.std.specs.Prelude.{[]};

    ghost calls = { λ _. [] };

    fn serialize(&self, _alloc: Global, ser: &mut Serializer) -> Result<(), WriteError> {
        ser.serialize_struct("Record", 6)?;
        ser.serialize_field("id", &self.id)?;
        ser.serialize_field("name", &self.name)?;
        ser.serialize_field("on", &self.on)?;
        ser.serialize_field("size", &self.size)?;
        ser.serialize_field("note", &self.note)?;
        ser.serialize_field("tags", &self.tags)?;
        ser.end()
    }
}
