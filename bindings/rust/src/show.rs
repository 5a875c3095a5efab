//! How rows are displayed by `Debug`: names as text, other bytes by their number.

use crate::row::{Block, Bytes, Entry, Relocation, Symbol, Unit};
use std::fmt;

/// Bytes in `Debug`: a name as text.
struct Name<'a>(&'a [u8]);

impl fmt::Debug for Name<'_> {
    fn fmt(&self, f: &mut fmt::Formatter<'_>) -> fmt::Result {
        write!(f, "b\"{}\"", self.0.escape_ascii())
    }
}

impl fmt::Debug for Bytes<'_> {
    fn fmt(&self, f: &mut fmt::Formatter<'_>) -> fmt::Result {
        write!(f, "{} bytes", self.0.len())
    }
}

impl fmt::Debug for Unit<'_> {
    fn fmt(&self, f: &mut fmt::Formatter<'_>) -> fmt::Result {
        let mut out = f.debug_struct("Unit");
        out.field("place", &self.place).field("name", &Name(self.name)).field("hunks", &self.hunks).finish()
    }
}

impl fmt::Debug for Block<'_> {
    fn fmt(&self, f: &mut fmt::Formatter<'_>) -> fmt::Result {
        let mut out = f.debug_struct("Block");
        out.field("place", &self.place).field("bytes", &Bytes(self.bytes)).field("unit", &self.unit);
        out.field("hunk", &self.hunk).field("kind", &self.kind).field("flags", &self.flags);
        out.field("content", &Bytes(self.content)).field("memory", &self.memory).field("items", &self.items).finish()
    }
}

impl fmt::Debug for Symbol<'_> {
    fn fmt(&self, f: &mut fmt::Formatter<'_>) -> fmt::Result {
        let mut out = f.debug_struct("Symbol");
        out.field("place", &self.place).field("unit", &self.unit).field("hunk", &self.hunk);
        out.field("value", &self.value).field("name", &Name(self.name)).finish()
    }
}

impl fmt::Debug for Relocation {
    fn fmt(&self, f: &mut fmt::Formatter<'_>) -> fmt::Result {
        let mut out = f.debug_struct("Relocation");
        out.field("place", &self.place).field("unit", &self.unit).field("hunk", &self.hunk).field("kind", &self.kind);
        out.field("width", &self.width).field("target", &self.target).field("offset", &self.offset).finish()
    }
}

impl fmt::Debug for Entry<'_> {
    fn fmt(&self, f: &mut fmt::Formatter<'_>) -> fmt::Result {
        let mut out = f.debug_struct("Entry");
        out.field("place", &self.place).field("unit", &self.unit).field("hunk", &self.hunk).field("kind", &self.kind);
        out.field("value", &self.value).field("name", &Name(self.name)).finish()
    }
}
