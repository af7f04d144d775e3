//! A file as its table of contents and its bodies, each field free to be set wrong.

/// An entry of the table of contents.
#[derive(Debug, Clone, Copy)]
pub struct Entry {
    /// The body's tag.
    pub tag: u16,
    /// Where the body starts.
    pub start: u32,
    /// How many bytes it has.
    pub length: u32,
}

/// A file laid open. The bodies are written one after the other, whatever the entries say.
#[derive(Debug, Clone)]
pub struct Layout {
    /// The entry count as written.
    pub entry_count: u16,
    /// The entries as written.
    pub entries: Vec<Entry>,
    /// The bodies as written.
    pub bodies: Vec<Vec<u8>>,
}

impl Layout {
    /// The layout of these bodies under these tags, with a table that fits.
    pub fn new(bodies: Vec<(u16, Vec<u8>)>) -> Layout {
        let entry = |tag| Entry { tag, start: 0, length: 0 };
        Layout {
            entry_count: bodies.len() as u16,
            entries: bodies.iter().map(|(tag, _)| entry(*tag)).collect(),
            bodies: bodies.into_iter().map(|(_, body)| body).collect(),
        }
        .fitted()
    }

    /// The same with every start and length as the bodies have them.
    pub fn fitted(mut self) -> Layout {
        let mut end = 2 + 10 * self.entries.len();
        for (entry, body) in self.entries.iter_mut().zip(&self.bodies) {
            entry.start = end as u32;
            entry.length = body.len() as u32;
            end += body.len();
        }
        self
    }

    /// The same with a field or more changed.
    pub fn changed(mut self, change: impl FnOnce(&mut Layout)) -> Layout {
        change(&mut self);
        self
    }

    /// The same with a body of another length, filled up with zeros, and a table that fits.
    pub fn resized(mut self, body: usize, length: usize) -> Layout {
        self.bodies[body].resize(length, 0);
        self.fitted()
    }

    /// The same with a byte that is in no body before this one.
    pub fn with_gap(mut self, body: usize) -> Layout {
        self.bodies.insert(body, vec![0]);
        for entry in &mut self.entries[body..] {
            entry.start += 1;
        }
        self
    }

    /// The same with this body starting so many bytes before the end of the one before.
    pub fn with_overlap(mut self, body: usize, bytes: usize) -> Layout {
        self.bodies[body].drain(..bytes);
        for entry in &mut self.entries[body..] {
            entry.start -= bytes as u32;
        }
        self
    }

    /// The same with another length for a body, and the next one's start and length fitted to it in
    /// 32 bits.
    pub fn with_length_fitted(mut self, body: usize, length: u32) -> Layout {
        let file_length = self.bytes().len() as u32;
        let next_end = self.entries.get(body + 2).map_or(file_length, |entry| entry.start);
        self.entries[body].length = length;
        let start = self.entries[body].start.wrapping_add(length);
        self.entries[body + 1].start = start;
        self.entries[body + 1].length = next_end.wrapping_sub(start);
        self
    }

    /// The file.
    pub fn bytes(&self) -> Vec<u8> {
        let mut file = self.entry_count.to_le_bytes().to_vec();
        for entry in &self.entries {
            file.extend(entry.tag.to_le_bytes());
            file.extend(entry.start.to_le_bytes());
            file.extend(entry.length.to_le_bytes());
        }
        file.extend(self.bodies.concat());
        file
    }
}
