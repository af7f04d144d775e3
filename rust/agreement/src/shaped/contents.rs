//! What the two formats share: files that are wrong in their table of contents, in where their
//! bodies lie, in the length of their head, or in n and m.

use std::collections::BTreeSet;

use super::{accepted, refused, Shaped};
use crate::layout::{Entry, Layout};

/// What there is to know of a format for these files.
pub(super) struct Format {
    /// The whole case of 01.
    pub whole_case: &'static [u8],
    /// The same laid open.
    pub layout: fn() -> Layout,
    /// What reading it gives: n, m, w, and the number of nodes or gates.
    pub numbers: [usize; 4],
    /// The length of the table of contents.
    pub table: usize,
    /// The length of a node or a gate.
    pub record: usize,
    /// The whole case of the other format.
    pub other: &'static [u8],
    /// A file with every cause from 3 on.
    pub bad_from_3: fn() -> Layout,
    /// A file of one node or gate with these n, m and w.
    pub with_numbers: fn(u16, u16, u16) -> Vec<u8>,
    /// Each w that n and m are tried with: 0 for a program, which has none.
    pub work: &'static [u16],
}

impl Format {
    /// The whole case with its layout changed.
    fn laid(&self, change: impl FnOnce(&mut Layout)) -> Vec<u8> {
        (self.layout)().changed(change).bytes()
    }

    /// The bodies of the whole case under their tags.
    fn bodies(&self) -> Vec<(u16, Vec<u8>)> {
        let Layout { entries, bodies, .. } = (self.layout)();
        entries.iter().map(|entry| entry.tag).zip(bodies).collect()
    }

    /// The entries of the whole case, each with its index.
    fn entries(&self) -> impl Iterator<Item = (usize, Entry)> {
        (self.layout)().entries.into_iter().enumerate()
    }

    /// The whole case with an entry changed, which then does not fit its neighbours or the file.
    fn with_entry(&self, i: usize, name: &str, change: impl FnOnce(&mut Entry)) -> Shaped {
        let file = self.laid(|l| change(&mut l.entries[i]));
        refused(format!("{} {name}", PLACES[i]), file, 2, 0)
    }
}

/// The places of entries and bodies, for names.
const PLACES: [&str; 3] = ["first", "second", "third"];

/// Every such file of a format.
pub(super) fn all(format: &Format) -> Vec<Shaped> {
    let groups: [fn(&Format) -> Vec<Shaped>; 11] = [
        tables_cut_short,
        entry_counts,
        tags,
        starts,
        lengths,
        bodies_apart,
        bodies_in_another_order,
        sums_past_32_bits,
        head_lengths,
        ranges,
        causes_together,
    ];
    groups.iter().flat_map(|group| group(format)).collect()
}

/// These numbers without the right one, each once.
fn wrong<T: Copy + Ord>(right: T, numbers: &[T]) -> BTreeSet<T> {
    numbers.iter().copied().filter(|number| *number != right).collect()
}

/// The whole case, whatever it can be cut to, and tables with nothing behind them.
fn tables_cut_short(format: &Format) -> Vec<Shaped> {
    let cut = |length: usize, number| {
        let file = format.whole_case[..length].to_vec();
        refused(format!("the whole case cut to {length} bytes"), file, number, 0)
    };
    let length = format.whole_case.len();
    let empty = format.bodies().into_iter().map(|(tag, _)| (tag, vec![])).collect();

    let mut files = vec![
        accepted("the whole case", format.whole_case.to_vec(), format.numbers),
        refused("a table of empty bodies", Layout::new(empty).bytes(), 3, 0),
        refused("zeros as long as the table", vec![0; format.table], 1, 0),
        refused("255s as long as the whole case", vec![255; length], 1, 0),
        refused("a file of the other format", format.other.to_vec(), 1, 0),
    ];
    files.extend((0..format.table).map(|length| cut(length, 1)));
    files.extend((format.table..length).map(|length| cut(length, 2)));
    files
}

fn entry_counts(format: &Format) -> Vec<Shaped> {
    let bodies = format.bodies();
    let count = bodies.len() as u16;
    let last_tag = bodies[bodies.len() - 1].0;
    let first_missing = bodies[1..].to_vec();
    let last_missing = bodies[..bodies.len() - 1].to_vec();
    let one_more = [bodies, vec![(last_tag + 1, vec![])]].concat();

    let mut files = vec![
        refused("no entry at all", Layout::new(vec![]).bytes(), 1, 0),
        refused("the first entry and body missing", Layout::new(first_missing).bytes(), 1, 0),
        refused("the last entry and body missing", Layout::new(last_missing).bytes(), 1, 0),
        refused("an entry more, of an empty body", Layout::new(one_more).bytes(), 1, 0),
    ];
    // The right one in the low byte and in the high one.
    for number in wrong(count, &[0, 1, 2, 3, 4, count + 256, count << 8, 65535]) {
        let file = format.laid(|l| l.entry_count = number);
        files.push(refused(format!("entry count {number}"), file, 1, 0));
    }
    files
}

fn tags(format: &Format) -> Vec<Shaped> {
    let mut files = Vec::new();
    for (i, Entry { tag, .. }) in format.entries() {
        // Those of both formats, what is beside them, and the right one in the low byte.
        for tag in wrong(tag, &[0, 1, 2, 3, 4, 16, 17, 18, 19, tag + 256, 65535]) {
            files.push(format.with_entry(i, &format!("tag {tag}"), |entry| entry.tag = tag));
        }
    }
    files
}

fn starts(format: &Format) -> Vec<Shaped> {
    let table = format.table as u32;
    let mut files = Vec::new();
    for (i, Entry { start, .. }) in format.entries() {
        // The start of the first body, and the right one in the low bytes.
        for start in wrong(start, &[0, table, start - 1, start + 1, start + 65536, u32::MAX]) {
            let name = format!("start {start}");
            files.push(format.with_entry(i, &name, |entry| entry.start = start));
        }
    }
    files
}

/// Lengths that move an end.
fn lengths(format: &Format) -> Vec<Shaped> {
    let record = format.record as u32;
    let mut files = Vec::new();
    for (i, Entry { length, .. }) in format.entries() {
        let (shorter, longer) = (length.saturating_sub(record), length + record);
        let lengths = [0, shorter, length - 1, length + 1, longer, length + 65536];
        for length in wrong(length, &lengths) {
            let name = format!("length {length}");
            files.push(format.with_entry(i, &name, |entry| entry.length = length));
        }
    }
    files
}

/// Bodies that are not side by side.
fn bodies_apart(format: &Format) -> Vec<Shaped> {
    let overlap = |body, bytes| (format.layout)().with_overlap(body, bytes).bytes();
    let same = |body: usize| {
        let mut layout = (format.layout)().resized(body, 0);
        let before = layout.entries[body - 1];
        layout.entries[body] = Entry { tag: layout.entries[body].tag, ..before };
        layout.bytes()
    };
    let behind = |bytes: usize| format.laid(|l| l.bodies.push(vec![0; bytes]));

    let mut files = vec![
        refused("a byte at the end", behind(1), 2, 0),
        refused("a node or gate of zeros at the end", behind(format.record), 2, 0),
    ];
    for (i, _) in format.entries() {
        let gap = (format.layout)().with_gap(i).bytes();
        files.push(refused(format!("a gap before the {} body", PLACES[i]), gap, 2, 0));
    }
    for (i, _) in format.entries().skip(1) {
        // Read so, some would be in order: by a byte, the program's nodes would be ZERO, INPUT 1
        // and AND 0 1, or its output 0.
        let name = |what: &str| format!("a {} body that {what}", PLACES[i]);
        files.extend([
            refused(name("overlaps the one before by a byte"), overlap(i, 1), 2, 0),
            refused(name("overlaps the one before by 2 bytes"), overlap(i, 2), 2, 0),
            refused(name("is the one before"), same(i), 2, 0),
        ]);
    }
    files
}

fn bodies_in_another_order(format: &Format) -> Vec<Shaped> {
    let mut files = Vec::new();
    for (i, _) in format.entries().skip(1) {
        let mut bodies = format.bodies();
        bodies.swap(i - 1, i);
        let entries_too = Layout::new(bodies);
        let own_place = entries_too.clone().changed(|l| l.entries.swap(i - 1, i));
        let name = |what: &str| format!("the {} body first, {what}", PLACES[i]);
        files.extend([
            refused(name("its entry too"), entries_too.bytes(), 2, 0),
            refused(name("each entry pointing to its own"), own_place.bytes(), 2, 0),
        ]);
    }
    files
}

/// Ends about 2^32. All but the last fit if sums are taken in 32 bits.
fn sums_past_32_bits(format: &Format) -> Vec<Shaped> {
    let mut entries: Vec<(usize, Entry)> = format.entries().collect();
    let (last, _) = entries.pop().expect("a format has bodies");
    let mut files = Vec::new();
    for (i, Entry { start, .. }) in entries {
        let up_to_2_32 = start.wrapping_neg();
        for length in [u32::MAX, u32::MAX - 1, 0x8000_0000, up_to_2_32] {
            let name = format!("{} length {length}, fitted in 32 bits", PLACES[i]);
            let file = (format.layout)().with_length_fitted(i, length).bytes();
            files.push(refused(name, file, 2, 0));
        }
    }
    let below_2_32 = |entry: &mut Entry| entry.length = u32::MAX - entry.start;
    files.push(format.with_entry(last, "body that ends at 2^32 - 1", below_2_32));
    files
}

fn head_lengths(format: &Format) -> Vec<Shaped> {
    let head = |length: usize| (format.layout)().resized(0, length).bytes();
    let right = (format.layout)().bodies[0].len();
    let lengths: Vec<usize> = (0..=16).collect();
    wrong(right, &lengths)
        .into_iter()
        .map(|length| refused(format!("head of {length} bytes"), head(length), 3, 0))
        .collect()
}

fn ranges(format: &Format) -> Vec<Shaped> {
    let mut files = Vec::new();
    for w in format.work.iter().copied() {
        let name = |n: u16, m: u16| format!("n {n}, m {m}, w {w}");
        for (n, m) in [(0, 1), (1, 1), (2, 1), (64, 1), (0, 64), (2, 64), (64, 64)] {
            let numbers = [n, m, w, 1].map(usize::from);
            files.push(accepted(name(n, m), (format.with_numbers)(n, m, w), numbers));
        }
        // 64 is in the low byte of 320, and 1 in that of 257.
        let bad_n = [65, 256, 320, 65535].map(|n| (n, 1));
        let bad_m = |n| [0, 65, 256, 257, 65535].map(|m| (n, m));
        for (n, m) in [&bad_n[..], &bad_m(0), &bad_m(2), &[(65, 0)]].concat() {
            files.push(refused(name(n, m), (format.with_numbers)(n, m, w), 4, 0));
        }
    }
    files
}

/// The lowest number is given.
fn causes_together(format: &Format) -> Vec<Shaped> {
    let from_3 = (format.bad_from_3)();
    let last = from_3.entries.len() - 1;
    let from_2 = from_3.clone().changed(|l| l.entries[last].tag += 1);
    let from_1 = from_2.clone().changed(|l| l.entry_count += 1);
    vec![
        refused("every cause from 1 on", from_1.bytes(), 1, 0),
        refused("every cause from 2 on", from_2.bytes(), 2, 0),
        refused("every cause from 3 on", from_3.bytes(), 3, 0),
    ]
}
