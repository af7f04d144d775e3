//! Damage that does not depend on what a file's bodies hold.

use crate::layout::{Entry, Layout};
use crate::random::Random;

/// The file damaged in one of the ways below. The record is the length of a node or a gate.
pub fn in_some_way(random: &mut Random, layout: Layout, record: usize) -> Vec<u8> {
    let (table, head_end) = (layout.entries[0].start as usize, layout.entries[1].start as usize);
    match random.below(8) {
        0 => with_table_damaged(random, layout),
        1 => with_bodies_resized(random, layout, record),
        2 => with_bodies_swapped(random, layout),
        3 => with_a_byte_changed(random, layout.bytes(), head_end),
        4 => cut_short(random, layout.bytes(), table),
        5 => lengthened(random, layout.bytes()),
        6 => with_sums_past_32_bits(random, layout),
        _ => noise(random, layout.entry_count),
    }
}

/// The file with its entry count, a tag, a start or a length changed.
fn with_table_damaged(random: &mut Random, mut layout: Layout) -> Vec<u8> {
    let count = layout.entry_count;
    if random.once_in(6) {
        layout.entry_count = random.pick(&[0, 1, count - 1, count + 1, count + 256, 65535]);
        return layout.bytes();
    }
    let i = random.below(layout.entries.len());
    let entry = &mut layout.entries[i];
    match random.below(3) {
        0 => entry.tag = random.pick(&[0, 1, 2, 3, 4, 16, 17, 18, 19, 257, 273, 65535]),
        1 => entry.start = near(random, entry.start),
        _ => entry.length = near(random, entry.length),
    }
    layout.bytes()
}

fn near(random: &mut Random, number: u32) -> u32 {
    let step = random.within(1..=8) as u32;
    let any = random.number() as u32;
    random.pick(&[
        number.wrapping_add(step),
        number.wrapping_sub(step),
        number ^ 0x8000_0000,
        number | 0xffff_0000,
        any,
    ])
}

/// The file with a length near 2^32, and the next body fitted to it in 32 bits.
fn with_sums_past_32_bits(random: &mut Random, layout: Layout) -> Vec<u8> {
    let body = random.below(layout.entries.len() - 1);
    let back = random.within(1..=32) as u32;
    layout.with_length_fitted(body, back.wrapping_neg()).bytes()
}

/// The file with a body longer or shorter, at its neighbour's cost or not, and a table that fits.
fn with_bodies_resized(random: &mut Random, mut layout: Layout, record: usize) -> Vec<u8> {
    let i = random.below(layout.bodies.len());
    let step = random.pick(&[1, 2, 3, record, 2 * record]);
    let length = layout.bodies[i].len();
    match random.below(3) {
        0 => layout.bodies[i].truncate(length.saturating_sub(step)),
        1 => layout.bodies[i].resize(length + step, 0),
        _ => {
            let moved = layout.bodies[i].split_off(length.saturating_sub(step));
            let after = (i + 1) % layout.bodies.len();
            let next = &mut layout.bodies[after];
            *next = [moved, next.clone()].concat();
        }
    }
    layout.fitted().bytes()
}

/// The file with two bodies swapped, and the table as it was, fitted, or swapped as well.
fn with_bodies_swapped(random: &mut Random, mut layout: Layout) -> Vec<u8> {
    let count = layout.bodies.len();
    let i = random.below(count);
    let j = (i + random.within(1..=count - 1)) % count;
    layout.bodies.swap(i, j);
    match random.below(4) {
        0 => layout,
        1 => layout.fitted(),
        2 => {
            layout.entries.swap(i, j);
            layout.fitted()
        }
        _ => {
            // Each entry under its own tag points to where its body now is.
            layout.entries.swap(i, j);
            let mut layout = layout.fitted();
            layout.entries.sort_by_key(|entry: &Entry| entry.tag);
            layout
        }
    }
    .bytes()
}

/// Every file that differs from this one in at most one byte.
pub fn each_byte_changed(file: &[u8]) -> impl Iterator<Item = Vec<u8>> + '_ {
    (0..file.len()).flat_map(move |at| {
        (0..=255).map(move |byte| {
            let mut changed = file.to_vec();
            changed[at] = byte;
            changed
        })
    })
}

/// The file with one byte changed, every other time one of the first few.
pub fn with_a_byte_changed(random: &mut Random, mut file: Vec<u8>, first: usize) -> Vec<u8> {
    let reach = random.pick(&[first, file.len()]);
    let at = random.below(reach);
    file[at] ^= random.within(1..=255) as u8;
    file
}

/// The file cut short: anywhere, near its table, or by a byte.
pub fn cut_short(random: &mut Random, mut file: Vec<u8>, table: usize) -> Vec<u8> {
    let any = random.below(file.len());
    let left = random.pick(&[any, any % (table + 1), file.len() - 1]);
    file.truncate(left);
    file
}

/// The file with a few bytes more.
pub fn lengthened(random: &mut Random, file: Vec<u8>) -> Vec<u8> {
    let added = random.within(1..=8);
    [file, random.bytes(added)].concat()
}

/// Bytes that are no file, every other time with this entry count.
fn noise(random: &mut Random, entry_count: u16) -> Vec<u8> {
    let length = random.within(0..=100);
    let mut file = random.bytes(length);
    if length >= 2 && random.once_in(2) {
        file[..2].copy_from_slice(&entry_count.to_le_bytes());
    }
    file
}
