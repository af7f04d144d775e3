//! The table of contents that opens a file: causes 1 and 2.

use crate::{put_u16, u16_at, u32_at, Refusal};

/// Cuts a file into its bodies, one for each tag.
pub(crate) fn bodies<const N: usize>(file: &[u8], tags: [u16; N]) -> Result<[&[u8]; N], Refusal> {
    let table_length = 2 + 10 * N;

    // 1: entry count missing, wrong entry count, table cut short
    if file.len() < 2 {
        return Err(Refusal::of(1));
    }
    if usize::from(u16_at(file, 0)) != N {
        return Err(Refusal::of(1));
    }
    if file.len() < table_length {
        return Err(Refusal::of(1));
    }

    // 2: wrong tag, start or end
    let mut end = table_length as u64;
    let mut ranges = [(0, 0); N];
    for (i, entry) in file[2..table_length].chunks_exact(10).enumerate() {
        let tag = u16_at(entry, 0);
        let start = u64::from(u32_at(entry, 2));
        let length = u64::from(u32_at(entry, 6));
        if tag != tags[i] {
            return Err(Refusal::of(2));
        }
        if start != end {
            return Err(Refusal::of(2));
        }
        end = start + length;
        ranges[i] = (start, end);
    }
    if end != file.len() as u64 {
        return Err(Refusal::of(2));
    }

    // The ranges follow one another up to the end of the file, so each lies within it.
    Ok(ranges.map(|(start, end)| &file[start as usize..end as usize]))
}

/// Writes an entry.
pub(crate) fn put_entry(file: &mut Vec<u8>, tag: usize, start: usize, length: usize) {
    put_u16(file, tag);
    file.extend((start as u32).to_le_bytes());
    file.extend((length as u32).to_le_bytes());
}
