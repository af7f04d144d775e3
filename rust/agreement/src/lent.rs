//! Areas lent to a call.

use std::fmt::Debug;

/// Entries on either side of a lent area, which no call may reach.
const MARGIN: usize = 16;

/// What an area is made of.
pub trait Entry: Copy + PartialEq + Debug {
    /// What the margins hold.
    const BESIDE: Self;
}

impl Entry for u8 {
    const BESIDE: u8 = 0xa5;
}

impl Entry for u16 {
    const BESIDE: u16 = 0xa5c3;
}

impl Entry for u64 {
    const BESIDE: u64 = 0xa5c3_96e1_78d2_b40f;
}

/// Lends a copy of the area to a call, and gives the call's answer and the area after it. Fails if
/// the call wrote beside it.
pub fn lent<E: Entry, T>(area: &[E], call: impl FnOnce(&mut [E]) -> T) -> (T, Vec<E>) {
    let margin = [E::BESIDE; MARGIN];
    let mut memory = [&margin, area, &margin].concat();
    let answer = call(&mut memory[MARGIN..MARGIN + area.len()]);

    let after = memory.split_off(MARGIN + area.len());
    assert_eq!(after, margin, "written past the area");
    let area = memory.split_off(MARGIN);
    assert_eq!(memory, margin, "written before the area");
    (answer, area)
}
