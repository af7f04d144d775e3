//! The functions of `liboracle.a`, and the only unsafe code: each call lends its slices as pointer
//! and length.

#![allow(unsafe_code)]

/// What every function of the archive but the readers returns: the number 0 and a result's value,
/// or a refusal's number and place.
#[derive(Debug, PartialEq, Eq)]
#[repr(C)]
pub struct Answer {
    pub number: u64,
    pub value: u64,
}

/// What the two readers return: the same, and the numbers of inputs, outputs and work lines. All
/// three are 0 for a refusal, and `work` is 0 for a program.
#[derive(Debug, PartialEq, Eq)]
#[repr(C)]
pub struct Head {
    pub number: u64,
    pub value: u64,
    pub inputs: u64,
    pub outputs: u64,
    pub work: u64,
}

impl Head {
    /// The number and the value.
    pub fn answer(&self) -> Answer {
        Answer { number: self.number, value: self.value }
    }
}

mod c {
    use super::{Answer, Head};

    extern "C" {
        pub fn oracle_parse(
            text: *const u8,
            text_len: usize,
            inputs: u64,
            area: *mut u8,
            area_len: usize,
        ) -> Answer;

        pub fn oracle_read_program(file: *const u8, file_len: usize) -> Head;

        pub fn oracle_evaluate(
            file: *const u8,
            file_len: usize,
            values: *mut u8,
            values_len: usize,
            inputs: *const u8,
            inputs_len: usize,
            output: u64,
        ) -> Answer;

        pub fn oracle_evaluate_words(
            file: *const u8,
            file_len: usize,
            values: *mut u64,
            values_len: usize,
            inputs: *const u64,
            inputs_len: usize,
            output: u64,
        ) -> Answer;

        pub fn oracle_compile(
            file: *const u8,
            file_len: usize,
            grant: u64,
            sizes: *mut u16,
            sizes_len: usize,
            area: *mut u8,
            area_len: usize,
        ) -> Answer;

        pub fn oracle_quote(
            file: *const u8,
            file_len: usize,
            counts: *mut u64,
            counts_len: usize,
            answers: *mut u64,
            answers_len: usize,
        ) -> Answer;

        pub fn oracle_read_circuit(file: *const u8, file_len: usize) -> Head;

        pub fn oracle_run_forwards(
            file: *const u8,
            file_len: usize,
            lines: *mut u8,
            lines_len: usize,
        ) -> Answer;

        pub fn oracle_run_backwards(
            file: *const u8,
            file_len: usize,
            lines: *mut u8,
            lines_len: usize,
        ) -> Answer;

        pub fn oracle_undo(
            file: *const u8,
            file_len: usize,
            choices: *const u8,
            choices_len: usize,
            area: *mut u8,
            area_len: usize,
        ) -> Answer;
    }
}

// SAFETY, for every call below: each pointer and length come from one slice that is borrowed until
// the call returns, so they name valid memory, writable where the slice is `&mut`, and no writable
// area overlaps another. The archive accepts any content and any length, and keeps no pointer.

pub fn parse(text: &[u8], inputs: u64, area: &mut [u8]) -> Answer {
    // SAFETY: see above.
    unsafe { c::oracle_parse(text.as_ptr(), text.len(), inputs, area.as_mut_ptr(), area.len()) }
}

pub fn read_program(file: &[u8]) -> Head {
    // SAFETY: see above.
    unsafe { c::oracle_read_program(file.as_ptr(), file.len()) }
}

pub fn evaluate(file: &[u8], values: &mut [u8], inputs: &[u8], output: u64) -> Answer {
    // SAFETY: see above.
    unsafe {
        c::oracle_evaluate(
            file.as_ptr(),
            file.len(),
            values.as_mut_ptr(),
            values.len(),
            inputs.as_ptr(),
            inputs.len(),
            output,
        )
    }
}

pub fn evaluate_words(file: &[u8], values: &mut [u64], inputs: &[u64], output: u64) -> Answer {
    // SAFETY: see above.
    unsafe {
        c::oracle_evaluate_words(
            file.as_ptr(),
            file.len(),
            values.as_mut_ptr(),
            values.len(),
            inputs.as_ptr(),
            inputs.len(),
            output,
        )
    }
}

pub fn compile(file: &[u8], grant: u64, sizes: &mut [u16], area: &mut [u8]) -> Answer {
    // SAFETY: see above.
    unsafe {
        c::oracle_compile(
            file.as_ptr(),
            file.len(),
            grant,
            sizes.as_mut_ptr(),
            sizes.len(),
            area.as_mut_ptr(),
            area.len(),
        )
    }
}

pub fn quote(file: &[u8], counts: &mut [u64], answers: &mut [u64]) -> Answer {
    // SAFETY: see above.
    unsafe {
        c::oracle_quote(
            file.as_ptr(),
            file.len(),
            counts.as_mut_ptr(),
            counts.len(),
            answers.as_mut_ptr(),
            answers.len(),
        )
    }
}

pub fn read_circuit(file: &[u8]) -> Head {
    // SAFETY: see above.
    unsafe { c::oracle_read_circuit(file.as_ptr(), file.len()) }
}

pub fn run_forwards(file: &[u8], lines: &mut [u8]) -> Answer {
    // SAFETY: see above.
    unsafe { c::oracle_run_forwards(file.as_ptr(), file.len(), lines.as_mut_ptr(), lines.len()) }
}

pub fn run_backwards(file: &[u8], lines: &mut [u8]) -> Answer {
    // SAFETY: see above.
    unsafe { c::oracle_run_backwards(file.as_ptr(), file.len(), lines.as_mut_ptr(), lines.len()) }
}

pub fn undo(file: &[u8], choices: &[u8], area: &mut [u8]) -> Answer {
    // SAFETY: see above.
    unsafe {
        c::oracle_undo(
            file.as_ptr(),
            file.len(),
            choices.as_ptr(),
            choices.len(),
            area.as_mut_ptr(),
            area.len(),
        )
    }
}

#[cfg(test)]
mod tests {
    use super::*;

    /// n = 2, nodes INPUT 0, INPUT 1, AND 0 1, output 2.
    const AND: [u8; 56] = [
        3, 0, 1, 0, 32, 0, 0, 0, 4, 0, 0, 0, 2, 0, 36, 0, 0, 0, 18, 0, 0, 0, 3, 0, 54, 0, 0, 0, 2,
        0, 0, 0, 2, 0, 1, 0, 2, 0, 0, 0, 0, 0, 2, 0, 1, 0, 0, 0, 5, 0, 0, 0, 1, 0, 2, 0,
    ];

    /// n = 2, nodes INPUT 0, INPUT 1, NOT 0, NOT 1, AND 2 3, output 4. Its share has 9 gates, 1 of
    /// them a Toffoli, and 2 work lines.
    const NOR: [u8; 68] = [
        3, 0, 1, 0, 32, 0, 0, 0, 4, 0, 0, 0, 2, 0, 36, 0, 0, 0, 30, 0, 0, 0, 3, 0, 66, 0, 0, 0, 2,
        0, 0, 0, 2, 0, 1, 0, 2, 0, 0, 0, 0, 0, 2, 0, 1, 0, 0, 0, 3, 0, 0, 0, 0, 0, 3, 0, 1, 0, 0,
        0, 5, 0, 2, 0, 3, 0, 4, 0,
    ];

    /// n = 1, m = 1, w = 1; gates N 0, C 0 1, T 0 1 2.
    const CIRCUIT: [u8; 52] = [
        2, 0, 17, 0, 22, 0, 0, 0, 6, 0, 0, 0, 18, 0, 28, 0, 0, 0, 24, 0, 0, 0, 1, 0, 1, 0, 1, 0, 1,
        0, 0, 0, 0, 0, 0, 0, 2, 0, 0, 0, 0, 0, 1, 0, 3, 0, 0, 0, 1, 0, 2, 0,
    ];

    fn answer(number: u64, value: u64) -> Answer {
        Answer { number, value }
    }

    /// The file with one byte changed.
    fn changed<const N: usize>(mut file: [u8; N], at: usize, byte: u8) -> [u8; N] {
        file[at] = byte;
        file
    }

    /// A reader's refusal, which has no number of the file.
    fn refused(number: u64, place: u64) -> Head {
        Head { number, value: place, inputs: 0, outputs: 0, work: 0 }
    }

    #[test]
    fn the_answer_to_a_text_is_the_number_of_bytes_written() {
        let mut area = [7; 58];
        assert_eq!(parse(b"x0&x1", 2, &mut area), answer(0, 56));
        assert_eq!((&area[..56], &area[56..]), (&AND[..], &[7; 2][..]));
        let mut area = [7; 70];
        assert_eq!(parse(b"!x0&!x1", 2, &mut area), answer(0, 68));
        // The nodes of NOR in the order in which their texts end.
        assert_eq!(area[36..48], [2, 0, 0, 0, 0, 0, 3, 0, 0, 0, 0, 0]);
        assert_eq!(area[48..60], [2, 0, 1, 0, 0, 0, 3, 0, 2, 0, 0, 0]);
        assert_eq!(area[60..], [5, 0, 1, 0, 3, 0, 4, 0, 7, 7]);

        let mut area = [7; 56];
        assert_eq!(parse(b"x0&x1", 1, &mut area), answer(5, 1));
        assert_eq!(parse(b"x0&x1", 65, &mut area), answer(4, 0));
        assert_eq!(parse(b"x0& x1", 2, &mut area), answer(16, 3));
        assert_eq!(parse(&[b'0'; 4097], 65, &mut area), answer(17, 0));
        assert_eq!(parse(&[b'!'; 66], 2, &mut area), answer(18, 64));
        assert_eq!(area, [7; 56]);
        assert_eq!(parse(b"x0&x1", 2, &mut area[..55]), answer(11, 3));
        assert_eq!((&area[..55], area[55]), (&[0; 55][..], 7));
        assert_eq!(parse(b"", 2, &mut []), answer(16, 0));
        assert_eq!(parse(b"0", 0, &mut []), answer(11, 1));
    }

    // The wrapper drops the numbers of a refusal and the work lines of a program, so only here can
    // others than 0 be seen.
    #[test]
    fn the_answer_to_a_program_is_its_numbers() {
        let head = Head { number: 0, value: 3, inputs: 2, outputs: 1, work: 0 };
        assert_eq!(read_program(&AND), head);

        assert_eq!(read_program(&[]), refused(1, 0));
        assert_eq!(read_program(&AND[..55]), refused(2, 0));
        assert_eq!(read_program(&changed(AND, 34, 2)), refused(3, 0));
        assert_eq!(read_program(&changed(AND, 32, 65)), refused(4, 0));
        assert_eq!(read_program(&changed(AND, 50, 2)), refused(5, 2));
        assert_eq!(read_program(&changed(AND, 54, 3)), refused(6, 0));
    }

    // The wrapper turns the value into a bool, so only here can a value above 1 be seen.
    #[test]
    fn the_answer_to_an_evaluation_is_a_bit() {
        for (inputs, bit) in [([0, 0], 0), ([0, 1], 0), ([1, 0], 0), ([1, 1], 1)] {
            let mut values = [7; 3];
            assert_eq!(evaluate(&AND, &mut values, &inputs, 0), answer(0, bit));
        }
        assert_eq!(evaluate(&AND, &mut [7; 2], &[1, 1], 0), answer(7, 0));
    }

    #[test]
    fn the_answer_to_an_evaluation_by_words_is_a_word() {
        let (a, b) = (0xcccc_cccc_cccc_cccc, 0xaaaa_aaaa_aaaa_aaaa);
        let mut values = [7; 4];
        assert_eq!(evaluate_words(&AND, &mut values, &[a, b], 0), answer(0, 0x8888_8888_8888_8888));
        assert_eq!(values, [a, b, 0x8888_8888_8888_8888, 7]);

        // Each of the 64 bits, and all of them.
        let any = [0, u64::MAX].into_iter().chain((0..64).map(|k| 1 << k));
        for word in any {
            let mut values = [7; 3];
            assert_eq!(evaluate_words(&AND, &mut values, &[word, u64::MAX], 0), answer(0, word));
            assert_eq!(values, [word, u64::MAX, word]);
        }

        let mut values = [7; 3];
        assert_eq!(evaluate_words(&[], &mut values, &[a, b], 0), answer(1, 0));
        assert_eq!(evaluate_words(&changed(AND, 50, 2), &mut values, &[a, b], 0), answer(5, 2));
        assert_eq!(evaluate_words(&AND, &mut values[..2], &[a], 1), answer(7, 0));
        assert_eq!(evaluate_words(&AND, &mut values, &[a], 1), answer(14, 0));
        assert_eq!(evaluate_words(&AND, &mut values, &[a, b], 1), answer(15, 0));
        assert_eq!(values, [7; 3]);
    }

    #[test]
    fn the_answer_to_a_compilation_is_the_number_of_bytes_written() {
        let (mut sizes, mut area) = ([7; 4], [7; 38]);
        assert_eq!(compile(&AND, 0, &mut sizes, &mut area), answer(0, 36));
        assert_eq!(sizes, [1, 1, 3, 7]);
        assert_eq!((area[18], area[26]), (8, 0));
        assert_eq!(area[28..], [3, 0, 0, 0, 1, 0, 2, 0, 7, 7]);
        assert_eq!(compile(&AND, 0, &mut sizes, &mut area[..35]), answer(11, 1));

        let (mut sizes, mut area) = ([7; 6], [7; 102]);
        assert_eq!(compile(&NOR, 2, &mut sizes, &mut area), answer(0, 100));
        assert_eq!(sizes, [1, 1, 2, 2, 5, 7]);
        assert_eq!((area[18], area[26]), (72, 2));
        assert_eq!(area[60..68], [3, 0, 3, 0, 4, 0, 2, 0]);
        assert_eq!(area[92..], [1, 0, 0, 0, 0, 0, 3, 0, 7, 7]);

        let (mut sizes, mut area) = ([7; 6], [7; 102]);
        assert_eq!(compile(&[], 2, &mut sizes, &mut area), answer(1, 0));
        assert_eq!(compile(&NOR, 2, &mut sizes[..4], &mut area), answer(7, 0));
        assert_eq!(sizes, [7; 6]);
        assert_eq!(compile(&NOR, 1025, &mut sizes, &mut area), answer(9, 0));
        assert_eq!(compile(&NOR, 1, &mut sizes, &mut area), answer(10, 2));
        assert_eq!((sizes, area), ([1, 1, 2, 2, 5, 7], [7; 102]));
        assert_eq!(compile(&NOR, 2, &mut sizes, &mut area[..99]), answer(11, 9));
        assert_eq!((&area[..99], &area[99..]), (&[0; 99][..], &[7; 3][..]));
        assert_eq!(compile(&NOR, 2, &mut sizes, &mut []), answer(11, 9));
    }

    #[test]
    fn the_answer_to_a_quote_is_the_number_of_outputs() {
        let quoted = |file: &[u8], nodes: usize, numbers: [u64; 3]| {
            let (mut counts, mut answers) = (vec![7; 8 * nodes + 2], [7; 5]);
            assert_eq!(quote(file, &mut counts, &mut answers), answer(0, 1));
            assert_eq!(counts, [vec![0; 8 * nodes], vec![7; 2]].concat());
            assert_eq!(answers, [&numbers[..], &[7; 2]].concat()[..]);
        };
        quoted(&AND, 3, [1, 1, 0]);
        quoted(&NOR, 5, [9, 1, 2]);

        let (mut counts, mut answers) = ([7; 24], [7; 3]);
        assert_eq!(quote(&[], &mut counts, &mut answers), answer(1, 0));
        assert_eq!(quote(&changed(AND, 50, 2), &mut counts, &mut answers), answer(5, 2));
        assert_eq!(quote(&AND, &mut counts[..23], &mut answers), answer(7, 0));
        assert_eq!(quote(&AND, &mut counts, &mut answers[..2]), answer(7, 0));
        assert_eq!(quote(&AND, &mut [], &mut []), answer(7, 0));
        assert_eq!((counts, answers), ([7; 24], [7; 3]));
    }

    #[test]
    fn the_answer_to_a_circuit_is_its_numbers() {
        let numbers = changed(changed(changed(CIRCUIT, 22, 5), 24, 4), 26, 7);
        let head = Head { number: 0, value: 3, inputs: 5, outputs: 4, work: 7 };
        assert_eq!(read_circuit(&numbers), head);

        assert_eq!(read_circuit(&[]), refused(1, 0));
        assert_eq!(read_circuit(&CIRCUIT[..51]), refused(2, 0));
        assert_eq!(read_circuit(&changed(CIRCUIT, 18, 23)[..51]), refused(3, 0));
        assert_eq!(read_circuit(&changed(CIRCUIT, 24, 65)), refused(4, 0));
        assert_eq!(read_circuit(&changed(CIRCUIT, 44, 4)), refused(12, 2));
    }

    // The wrapper drops the value, so only here can another one than 0 be seen.
    #[test]
    fn the_answer_to_a_run_is_0() {
        let mut lines = [0, 0, 0];
        assert_eq!(run_forwards(&CIRCUIT, &mut lines), answer(0, 0));
        assert_eq!(lines, [1, 1, 1]);
        assert_eq!(run_backwards(&CIRCUIT, &mut lines), answer(0, 0));
        assert_eq!(lines, [0, 0, 0]);
        assert_eq!(run_backwards(&CIRCUIT, &mut lines), answer(0, 0));
        assert_eq!(lines, [1, 0, 0]);

        assert_eq!(run_forwards(&CIRCUIT, &mut [0, 2, 0]), answer(13, 0));
        assert_eq!(run_backwards(&CIRCUIT, &mut []), answer(13, 0));
    }

    #[test]
    fn the_answer_to_an_undo_is_the_number_of_bytes_written() {
        let mut area = [7; 46];
        assert_eq!(undo(&CIRCUIT, &[0, 1, 0], &mut area), answer(0, 44));
        assert_eq!(area[18], 16);
        assert_eq!(area[28..], [3, 0, 0, 0, 1, 0, 2, 0, 1, 0, 0, 0, 0, 0, 0, 0, 7, 7]);

        assert_eq!(undo(&CIRCUIT, &[0, 1], &mut area[..43]), answer(13, 0));
        assert_eq!(area[28], 3);
        assert_eq!(undo(&CIRCUIT, &[0, 1, 0], &mut area[..43]), answer(11, 2));
        assert_eq!(area[..43], [0; 43]);
        assert_eq!(undo(&CIRCUIT, &[0, 0, 0], &mut []), answer(11, 3));
    }
}
