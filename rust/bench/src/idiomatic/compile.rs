//! The service compile. The construction calls itself on operands, and so does counting it.

use super::program::{read, Node, Program};
use super::{Gate, Refused, GATES_START, GATE_LENGTH, MOST_GATES};

const LARGEST_SIZE: u16 = 16_384;
const MOST_WORK_LINES: u64 = 1024;

/// The largest number of gates shown, which stands for every one above 3,000,000.
const OVER: usize = 3_000_001;

/// Compiles a program file and gives the length of the circuit file.
pub fn compile(
    file: &[u8],
    grant: u64,
    sizes: &mut [u16],
    area: &mut [u8],
) -> Result<usize, Refused> {
    let program = read(file)?;
    let sizes = sizes.get_mut(..program.node_count()).ok_or((7, 0))?;
    fill_sizes(&program, sizes);
    if let Some(k) = program.outputs().position(|i| sizes[usize::from(i)] > LARGEST_SIZE) {
        return Err((8, k as u64));
    }
    if grant > MOST_WORK_LINES {
        return Err((9, 0));
    }

    let (mut lines, mut gates) = (0, 0);
    for output in program.outputs() {
        let count = count(&program, output);
        lines = lines.max(count.lines);
        gates = capped(gates + 2 * count.gates - count.own);
    }
    if lines as u64 > grant {
        return Err((10, lines as u64));
    }
    let length = GATES_START + GATE_LENGTH * gates;
    if gates > MOST_GATES || area.len() < length {
        area.fill(0);
        return Err((11, gates as u64));
    }

    let (start, body) = area[..length].split_at_mut(GATES_START);
    write_start(start, &program, lines as u16, body.len() as u32);
    write_shares(&program, body.as_chunks_mut().0);
    Ok(length)
}

fn fill_sizes(program: &Program, sizes: &mut [u16]) {
    for i in 0..sizes.len() {
        let size = |operand: u16| sizes[usize::from(operand)];
        let unfolded = match program.node(i as u16) {
            Node::Zero | Node::One | Node::Input(_) => 1,
            Node::Not(a) => 1 + size(a),
            // At most 1 and 2 times 16,385, which is below 65,536.
            Node::Xor(a, b) | Node::And { a, b, .. } => 1 + size(a) + size(b),
        };
        sizes[i] = unfolded.min(LARGEST_SIZE + 1);
    }
}

fn capped(gates: usize) -> usize {
    gates.min(OVER)
}

/// What building a node takes: gates, capped, and those of them on the target it is built into; the
/// most work lines that are in use together, and those that stay in use.
struct Count {
    gates: usize,
    own: usize,
    lines: usize,
    kept: usize,
}

const NOTHING: Count = Count { gates: 0, own: 0, lines: 0, kept: 0 };

impl Count {
    /// Of one node, and of another that is built next.
    fn then(self, next: Count) -> Count {
        Count {
            gates: capped(self.gates + next.gates),
            own: self.own + next.own,
            lines: self.lines.max(self.kept + next.lines),
            kept: self.kept + next.kept,
        }
    }
}

fn count(program: &Program, node: u16) -> Count {
    match program.node(node) {
        Node::Zero => NOTHING,
        Node::One | Node::Input(_) => Count { gates: 1, own: 1, ..NOTHING },
        Node::Not(a) => {
            let a = count(program, a);
            Count { gates: capped(a.gates + 1), own: a.own + 1, ..a }
        }
        Node::Xor(a, b) => count(program, a).then(count(program, b)),
        Node::And { a, b, marked } => {
            let operands = count_control(program, a).then(count_control(program, b));
            if marked {
                Count { gates: capped(2 * operands.gates + 1), own: 1, kept: 0, ..operands }
            } else {
                Count { gates: capped(operands.gates + 1), own: 1, ..operands }
            }
        }
    }
}

/// What an operand of AND takes: an input nothing, any other node a line that it is built into.
fn count_control(program: &Program, operand: u16) -> Count {
    if let Node::Input(_) = program.node(operand) {
        return NOTHING;
    }
    let built = count(program, operand);
    Count { lines: built.lines + 1, kept: built.kept + 1, ..built }
}

fn write_start(start: &mut [u8], program: &Program, work: u16, gates_length: u32) {
    start[..12].copy_from_slice(&[2, 0, 17, 0, 22, 0, 0, 0, 6, 0, 0, 0]);
    start[12..18].copy_from_slice(&[18, 0, 28, 0, 0, 0]);
    start[18..22].copy_from_slice(&gates_length.to_le_bytes());
    let head = [program.inputs, program.output_count(), work];
    for (to, number) in start[22..].chunks_exact_mut(2).zip(head) {
        to.copy_from_slice(&number.to_le_bytes());
    }
}

fn write_shares(program: &Program, gates: &mut [Gate]) {
    let first_work_line = program.inputs + program.output_count();
    let mut rest = gates;
    for (target, output) in (program.inputs..).zip(program.outputs()) {
        let mut share = Share { gates: rest, count: 0, free: first_work_line };
        share.build(program, output, target);
        share.clean(target);
        let count = share.count;
        rest = &mut share.gates[count..];
    }
}

/// A share as far as it is written: so many gates, and the lowest free line.
struct Share<'a> {
    gates: &'a mut [Gate],
    count: usize,
    free: u16,
}

impl Share<'_> {
    fn build(&mut self, program: &Program, node: u16, target: u16) {
        match program.node(node) {
            Node::Zero => {}
            Node::One => self.push(1, 0, 0, target),
            Node::Input(j) => self.push(2, j, 0, target),
            Node::Not(a) => {
                self.push(1, 0, 0, target);
                self.build(program, a, target);
            }
            Node::Xor(a, b) => {
                self.build(program, a, target);
                self.build(program, b, target);
            }
            Node::And { a, b, marked } => {
                let (start, free) = (self.count, self.free);
                let a = self.control(program, a);
                let b = self.control(program, b);
                if a == b {
                    self.push(2, a, 0, target);
                } else {
                    self.push(3, a.min(b), a.max(b), target);
                }
                if marked {
                    self.undo_operands(start);
                    self.free = free;
                }
            }
        }
    }

    /// The line of an operand of AND: an input's own, or one that the node is built into.
    fn control(&mut self, program: &Program, operand: u16) -> u16 {
        if let Node::Input(j) = program.node(operand) {
            return j;
        }
        let line = self.take();
        self.build(program, operand, line);
        line
    }

    /// Appends the gates from the start to the one before the last, in the other order.
    fn undo_operands(&mut self, start: usize) {
        let (built, rest) = self.gates.split_at_mut(self.count);
        let operands = &built[start..built.len() - 1];
        for (to, gate) in rest.iter_mut().zip(operands.iter().rev()) {
            *to = *gate;
        }
        self.count += operands.len();
    }

    /// Appends the gates written so far, the last one first, but for those of the target.
    fn clean(&mut self, target: u16) {
        let (built, rest) = self.gates.split_at_mut(self.count);
        let target = target.to_le_bytes();
        let kept = built.iter().rev().filter(|gate| gate[6..] != target);
        for (to, gate) in rest.iter_mut().zip(kept) {
            *to = *gate;
            self.count += 1;
        }
    }

    fn take(&mut self) -> u16 {
        let line = self.free;
        self.free += 1;
        line
    }

    fn push(&mut self, kind: u8, control: u16, second: u16, target: u16) {
        let [a, b, t] = [control, second, target].map(u16::to_le_bytes);
        self.gates[self.count] = [kind, 0, a[0], a[1], b[0], b[1], t[0], t[1]];
        self.count += 1;
    }
}
