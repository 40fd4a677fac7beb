//! A case: one call with all its buffers, and what it must answer. docs/REPLAY.md has the file's form.

use crate::calls;
use crate::case_block::Blocks;
use crate::case_expand::Expansions;
use crate::case_sbox::Sboxes;
use crate::rng::Rng;
use crate::walk::Walk;
use std::io::{self, BufWriter, Write};

const MAGIC: &[u8; 8] = b"SALCASE2";
const LINES: usize = 5;

#[derive(Clone, Copy, PartialEq, Debug)]
pub enum Call {
    Sbox = 1,
    SboxPoints = 2,
    Expand = 3,
    Block = 4,
}

/// Buffers stand in the order of the C parameters.
#[derive(Clone)]
pub struct Case {
    pub call: Call,
    pub direction: u32,
    pub buffers: Vec<Vec<u8>>,
}

/// A call as a file tells it: all buffers before and after, and the number.
pub struct Told {
    pub call: u8,
    /// Each case is written by what differs from the last one of its line, so that a buffer which
    /// hardly changes from case to case takes few bytes.
    pub line: usize,
    pub direction: u32,
    pub number: u32,
    pub before: Vec<Vec<u8>>,
    pub after: Vec<Vec<u8>>,
}

/// A source of cases; the index says what is due, so that a file of enough cases has them all.
pub trait Maker {
    fn case(&mut self, index: usize) -> Case;
}

impl Case {
    /// The number and every buffer after the call.
    pub fn run(&self) -> (u32, Vec<Vec<u8>>) {
        let mut after = self.buffers.clone();
        let number = match (self.call, &mut after[..]) {
            (Call::Sbox, [data, mask, record]) => calls::sbox(self.direction, data, mask, record, None),
            (Call::SboxPoints, [data, mask, record, points]) => {
                calls::sbox(self.direction, data, mask, record, Some(points))
            }
            (Call::Expand, [key, round_keys]) => calls::expand(key, round_keys),
            (Call::Block, [block, mask, round_keys, strip]) => {
                calls::block(self.direction, block, mask, round_keys, strip)
            }
            _ => unreachable!("a case has the buffers of its call"),
        };
        (number, after)
    }

    fn told(self) -> Told {
        let (number, after) = self.run();
        Told { call: self.call as u8, line: 0, direction: self.direction, number, before: self.buffers, after }
    }
}

/// Writes a case file to standard output; None when there is no such kind.
pub fn write_file(kind: &str, count: usize, seed: u64) -> Option<bool> {
    let rng = Rng::new(seed);
    let mut source = match kind {
        "sbox" => cases(Sboxes::new(rng)),
        "expand" => cases(Expansions::new(rng)),
        "block" => cases(Blocks::new(rng)),
        "pool" => steps(Walk::new(rng)),
        _ => return None,
    };
    Some(write_cases(source.as_mut(), count).is_ok())
}

type Source = dyn FnMut(usize) -> Told;

fn cases(mut maker: impl Maker + 'static) -> Box<Source> {
    Box::new(move |index| maker.case(index).told())
}

fn steps(mut walk: Walk) -> Box<Source> {
    Box::new(move |_| walk.step())
}

fn write_cases(source: &mut Source, count: usize) -> io::Result<()> {
    let mut out = BufWriter::new(io::stdout().lock());
    let mut lines: [Vec<Vec<u8>>; LINES] = Default::default();
    out.write_all(MAGIC)?;
    out.write_all(&(count as u64).to_be_bytes())?;
    for index in 0..count {
        let told = source(index);
        out.write_all(&[told.call, told.line as u8])?;
        out.write_all(&told.direction.to_be_bytes())?;
        out.write_all(&told.number.to_be_bytes())?;
        write_buffers(&mut out, &mut lines[told.line], &told)?;
    }
    out.flush()
}

/// Buffers past those of this call stay in the line as they were.
fn write_buffers(out: &mut impl Write, line: &mut Vec<Vec<u8>>, told: &Told) -> io::Result<()> {
    line.resize(line.len().max(told.before.len()), Vec::new());
    for ((last, before), after) in line.iter_mut().zip(&told.before).zip(&told.after) {
        out.write_all(&(before.len() as u32).to_be_bytes())?;
        last.resize(before.len(), 0);
        write_part(out, last, before)?;
        write_part(out, before, after)?;
        last.copy_from_slice(after);
    }
    Ok(())
}

/// What differs, from the first such byte to the last; both have the same length.
fn write_part(out: &mut impl Write, old: &[u8], new: &[u8]) -> io::Result<()> {
    let differs = || old.iter().zip(new).map(|(x, y)| x != y);
    let start = differs().position(|yes| yes).unwrap_or(0);
    let end = differs().rposition(|yes| yes).map_or(start, |last| last + 1);
    out.write_all(&(start as u32).to_be_bytes())?;
    out.write_all(&((end - start) as u32).to_be_bytes())?;
    out.write_all(&new[start..end])
}

/// The first number of `order` that `defects` brings about.
pub fn first_defect(order: &[u32], defects: &[u32]) -> u32 {
    order.iter().copied().find(|number| defects.contains(number)).unwrap_or(0)
}

/// One of these numbers in half of the cases, else two or three, at times more, so that their order
/// is put to the test.
pub fn some_defects(order: &[u32], rng: &mut Rng) -> Vec<u32> {
    let wanted = rng.pick(&[1, 1, 1, 1, 1, 2, 2, 3, 3, order.len()]);
    (0..wanted).map(|_| rng.pick(order)).collect()
}

/// A direction that is 0 or 1, or neither; some that a narrower number would take for one of them.
pub fn direction(good: bool, rng: &mut Rng) -> u32 {
    if good {
        return rng.below(2) as u32;
    }
    let random = 2 + rng.below(u32::MAX as usize - 1) as u32;
    rng.pick(&[2, 3, 255, 256, 257, 0x1_0000, 0x100_0000, 0x8000_0000, 0xffff_fffe, 0xffff_ffff, random])
}

/// A length other than `right`; some that a narrower number would take for it.
pub fn wrong_length(right: usize, rng: &mut Rng) -> usize {
    if rng.one_in(200) {
        return right + 0x1_0000;
    }
    let near = [0, 1, right - 1, right + 1, right + 2, 2 * right, right + 256, rng.below(300)];
    let wrong: Vec<usize> = near.into_iter().filter(|&length| length != right).collect();
    rng.pick(&wrong)
}

/// The right length, or a wrong one.
pub fn length(good: bool, right: usize, rng: &mut Rng) -> usize {
    if good { right } else { wrong_length(right, rng) }
}

/// Which of `count` buffers get a wrong length: none, or at least one.
pub fn wrong_ones<const N: usize>(wanted: bool, rng: &mut Rng) -> [bool; N] {
    let chosen = rng.below(N);
    std::array::from_fn(|i| wanted && (i == chosen || rng.one_in(4)))
}
