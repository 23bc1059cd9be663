//! Calls of the library with strips cut out of larger memory, and the comparison of every entry of that memory afterwards.
use crate::paper::{self, Outcome};
use crate::random::Random;
use hathurmo::raw::{self, Limits, PageLimits, Told};

/// Entries before and after a strip that no call may touch.
const GUARD: usize = 3;

/// A strip inside larger memory, with a copy of that memory from before the call.
#[derive(Clone, PartialEq)]
struct Strip<T> {
    memory: Vec<T>,
    entry: Vec<T>,
}

impl<T: Copy + PartialEq + std::fmt::Debug> Strip<T> {
    /// Filled with numbers at random, so that an entry left alone differs from one that is written.
    fn new(len: usize, mut number: impl FnMut() -> T) -> Self {
        let entry: Vec<T> = (0..len + 2 * GUARD).map(|_| number()).collect();
        Strip { memory: entry.clone(), entry }
    }

    fn holding(list: &[T], number: impl FnMut() -> T) -> Self {
        let mut strip = Strip::new(list.len(), number);
        strip.memory[GUARD..GUARD + list.len()].copy_from_slice(list);
        strip.entry.copy_from_slice(&strip.memory);
        strip
    }

    fn len(&self) -> usize {
        self.memory.len() - 2 * GUARD
    }

    fn pointer(&mut self) -> *mut T {
        // A slice and not an element: the strip may be empty.
        self.memory[GUARD..].as_mut_ptr()
    }

    /// The front is written and everything else is as it was.
    fn compare(&self, name: &str, front: &[T]) -> Result<(), String> {
        let expected = |at: usize| match at.checked_sub(GUARD).and_then(|k| front.get(k)) {
            Some(&number) => number,
            None => self.entry[at],
        };
        match (0..self.memory.len()).find(|&at| self.memory[at] != expected(at)) {
            None => Ok(()),
            Some(at) => {
                let entry = at as isize - GUARD as isize;
                Err(format!("{name} entry {entry} of {}: {:?}, expected {:?}", self.len(), self.memory[at], expected(at)))
            }
        }
    }
}

fn equal<T: PartialEq + std::fmt::Debug>(name: &str, is: T, expected: T) -> Result<(), String> {
    if is == expected { Ok(()) } else { Err(format!("{name}: {is:?}, expected {expected:?}")) }
}

/// The strips of a call in 01's order; best is the second and the only one of 64 bits.
#[derive(Clone, PartialEq)]
struct Strips {
    best: Strip<u64>,
    narrow: Vec<Strip<u32>>,
}

impl Strips {
    fn new(lent: &[usize], r: &mut Random) -> Self {
        let best = Strip::new(lent[1], || r.bits());
        let narrow = [&lent[..1], &lent[2..]].concat();
        Strips { best, narrow: narrow.iter().map(|&len| Strip::new(len, || r.bits() as u32)).collect() }
    }

    fn compare(&self, names: &[&str], outcome: &Outcome) -> Result<(), String> {
        self.best.compare("best", &outcome.best)?;
        for ((name, strip), front) in names.iter().zip(&self.narrow).zip(&outcome.narrow) {
            strip.compare(name, front)?;
        }
        Ok(())
    }
}

/// The library sets a paragraph in these strips.
fn set_paragraph(limits: Limits, input: &mut Strip<u32>, strips: &mut Strips) -> Told {
    let (best, best_len) = (strips.best.pointer(), strips.best.len());
    let lens: Vec<usize> = strips.narrow.iter().map(Strip::len).collect();
    let [sums, next, queue, moves, breaks] = [0, 1, 2, 3, 4].map(|k| strips.narrow[k].pointer());
    // SAFETY: each pointer begins a strip of the length beside it, and the strips lie in separate memory.
    unsafe {
        raw::hathurmo_set_paragraph(
            limits, input.pointer(), input.len(), sums, lens[0], best, best_len, next, lens[1], queue, lens[2], moves, lens[3],
            breaks, lens[4],
        )
    }
}

/// Sets a paragraph with strips of the lengths given and compares everything; what was told.
pub fn paragraph(limits: Limits, lengths: &[u32], lent: &[usize], r: &mut Random) -> Result<(Told, Outcome), String> {
    let outcome = paper::paragraph(limits, lengths, lent);
    let mut input = Strip::holding(lengths, || r.bits() as u32);
    let mut strips = Strips::new(lent, r);
    let told = set_paragraph(limits, &mut input, &mut strips);
    equal("told", told, outcome.told)?;
    input.compare("lengths", &[])?;
    strips.compare(&["sums", "next", "queue", "moves", "breaks"], &outcome)?;
    Ok((told, outcome))
}

/// Sets a paragraph under two sets of limits, in the same strips. All that is told and written must be the same; the first is told.
pub fn same_paragraph(limits: [Limits; 2], lengths: &[u32], lent: &[usize], r: &mut Random) -> Result<Told, String> {
    let mut input = Strip::holding(lengths, || r.bits() as u32);
    let mut strips = Strips::new(lent, r);
    let mut others = strips.clone();
    let told = set_paragraph(limits[0], &mut input, &mut strips);
    equal("told under the other limits", set_paragraph(limits[1], &mut input, &mut others), told)?;
    if strips == others { Ok(told) } else { Err("the strips differ under the other limits".to_string()) }
}

/// Sets an index with strips of the lengths given and compares everything; what was told.
pub fn index(limits: PageLimits, lengths: &[u32], lent: &[usize], r: &mut Random) -> Result<(Told, Outcome), String> {
    let outcome = paper::index(limits, lengths, lent);
    let mut input = Strip::holding(lengths, || r.bits() as u32);
    let mut strips = Strips::new(lent, r);
    let (best, best_len) = (strips.best.pointer(), strips.best.len());
    let lens: Vec<usize> = strips.narrow.iter().map(Strip::len).collect();
    let [sums, next, left, right, moves, boundaries] = [0, 1, 2, 3, 4, 5].map(|k| strips.narrow[k].pointer());
    // SAFETY: as for the paragraph.
    let told = unsafe {
        raw::hathurmo_set_index(
            limits, input.pointer(), lengths.len(), sums, lens[0], best, best_len, next, lens[1], left, lens[2], right, lens[3],
            moves, lens[4], boundaries, lens[5],
        )
    };
    equal("told", told, outcome.told)?;
    input.compare("lengths", &[])?;
    strips.compare(&["sums", "next", "left", "right", "moves", "boundaries"], &outcome)?;
    Ok((told, outcome))
}

pub fn penalty(limits: Limits, length: u32) -> Result<Told, String> {
    // SAFETY: numbers in, numbers out.
    let told = unsafe { raw::hathurmo_penalty(limits, length) };
    equal("told", told, paper::penalty_alone(limits, length))?;
    let said = match told.number {
        3 => Err(hathurmo::Refusal::Limits),
        4 => Err(hathurmo::Refusal::Length { word: 0 }),
        _ if told.total == raw::OUTSIDE => Ok(hathurmo::Penalty::Outside),
        _ => Ok(hathurmo::Penalty::Of(told.total)),
    };
    equal("the wrapper", hathurmo::penalty(limits, length), said)?;
    Ok(told)
}

/// What the reader must return, and the lengths that it must write.
fn expected_job(job: &[u8], room: usize) -> (raw::Job, Vec<u32>) {
    let blank = raw::Job { number: 0, place: 0, count: 0, lmin: 0, lopt: 0, lmax: 0, a: 0, space: 0, n: 0 };
    match paper::read_job(job, room) {
        Err((number, place)) => (raw::Job { number, place: place as u64, ..blank }, vec![]),
        Ok((count, limits, lengths)) => {
            let n = lengths.len() as u64;
            let read = match limits[..] {
                [lmin, lopt, lmax, a, space] => raw::Job { count, lmin, lopt, lmax, a, space, n, ..blank },
                [lmin, lopt, lmax, a] => raw::Job { count, lmin, lopt, lmax, a, n, ..blank },
                [lmin, lmax] => raw::Job { count, lmin, lmax, n, ..blank },
                _ => unreachable!("limits are five, four or two"),
            };
            (read, lengths)
        }
    }
}

/// Reads a job into a lengths strip of the length given; the refusal's number.
pub fn job(job: &[u8], room: usize, r: &mut Random) -> Result<u32, String> {
    let (expected, front) = expected_job(job, room);
    let mut input = Strip::holding(job, || r.bits() as u8);
    let mut lengths = Strip::new(room, || r.bits() as u32);
    // SAFETY: both pointers begin strips of the lengths beside them.
    let read = unsafe { raw::hathurmo_read_job(input.pointer(), job.len(), lengths.pointer(), room) };
    equal("job", read, expected)?;
    input.compare("job bytes", &[])?;
    lengths.compare("lengths", &front)?;
    Ok(read.number)
}
