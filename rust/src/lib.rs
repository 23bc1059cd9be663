//! Paragraph breaking at least penalty and paging at least key total, in linear time.
//!
//! The engine is a static library whose contracts are proved; this crate makes its C interface safe. The caller lends the memory:
//! a call is handed strips, says in a [`Setting`] or a [`Refusal`] what came of it, and changes no entry that it does not use.
//! Words, items and places count from 1, as in document 01.
//!
//! ```
//! use hathurmo::{set_paragraph, Limits, ParagraphRoom};
//!
//! let lengths = [3, 2, 2, 5];
//! let mut room = ParagraphRoom::new(lengths.len());
//! let setting = set_paragraph(Limits::new(1, 6, 6, 1), &lengths, room.lend()).unwrap();
//! assert_eq!(setting.total, 13);
//! assert_eq!(room.breaks[..setting.lines], [1, 2, 4]);
//! ```
//!
//! A word's length includes the space after it. Where that space is given too, a line is measured without the one at its end:
//!
//! ```
//! use hathurmo::{set_paragraph, Limits, ParagraphRoom};
//!
//! let lengths = ["set", "in", "good", "type"].map(|word| word.len() as u32 + 1);
//! let mut room = ParagraphRoom::new(lengths.len());
//! let limits = Limits::new(6, 9, 9, 1).with_space(1);
//! let setting = set_paragraph(limits, &lengths, room.lend()).unwrap();
//! assert_eq!(room.breaks[..setting.lines], [1, 3]);
//! assert_eq!(setting.total, 9); // "set in" has 6 of the 9 units, and "good type" all of them
//! ```
//!
//! Where a last line of one short word will not do, [`Limits::with_lastmin`] asks for edition 2 of the last-line rule.

pub mod raw;

pub use raw::{Limits, PageLimits};

/// The best of a start that has no setting.
pub const NO_SETTING: u64 = u64::MAX;

/// What an accepted call found; the setting itself stands in the answer strip.
#[derive(Clone, Copy, Debug, PartialEq, Eq)]
pub struct Setting {
    /// The least penalty of the paragraph, or the least key total of the index.
    pub total: u64,
    /// Lines broken or boundaries chosen: so many entries of the answer strip are used.
    pub lines: usize,
    /// Moves taken, at most 2n: so many entries of the moves strip are used.
    pub moves: usize,
}

/// Why a call was refused. The first that applies is given, in the order below; [`Refusal::Job`] comes from the reader alone.
#[derive(Clone, Copy, Debug, PartialEq, Eq)]
pub enum Refusal {
    /// There is no word or item.
    Empty,
    /// There are more than 4,096.
    Many,
    /// The limits break their rules.
    Limits,
    /// A length is 0, above 4,095 or, in a paragraph, not above the space: the first such word. For a penalty asked for alone the word
    /// is 0.
    Length { word: usize },
    /// A strip is too short: the first such strip's number, in the order of its struct's fields.
    Room { strip: usize },
    /// No admissible setting exists; under edition 2 a last line that cannot reach lastmin is enough. Every strip is written but the
    /// answer; so many moves were taken.
    None { moves: usize },
    /// The job file is malformed at this byte.
    Job { at: usize },
}

impl std::fmt::Display for Refusal {
    fn fmt(&self, f: &mut std::fmt::Formatter<'_>) -> std::fmt::Result {
        match self {
            Refusal::Empty => write!(f, "there is no length"),
            Refusal::Many => write!(f, "there are more than 4096 lengths"),
            Refusal::Limits => write!(f, "the limits break their rules"),
            Refusal::Length { word } => write!(f, "length {word} is not allowed"),
            Refusal::Room { strip } => write!(f, "strip {strip} is too short"),
            Refusal::None { .. } => write!(f, "no admissible setting exists"),
            Refusal::Job { at } => write!(f, "the job is malformed at byte {at}"),
        }
    }
}

impl std::error::Error for Refusal {}

/// The refusal of a number and place; `None` where there is no refusal. The library gives no number above 7.
fn refusal(number: u32, place: u64, moves: u64) -> Option<Refusal> {
    let place = place as usize;
    match number {
        0 => None,
        1 => Some(Refusal::Empty),
        2 => Some(Refusal::Many),
        3 => Some(Refusal::Limits),
        4 => Some(Refusal::Length { word: place }),
        5 => Some(Refusal::Room { strip: place }),
        6 => Some(Refusal::None { moves: moves as usize }),
        7 => Some(Refusal::Job { at: place }),
        _ => unreachable!("refusal {number} is not one of document 01's"),
    }
}

fn setting(told: raw::Told) -> Result<Setting, Refusal> {
    match refusal(told.number, told.place, told.moves) {
        Some(refusal) => Err(refusal),
        None => Ok(Setting { total: told.total, lines: told.lines as usize, moves: told.moves as usize }),
    }
}

/// The strips of a paragraph of n words, with the entries each must have at least. More are accepted and never change.
#[derive(Debug)]
pub struct ParagraphStrips<'a> {
    /// n+1; entry k is the total of the first k lengths, every space included.
    pub sums: &'a mut [u32],
    /// n+1; entry i-1 is the least total of words i to n, [`NO_SETTING`] where there is none.
    pub best: &'a mut [u64],
    /// n+1; entry i-1 is the start chosen after i, 0 where there is none.
    pub next: &'a mut [u32],
    /// n; 0 afterwards.
    pub queue: &'a mut [u32],
    /// 2n; the moves taken, see [`Move`].
    pub moves: &'a mut [u32],
    /// n; the answer: the first word of each line.
    pub breaks: &'a mut [u32],
}

/// The strips of an index of n items, with the entries each must have at least. More are accepted and never change.
#[derive(Debug)]
pub struct IndexStrips<'a> {
    /// n+1; entry k is the total of the first k lengths.
    pub sums: &'a mut [u32],
    /// n+2; entry i is the least key total from i on, [`NO_SETTING`] where there is none.
    pub best: &'a mut [u64],
    /// n+2; entry i is the boundary chosen after i, 0 where there is none.
    pub next: &'a mut [u32],
    /// n+2; entry j is the largest index from 1 to j-1 whose best is smaller, or 0.
    pub left: &'a mut [u32],
    /// n+2; entry j is the smallest index above j whose best is not larger; 0 for 0 and n+1.
    pub right: &'a mut [u32],
    /// 2n; the moves taken, see [`Move`].
    pub moves: &'a mut [u32],
    /// n; the answer: the boundaries between the two ends.
    pub boundaries: &'a mut [u32],
}

/// Strips of just the entries a paragraph needs, for callers that have no memory of their own to lend.
#[derive(Clone, Debug)]
pub struct ParagraphRoom {
    pub sums: Vec<u32>,
    pub best: Vec<u64>,
    pub next: Vec<u32>,
    pub queue: Vec<u32>,
    pub moves: Vec<u32>,
    pub breaks: Vec<u32>,
}

impl ParagraphRoom {
    /// Room for n words, and so for fewer.
    pub fn new(n: usize) -> Self {
        ParagraphRoom {
            sums: vec![0; n + 1],
            best: vec![0; n + 1],
            next: vec![0; n + 1],
            queue: vec![0; n],
            moves: vec![0; 2 * n],
            breaks: vec![0; n],
        }
    }

    /// The strips, lent for one call.
    pub fn lend(&mut self) -> ParagraphStrips<'_> {
        ParagraphStrips {
            sums: &mut self.sums,
            best: &mut self.best,
            next: &mut self.next,
            queue: &mut self.queue,
            moves: &mut self.moves,
            breaks: &mut self.breaks,
        }
    }
}

/// Strips of just the entries an index needs.
#[derive(Clone, Debug)]
pub struct IndexRoom {
    pub sums: Vec<u32>,
    pub best: Vec<u64>,
    pub next: Vec<u32>,
    pub left: Vec<u32>,
    pub right: Vec<u32>,
    pub moves: Vec<u32>,
    pub boundaries: Vec<u32>,
}

impl IndexRoom {
    /// Room for n items, and so for fewer.
    pub fn new(n: usize) -> Self {
        IndexRoom {
            sums: vec![0; n + 1],
            best: vec![0; n + 2],
            next: vec![0; n + 2],
            left: vec![0; n + 2],
            right: vec![0; n + 2],
            moves: vec![0; 2 * n],
            boundaries: vec![0; n],
        }
    }

    /// The strips, lent for one call.
    pub fn lend(&mut self) -> IndexStrips<'_> {
        IndexStrips {
            sums: &mut self.sums,
            best: &mut self.best,
            next: &mut self.next,
            left: &mut self.left,
            right: &mut self.right,
            moves: &mut self.moves,
            boundaries: &mut self.boundaries,
        }
    }
}

/// Breaks a paragraph at the least total penalty. A word's length includes the space after it, that of the last word too; a line's length
/// is that of its words less the limits' space, once.
///
/// Every refusal but [`Refusal::None`] leaves every strip as it was; `None` leaves `breaks` so.
pub fn set_paragraph(limits: Limits, lengths: &[u32], strips: ParagraphStrips<'_>) -> Result<Setting, Refusal> {
    let ParagraphStrips { sums, best, next, queue, moves, breaks } = strips;
    // SAFETY: each pointer comes with the length of its own slice, and slices that are lent mutably do not overlap. The library
    // has no other demand: it refuses what it cannot set.
    setting(unsafe {
        raw::hathurmo_set_paragraph(
            limits,
            lengths.as_ptr(),
            lengths.len(),
            sums.as_mut_ptr(),
            sums.len(),
            best.as_mut_ptr(),
            best.len(),
            next.as_mut_ptr(),
            next.len(),
            queue.as_mut_ptr(),
            queue.len(),
            moves.as_mut_ptr(),
            moves.len(),
            breaks.as_mut_ptr(),
            breaks.len(),
        )
    })
}

/// Pages a list at the least key total, the sum of the boundaries' own lengths.
///
/// Every refusal but [`Refusal::None`] leaves every strip as it was; `None` leaves `boundaries` so.
pub fn set_index(limits: PageLimits, lengths: &[u32], strips: IndexStrips<'_>) -> Result<Setting, Refusal> {
    let IndexStrips { sums, best, next, left, right, moves, boundaries } = strips;
    // SAFETY: as for `set_paragraph`.
    setting(unsafe {
        raw::hathurmo_set_index(
            limits,
            lengths.as_ptr(),
            lengths.len(),
            sums.as_mut_ptr(),
            sums.len(),
            best.as_mut_ptr(),
            best.len(),
            next.as_mut_ptr(),
            next.len(),
            left.as_mut_ptr(),
            left.len(),
            right.as_mut_ptr(),
            right.len(),
            moves.as_mut_ptr(),
            moves.len(),
            boundaries.as_mut_ptr(),
            boundaries.len(),
        )
    })
}

/// The penalty of one line.
#[derive(Clone, Copy, Debug, PartialEq, Eq)]
pub enum Penalty {
    /// The line is inside the measure, and costs this.
    Of(u64),
    /// The line is shorter than lmin or longer than lmax: it has no penalty.
    Outside,
}

/// The penalty of one line of a length from 0 to 16,773,120, wherever it stands: that a last line of at most lopt costs nothing, and that
/// edition 2 asks a least length of it, is not looked at here. The length is the line's own, so the space after its last word is already
/// off; the limits' space, edition and lastmin are judged with the other limits and change nothing else.
///
/// ```
/// use hathurmo::{penalty, Limits, Penalty};
///
/// let limits = Limits::new(6, 8, 10, 15);
/// assert_eq!(penalty(limits, 10), Ok(Penalty::Of(60)));
/// assert_eq!(penalty(limits, 11), Ok(Penalty::Outside));
/// ```
pub fn penalty(limits: Limits, length: u32) -> Result<Penalty, Refusal> {
    // SAFETY: numbers in, numbers out.
    let told = setting(unsafe { raw::hathurmo_penalty(limits, length) })?;
    Ok(if told.total == raw::OUTSIDE { Penalty::Outside } else { Penalty::Of(told.total) })
}

/// A job as read: its limits, and how many lengths were written.
#[derive(Clone, Copy, Debug, PartialEq, Eq)]
pub enum Job {
    Paragraph { limits: Limits, n: usize },
    Index { limits: PageLimits, n: usize },
}

/// Reads a job file to its end and writes its lengths to the front of the strip. Limits and lengths are for the setters to judge. The
/// limits of a paragraph that gives no space (count 4) have space 0; a job file carries no edition, so all are under edition 1.
///
/// A refused read leaves the strip as it was.
pub fn read_job(job: &[u8], lengths: &mut [u32]) -> Result<Job, Refusal> {
    // SAFETY: both pointers come with the lengths of their slices.
    let read = unsafe { raw::hathurmo_read_job(job.as_ptr(), job.len(), lengths.as_mut_ptr(), lengths.len()) };
    if let Some(refusal) = refusal(read.number, read.place, 0) {
        return Err(refusal);
    }
    let raw::Job { lmin, lopt, lmax, a, space, n, .. } = read;
    let n = n as usize;
    Ok(match read.count {
        5 | 4 => Job::Paragraph { limits: Limits::new(lmin, lopt, lmax, a).with_space(space), n },
        _ => Job::Index { limits: PageLimits { lmin, lmax }, n },
    })
}

/// What a move does.
#[derive(Clone, Copy, Debug, PartialEq, Eq)]
pub enum Kind {
    Add,
    Pass,
    Drop,
    Pop,
    Step,
    Jump,
    Link,
}

/// A move: a kind with the index it touches.
#[derive(Clone, Copy, Debug, PartialEq, Eq)]
pub struct Move {
    pub kind: Kind,
    pub index: u32,
}

impl Move {
    /// The move that an entry of the moves strip stands for; `None` where it stands for none.
    pub fn from_entry(entry: u32) -> Option<Move> {
        let kind = match entry % 8 {
            1 => Kind::Add,
            2 => Kind::Pass,
            3 => Kind::Drop,
            4 => Kind::Pop,
            5 => Kind::Step,
            6 => Kind::Jump,
            7 => Kind::Link,
            _ => return None,
        };
        Some(Move { kind, index: entry / 8 })
    }
}

#[cfg(test)]
mod tests;
