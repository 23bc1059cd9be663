//! The library's C interface as it is; include/hathurmo.h says what each function does. The safe functions are one module up.

/// Limits of a paragraph: 1 ≤ lmin ≤ lopt ≤ lmax ≤ 4,095, lmin < lmax, `a` from 1 to 15, `space` up to 255; edition 1 with `lastmin` 0,
/// or edition 2 with `lastmin` up to lopt. Any other edition, 0 too, is refused, so make them by [`Limits::new`].
///
/// Lengths include the space after each word. Give the width of that space, and a line is measured without the one after its last
/// word: a full line then ends at the measure, and every length must be above the space. With 0 the space at the end of a line counts,
/// as document 01 has it: where nothing stands between the words, or where the measure leaves room for it.
///
/// The edition is that of the last-line rule. Under edition 1 the last line may be as short as one word; under edition 2 one shorter than
/// `lastmin`, the least last length, is not admissible. It is measured like every line, the space off. With 0 the editions are the same.
#[repr(C)]
#[derive(Clone, Copy, Debug, PartialEq, Eq)]
pub struct Limits {
    pub lmin: u32,
    pub lopt: u32,
    pub lmax: u32,
    pub a: u32,
    pub space: u32,
    pub edition: u32,
    pub lastmin: u32,
}

impl Limits {
    /// Limits under edition 1, without a space.
    pub const fn new(lmin: u32, lopt: u32, lmax: u32, a: u32) -> Limits {
        Limits { lmin, lopt, lmax, a, space: 0, edition: 1, lastmin: 0 }
    }

    /// The same with this space taken off the end of each line.
    ///
    /// ```
    /// use hathurmo::{set_paragraph, Limits, ParagraphRoom};
    ///
    /// const LIMITS: Limits = Limits::new(6, 9, 9, 1).with_space(1);
    /// let mut room = ParagraphRoom::new(2);
    /// let setting = set_paragraph(LIMITS, &[5, 5], room.lend()).unwrap();
    /// assert_eq!((setting.lines, setting.total), (1, 0)); // 5 + 5 less 1
    /// ```
    pub const fn with_space(self, space: u32) -> Limits {
        Limits { space, ..self }
    }

    /// The same under edition 2, with this least last length.
    ///
    /// ```
    /// use hathurmo::{set_paragraph, Limits, ParagraphRoom};
    ///
    /// let (lengths, limits) = ([4, 4, 1], Limits::new(4, 8, 8, 1));
    /// let mut room = ParagraphRoom::new(lengths.len());
    /// let setting = set_paragraph(limits, &lengths, room.lend()).unwrap();
    /// assert_eq!(room.breaks[..setting.lines], [1, 3]); // the last line has 1 unit
    /// let setting = set_paragraph(limits.with_lastmin(2), &lengths, room.lend()).unwrap();
    /// assert_eq!(room.breaks[..setting.lines], [1, 2]); // and now 5
    /// ```
    pub const fn with_lastmin(self, lastmin: u32) -> Limits {
        Limits { edition: 2, lastmin, ..self }
    }
}

/// Limits of an index.
#[repr(C)]
#[derive(Clone, Copy, Debug, PartialEq, Eq)]
pub struct PageLimits {
    pub lmin: u32,
    pub lmax: u32,
}

/// What a caller is told; `number` is 0 or a refusal.
#[repr(C)]
#[derive(Clone, Copy, Debug, PartialEq, Eq)]
pub struct Told {
    pub number: u32,
    pub place: u64,
    pub total: u64,
    pub lines: u64,
    pub moves: u64,
}

/// The total that is told of the penalty of a line outside the measure.
pub const OUTSIDE: u64 = u64::MAX;

/// A job as read; `count` is 5, 4 (`space` is then 0), 2, or 0 where it is refused. A job file carries no edition: a paragraph's is 1.
#[repr(C)]
#[derive(Clone, Copy, Debug, PartialEq, Eq)]
pub struct Job {
    pub number: u32,
    pub place: u64,
    pub count: u32,
    pub lmin: u32,
    pub lopt: u32,
    pub lmax: u32,
    pub a: u32,
    pub space: u32,
    pub n: u64,
}

extern "C" {
    pub fn hathurmo_set_paragraph(
        limits: Limits,
        lengths: *const u32,
        n: usize,
        sums: *mut u32,
        sums_len: usize,
        best: *mut u64,
        best_len: usize,
        next: *mut u32,
        next_len: usize,
        queue: *mut u32,
        queue_len: usize,
        moves: *mut u32,
        moves_len: usize,
        breaks: *mut u32,
        breaks_len: usize,
    ) -> Told;

    pub fn hathurmo_set_index(
        limits: PageLimits,
        lengths: *const u32,
        n: usize,
        sums: *mut u32,
        sums_len: usize,
        best: *mut u64,
        best_len: usize,
        next: *mut u32,
        next_len: usize,
        left: *mut u32,
        left_len: usize,
        right: *mut u32,
        right_len: usize,
        moves: *mut u32,
        moves_len: usize,
        boundaries: *mut u32,
        boundaries_len: usize,
    ) -> Told;

    pub fn hathurmo_penalty(limits: Limits, length: u32) -> Told;

    pub fn hathurmo_read_job(job: *const u8, job_len: usize, lengths: *mut u32, lengths_len: usize) -> Job;
}
