//! Document 01 once more, with the space of W-202 and the editions of W-205, as plainly as can be: for each start every next is tried. Only
//! the moves need the queue and pointer rules; these run over bests that were found the plain way, and must come to the same nexts.
use hathurmo::raw::{Limits, PageLimits, Told};
use hathurmo::NO_SETTING;
use std::collections::VecDeque;

/// What a call must tell, and the front of each strip that it must write. `narrow` has the strips but best, in 01's order. `barred` is how
/// many starts of a paragraph have a front that is no chooser, their rest being below the least last length.
#[derive(Debug)]
pub struct Outcome {
    pub told: Told,
    pub best: Vec<u64>,
    pub narrow: Vec<Vec<u32>>,
    pub barred: usize,
}

/// Best and next of each start, the end last.
#[derive(Debug, PartialEq)]
pub struct Starts {
    pub best: Vec<u64>,
    pub next: Vec<u32>,
}

pub fn told(number: u32, place: usize) -> Told {
    Told { number, place: place as u64, total: 0, lines: 0, moves: 0 }
}

pub fn sums(lengths: &[u32]) -> Vec<u32> {
    let mut all = vec![0];
    for length in lengths {
        all.push(all[all.len() - 1] + length);
    }
    all
}

/// The penalty formula. W-204: neither the plain way nor a queue rule ever applies it to a line outside the measure.
fn penalty(l: Limits, x: u32) -> u64 {
    assert!((l.lmin..=l.lmax).contains(&x), "a line of {x} is outside {l:?}");
    u64::from(l.a) * u64::from(x.abs_diff(l.lopt)).pow(2)
}

/// The least last length, per edition.
fn least_last(l: Limits) -> u32 {
    if l.edition == 2 { l.lastmin } else { 0 }
}

// ---- refusals 1 to 5 ----

/// W-205: above lopt, or not 0 under edition 1, or an edition but 1 or 2.
fn edition_holds(l: Limits) -> bool {
    match l.edition {
        1 => l.lastmin == 0,
        2 => l.lastmin <= l.lopt,
        _ => false,
    }
}

pub fn limits_hold(l: Limits) -> bool {
    let measure = (1..=l.lopt).contains(&l.lmin) && (l.lopt..=4095).contains(&l.lmax) && l.lmin != l.lmax;
    measure && (1..=15).contains(&l.a) && l.space <= 255 && edition_holds(l)
}

pub fn page_limits_hold(l: PageLimits) -> bool {
    l.lmax <= 65_535 && l.lmin < l.lmax
}

pub fn paragraph_room(n: usize) -> Vec<usize> {
    vec![n + 1, n + 1, n + 1, n, 2 * n, n]
}

pub fn index_room(n: usize) -> Vec<usize> {
    vec![n + 1, n + 2, n + 2, n + 2, n + 2, 2 * n, n]
}

/// An index has no space: 0.
fn refused(limits_good: bool, space: u32, lengths: &[u32], needed: &[usize], lent: &[usize]) -> Option<Told> {
    match lengths.len() {
        0 => return Some(told(1, 0)),
        1..=4096 => {}
        _ => return Some(told(2, 0)),
    }
    if !limits_good {
        return Some(told(3, 0));
    }
    if let Some(word) = lengths.iter().position(|&x| x == 0 || x > 4095 || x <= space) {
        return Some(told(4, word + 1));
    }
    let short = needed.iter().zip(lent).position(|(needed, lent)| lent < needed)?;
    Some(told(5, short + 1))
}

/// Nothing is written.
fn untouched(told: Told, narrow: usize) -> Outcome {
    Outcome { told, best: vec![], narrow: vec![vec![]; narrow], barred: 0 }
}

/// The answer strip is the last; NONE leaves it alone.
fn outcome(starts: Starts, first_narrow: Vec<Vec<u32>>, moves: Vec<u32>, answer: Vec<u32>) -> Outcome {
    let total = starts.best[0];
    let none = total == NO_SETTING;
    let count = moves.len() as u64;
    let answer = if none { vec![] } else { answer };
    let told = Told {
        number: if none { 6 } else { 0 },
        place: 0,
        total: if none { 0 } else { total },
        lines: answer.len() as u64,
        moves: count,
    };
    let mut narrow = first_narrow;
    narrow.extend([moves, answer]);
    Outcome { told, best: starts.best, narrow, barred: 0 }
}

// ---- the paragraph ----

/// Entry 0 is start 1.
pub fn paragraph_starts(l: Limits, sums: &[u32]) -> Starts {
    let n = sums.len() - 1;
    let mut starts = Starts { best: vec![0; n + 1], next: vec![0; n + 1] };
    for i in (1..=n).rev() {
        let (mut best, mut next) = (NO_SETTING, 0);
        for j in i + 1..=n + 1 {
            let x = sums[j - 1] - sums[i - 1] - l.space;
            if x > l.lmax {
                break;
            }
            let last = j == n + 1;
            let least = if last { least_last(l) } else { l.lmin };
            if starts.best[j - 1] == NO_SETTING || x < least {
                continue;
            }
            let total = starts.best[j - 1] + if last && x <= l.lopt { 0 } else { penalty(l, x) };
            if total < best || (last && x <= l.lopt) {
                (best, next) = (total, j as u32);
            }
        }
        starts.best[i - 1] = best;
        starts.next[i - 1] = next;
    }
    starts
}

struct Queue<'a> {
    l: Limits,
    sums: &'a [u32],
    best: &'a [u64],
    members: VecDeque<usize>,
    moves: Vec<u32>,
}

impl Queue<'_> {
    /// The plain sum of words i to j-1.
    fn apart(&self, i: usize, j: usize) -> u64 {
        u64::from(self.sums[j - 1] - self.sums[i - 1])
    }

    /// Line(i, j): less the space after its last word, where it has one.
    fn line(&self, i: usize, j: usize) -> u64 {
        if i < j { self.apart(i, j) - u64::from(self.l.space) } else { 0 }
    }

    fn through(&self, i: usize, j: usize) -> u64 {
        self.best[j - 1] + penalty(self.l, self.line(i, j) as u32)
    }

    fn long(&self, i: usize, j: usize) -> bool {
        self.line(i, j) > u64::from(self.l.lmax)
    }

    /// Between two break points the space cancels: the sums are plain.
    fn bridged(&self, j: usize, k: usize, l: usize) -> bool {
        let [bj, bk, bl] = [j, k, l].map(|index| u128::from(self.best[index - 1]));
        let at_edge = |index| u128::from(penalty(self.l, self.l.lmax - self.apart(index, l) as u32));
        let [jk, kl, jl] = [(j, k), (k, l), (j, l)].map(|(from, to)| u128::from(self.apart(from, to)));
        bk + at_edge(k) >= bj + at_edge(j) && jl * bk >= jk * bl + kl * bj + u128::from(self.l.a) * jk * jl * kl
    }

    fn note(&mut self, kind: u32, index: usize) {
        self.moves.push(8 * index as u32 + kind);
    }

    fn drop_front(&mut self) {
        let front = self.members.pop_front().expect("a front stands");
        self.note(3, front);
    }

    fn pop_rear(&mut self) {
        let rear = self.members.pop_back().expect("a rear stands");
        self.note(4, rear);
    }

    fn add(&mut self, i: usize, j: usize) {
        while self.members.back().is_some_and(|&rear| self.through(i, j) <= self.through(i, rear)) {
            self.pop_rear();
        }
        while let [.., l, k] = *self.members.make_contiguous() {
            if !self.bridged(j, k, l) {
                break;
            }
            self.pop_rear();
        }
        self.members.push_back(j);
        self.note(1, j);
    }

    /// The three rules at start i, from a candidate; the next candidate.
    fn at_start(&mut self, i: usize, mut candidate: usize) -> usize {
        while self.members.front().is_some_and(|&front| self.long(i, front)) {
            self.drop_front();
        }
        while self.line(i, candidate) >= u64::from(self.l.lmin) {
            if self.long(i, candidate) || self.best[candidate - 1] == NO_SETTING {
                self.note(2, candidate);
            } else {
                self.add(i, candidate);
            }
            candidate -= 1;
        }
        while self.members.len() >= 2 && self.through(i, self.members[1]) <= self.through(i, self.members[0]) {
            self.drop_front();
        }
        candidate
    }
}

/// The moves of the queue rules, and at how many starts a front stands that is no chooser. Where the front is the chooser it must be the
/// next that the plain way found; below the least last length that way must have found none.
fn queue_moves(l: Limits, sums: &[u32], starts: &Starts) -> (Vec<u32>, usize) {
    let n = sums.len() - 1;
    let mut queue = Queue { l, sums, best: &starts.best, members: VecDeque::new(), moves: vec![] };
    let mut candidate = n + 1;
    let mut barred = 0;
    for i in (1..=n).rev() {
        candidate = queue.at_start(i, candidate);
        let front = queue.members.front().map_or(0, |&front| front as u32);
        let rest = sums[n] - sums[i - 1] - l.space;
        if rest > l.lopt {
            assert_eq!(front, starts.next[i - 1], "the front is the chosen next of start {i}");
        } else if rest < least_last(l) {
            assert_eq!(starts.next[i - 1], 0, "start {i} has no setting");
            barred += usize::from(front != 0);
        }
    }
    assert!(queue.moves.len() <= 2 * n);
    (queue.moves, barred)
}

pub fn paragraph(l: Limits, lengths: &[u32], lent: &[usize]) -> Outcome {
    let n = lengths.len();
    if let Some(told) = refused(limits_hold(l), l.space, lengths, &paragraph_room(n), lent) {
        return untouched(told, 5);
    }
    let sums = sums(lengths);
    let starts = paragraph_starts(l, &sums);
    let (moves, barred) = queue_moves(l, &sums, &starts);
    let mut breaks = vec![];
    let mut at = 1;
    while 0 < at && at <= n {
        breaks.push(at as u32);
        at = starts.next[at - 1] as usize;
    }
    let first = vec![sums, starts.next.clone(), vec![0; n]];
    Outcome { barred, ..outcome(starts, first, moves, breaks) }
}

// ---- the index ----

/// Entry 0 is start 0.
pub fn index_starts(l: PageLimits, lengths: &[u32], sums: &[u32]) -> Starts {
    let n = lengths.len();
    let mut starts = Starts { best: vec![0; n + 2], next: vec![0; n + 2] };
    for i in (0..=n).rev() {
        let (mut best, mut next) = (NO_SETTING, 0);
        for j in i + 1..=n + 1 {
            let page = sums[j - 1] - sums[i];
            if page > l.lmax {
                break;
            }
            // Not larger, so that the largest of equal choices is taken.
            if page >= l.lmin && starts.best[j] != NO_SETTING && starts.best[j] <= best {
                (best, next) = (starts.best[j], j as u32);
            }
        }
        let own = if i == 0 { 0 } else { u64::from(lengths[i - 1]) };
        starts.best[i] = if best == NO_SETTING { best } else { best + own };
        starts.next[i] = next;
    }
    starts
}

/// The largest k with 1 <= k < j whose best is smaller, or 0.
fn left_of(best: &[u64], j: usize) -> u32 {
    (1..j).rev().find(|&k| best[k] < best[j]).unwrap_or(0) as u32
}

/// The smallest k > j whose best is not larger: the end's best is 0, so there is one.
fn right_of(best: &[u64], j: usize) -> u32 {
    (j + 1..best.len()).find(|&k| best[k] <= best[j]).expect("the end's best is 0") as u32
}

struct Pointer<'a> {
    l: PageLimits,
    sums: &'a [u32],
    best: &'a [u64],
    left: Vec<usize>,
    right: Vec<usize>,
    r: usize,
    moves: Vec<u32>,
}

impl Pointer<'_> {
    fn gap(&self, a: usize, b: usize) -> u32 {
        self.sums[b - 1] - self.sums[a]
    }

    fn note(&mut self, kind: u32, index: usize) {
        self.moves.push(8 * index as u32 + kind);
    }

    fn settle(&mut self, i: usize) {
        while self.gap(i, self.r) > self.l.lmax {
            self.r -= 1;
            self.note(5, self.r);
        }
        while self.left[self.r] != 0 && self.gap(i, self.left[self.r]) >= self.l.lmin {
            self.r = self.left[self.r];
            self.note(6, self.r);
        }
    }

    /// The start that the pointer chooses, 0 for none.
    fn chosen(&self, i: usize) -> u32 {
        let fits = (self.l.lmin..=self.l.lmax).contains(&self.gap(i, self.r));
        if fits && self.best[self.r] != NO_SETTING { self.r as u32 } else { 0 }
    }

    fn link(&mut self, i: usize) {
        let mut k = i + 1;
        while self.best[k] > self.best[i] {
            self.left[k] = i;
            self.note(7, k);
            k = self.right[k];
        }
        self.right[i] = k;
    }
}

/// The moves of the pointer rules, which must choose what the plain way found.
fn pointer_moves(l: PageLimits, sums: &[u32], starts: &Starts) -> Vec<u32> {
    let n = sums.len() - 1;
    let none = vec![0; n + 2];
    let mut pointer = Pointer { l, sums, best: &starts.best, left: none.clone(), right: none, r: n + 1, moves: vec![] };
    for i in (0..=n).rev() {
        pointer.settle(i);
        assert_eq!(pointer.chosen(i), starts.next[i], "the pointer is the chosen next of start {i}");
        if i >= 1 {
            pointer.link(i);
        }
    }
    assert!(pointer.moves.len() <= 2 * n);
    pointer.moves
}

pub fn index(l: PageLimits, lengths: &[u32], lent: &[usize]) -> Outcome {
    let n = lengths.len();
    if let Some(told) = refused(page_limits_hold(l), 0, lengths, &index_room(n), lent) {
        return untouched(told, 6);
    }
    let sums = sums(lengths);
    let starts = index_starts(l, lengths, &sums);
    let moves = pointer_moves(l, &sums, &starts);
    let left = (0..=n + 1).map(|j| if j == 0 { 0 } else { left_of(&starts.best, j) }).collect();
    let right = (0..=n + 1).map(|j| if j == 0 || j == n + 1 { 0 } else { right_of(&starts.best, j) }).collect();
    let mut boundaries = vec![];
    let mut at = starts.next[0] as usize;
    while 0 < at && at <= n {
        boundaries.push(at as u32);
        at = starts.next[at] as usize;
    }
    let first = vec![sums, starts.next.clone(), left, right];
    outcome(starts, first, moves, boundaries)
}

// ---- the penalty alone and the job reader ----

/// The length is the line's own, the space already off. Which line it is nobody says, so no length is compared with lastmin.
pub fn penalty_alone(l: Limits, length: u32) -> Told {
    if !limits_hold(l) {
        return told(3, 0);
    }
    if length > 16_773_120 {
        return told(4, 0);
    }
    let total = if (l.lmin..=l.lmax).contains(&length) { penalty(l, length) } else { NO_SETTING };
    Told { total, ..told(0, 0) }
}

/// A job's count, its limits and its lengths, or the refusal's number and place.
pub fn read_job(job: &[u8], room: usize) -> Result<(u32, Vec<u32>, Vec<u32>), (u32, usize)> {
    let number = |k: usize| match job.get(4 * k..4 * k + 4) {
        Some(bytes) => Ok(u32::from_le_bytes(bytes.try_into().expect("four bytes"))),
        None => Err((7, 4 * k)),
    };
    let count = number(0)?;
    if ![5, 4, 2].contains(&count) {
        return Err((7, 0));
    }
    let head = count as usize + 1;
    let limits = (1..head).map(number).collect::<Result<_, _>>()?;
    let n = number(head)? as usize;
    if n > 4096 {
        return Err((2, 0));
    }
    if n > room {
        return Err((5, 1));
    }
    let end = head + 1 + n;
    let lengths = (head + 1..end).map(number).collect::<Result<_, _>>()?;
    if job.len() > 4 * end {
        return Err((7, 4 * end));
    }
    Ok((count, limits, lengths))
}
