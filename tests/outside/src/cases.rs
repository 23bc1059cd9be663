//! Lists, limits, strip lengths and job files chosen at random: short and long, valid and damaged.
use crate::random::Random;
use hathurmo::raw::{Limits, PageLimits};

/// Lengths from 1 to `widest`; the narrower the range, the more totals are equal.
pub fn short_lengths(r: &mut Random, most: usize) -> (Vec<u32>, u32) {
    let widest = r.pick(&[1, 2, 2, 3, 5, 9, 40, 400, 4095]);
    let n = r.size(1, most);
    ((0..n).map(|_| r.within(1, widest)).collect(), widest)
}

/// A space: none as often as not, else narrow or wide or the widest.
fn space(r: &mut Random) -> u32 {
    let (narrow, any) = (r.within(1, 20), r.within(1, 255));
    if r.once_in(2) { 0 } else { r.pick(&[1, 1, 2, 3, narrow, any, 255]) }
}

/// The lengths with a space after each; none is above 4,095, and all are above the space, those of one unit by no more than that.
fn spaced(lengths: &[u32], space: u32) -> Vec<u32> {
    lengths.iter().map(|length| (length + space).min(4095)).collect()
}

/// A least last length up to lopt: an end of that range, lmin, any, or within one unit of what some last words are as one line.
fn lastmin(r: &mut Random, l: Limits, words: &[u32]) -> u32 {
    let last = r.size(0, words.len().min(4));
    let rest: u32 = words[words.len() - last..].iter().sum();
    let near = (rest + r.within(0, 2)).saturating_sub(l.space + 1);
    let any = r.within(0, l.lopt);
    r.pick(&[0, 1, l.lmin, l.lopt, any, near, near, near]).min(l.lopt)
}

/// A paragraph under either edition, the first as often as not.
fn of_either_edition(r: &mut Random, l: Limits, words: Vec<u32>) -> (Limits, Vec<u32>) {
    if r.once_in(2) { (l, words) } else { (l.with_lastmin(lastmin(r, l, &words)), words) }
}

/// A paragraph of these words: a space after each, and limits near what they are then.
pub fn paragraph(r: &mut Random, lengths: &[u32], widest: u32) -> (Limits, Vec<u32>) {
    let space = space(r);
    let limits = limits(r, (widest + space).min(4095)).with_space(space);
    of_either_edition(r, limits, spaced(lengths, space))
}

/// Limits near the lengths, loose or tight, lopt often at an end.
fn limits(r: &mut Random, widest: u32) -> Limits {
    let lmax = r.within(2, (5 * widest + 2).min(4095));
    let lmin = if r.once_in(3) { 1 } else { r.pick(&[lmax - 1, lmax / 2 + 1, lmax / 3 + 1]).clamp(1, lmax - 1) };
    let between = r.within(lmin, lmax);
    Limits::new(lmin, r.pick(&[lmin, lmax, between, between]), lmax, r.pick(&[1, 1, 2, 7, 15]))
}

/// Page limits near the lengths; short pages with a low lmin make the pointer jump.
pub fn page_limits(r: &mut Random, widest: u32) -> PageLimits {
    let (loose, short) = (r.within(1, 5 * widest + 2), r.within(widest / 2 + 1, 2 * widest));
    let lmax = r.pick(&[loose, short, 65_535]).min(65_535);
    let (below, third) = (r.within(0, lmax - 1), r.within(0, lmax / 3));
    PageLimits { lmin: r.pick(&[0, lmax - 1, below, third]), lmax }
}

/// Lists on which bridging by the second inequality alone often goes wrong: short words, lopt at lmax, lines of a few words.
pub fn chord_list(r: &mut Random, most: usize) -> (Limits, Vec<u32>) {
    let (lmax, space) = (r.within(4, 12), r.pick(&[0, 0, 1]));
    let limits = Limits::new(r.within(1, 2), r.pick(&[lmax, lmax, lmax - 1]), lmax, r.within(1, 15)).with_space(space);
    let widest = r.within(2, 3);
    let lengths: Vec<u32> = (0..r.size(5, most)).map(|_| r.within(1, widest)).collect();
    of_either_edition(r, limits, spaced(&lengths, space))
}

/// Lists on which the space taken off in the crossing test often goes wrong: words little longer than their space, lmin 1.
pub fn crossing_list(r: &mut Random, most: usize) -> (Limits, Vec<u32>) {
    let (space, widest) = (r.pick(&[1, 1, 2, 3, 5, 255]), r.within(1, 3));
    let lmax = r.within(space + 2, 4 * (space + widest));
    let (inside, low) = (r.within(1, lmax), r.within(1, space + 2));
    let limits = Limits::new(1, r.pick(&[lmax, lmax - 1, inside, low]).min(lmax), lmax, r.within(1, 15)).with_space(space);
    let lengths: Vec<u32> = (0..r.size(4, most)).map(|_| r.within(1, widest)).collect();
    of_either_edition(r, limits, spaced(&lengths, space))
}

/// The limits of the same paragraph with the space at the end of each line counted: each raised by it. A lastmin of 0 asks nothing, and
/// stays.
pub fn raised(l: Limits) -> Limits {
    let lastmin = if l.lastmin == 0 { 0 } else { l.lastmin + l.space };
    Limits { lmin: l.lmin + l.space, lopt: l.lopt + l.space, lmax: l.lmax + l.space, space: 0, lastmin, ..l }
}

/// The limits of the same paragraph under edition 1, and under edition 2 with lastmin 0.
pub fn both_editions(l: Limits) -> [Limits; 2] {
    let first = Limits::new(l.lmin, l.lopt, l.lmax, l.a).with_space(l.space);
    [first, first.with_lastmin(0)]
}

/// A paragraph with a space whose raised limits are limits too.
pub fn raisable_list(r: &mut Random, most: usize) -> (Limits, Vec<u32>) {
    loop {
        let (lengths, widest) = short_lengths(r, most);
        let (limits, lengths) = if r.once_in(3) { crossing_list(r, most) } else { paragraph(r, &lengths, widest) };
        if limits.space > 0 && limits.lmax + limits.space <= 4095 {
            return (limits, lengths);
        }
    }
}

/// Long lists, each with a width of its own: text, one unit, all equal, narrow, wide.
pub fn long_lengths(r: &mut Random) -> (Vec<u32>, u32) {
    let n = if r.once_in(3) { 4096 } else { r.size(1000, 4096) };
    let widest = r.pick(&[1, 2, 12, 12, 64, 1000, 4095]);
    let same = r.within(1, widest);
    let equal = r.once_in(6);
    ((0..n).map(|_| if equal { same } else { r.within(1, widest) }).collect(), widest)
}

/// A long paragraph of these words, a space after each.
pub fn long_paragraph(r: &mut Random, lengths: &[u32], widest: u32) -> (Limits, Vec<u32>) {
    let space = space(r);
    let limits = long_limits(r, widest + space).with_space(space);
    of_either_edition(r, limits, spaced(lengths, space))
}

/// Measures for long lists, from one word a line to thousands.
fn long_limits(r: &mut Random, widest: u32) -> Limits {
    let words = r.pick(&[1, 4, 12, 100, 600, 4095]);
    let lmax = widest.saturating_mul(words).clamp(2, 4095);
    let lmin = r.pick(&[1, lmax / 2, lmax * 3 / 4, lmax - 1]).clamp(1, lmax - 1);
    Limits::new(lmin, r.within(lmin, lmax), lmax, r.within(1, 15))
}

pub fn long_page_limits(r: &mut Random, widest: u32) -> PageLimits {
    let items = r.pick(&[1, 2, 12, 75, 600, 65_535]);
    let lmax = widest.saturating_mul(items).clamp(1, 65_535);
    PageLimits { lmin: r.pick(&[0, lmax / 2, lmax * 3 / 4, lmax - 1]).min(lmax - 1), lmax }
}

/// A number just at or past some bound, or anything at all.
fn odd_number(r: &mut Random) -> u32 {
    let any = r.bits() as u32;
    r.pick(&[0, 1, 15, 16, 255, 256, 4095, 4096, 4097, 65_535, 65_536, 16_773_120, 16_773_121, u32::MAX, any])
}

/// The edition or lastmin at or past a bound of its own, or like a good one in its low bytes, or odd.
fn damaged_last(r: &mut Random, l: Limits) -> Limits {
    let odd = odd_number(r);
    if r.once_in(2) {
        return Limits { edition: r.pick(&[0, 1, 2, 3, 0x0102, 0x1_0001, 0x1_0002, odd]), ..l };
    }
    Limits { lastmin: r.pick(&[0, 1, l.lopt, l.lopt + 1, l.lmax, l.lmax + 1, l.lopt | 0x1_0000, odd]), ..l }
}

/// One of the limits becomes odd.
pub fn damaged_limits(r: &mut Random, l: Limits) -> Limits {
    if r.once_in(3) {
        return damaged_last(r, l);
    }
    let mut numbers = [l.lmin, l.lopt, l.lmax, l.a, l.space];
    numbers[r.size(0, 4)] = odd_number(r);
    let [lmin, lopt, lmax, a, space] = numbers;
    Limits { lmin, lopt, lmax, a, space, ..l }
}

pub fn damaged_page_limits(r: &mut Random, l: PageLimits) -> PageLimits {
    let mut numbers = [l.lmin, l.lmax];
    numbers[r.size(0, 1)] = odd_number(r);
    let [lmin, lmax] = numbers;
    PageLimits { lmin, lmax }
}

/// A length near the space as often as not, else odd.
fn odd_length(r: &mut Random, space: u32) -> u32 {
    if r.once_in(2) { r.pick(&[space.saturating_sub(1), space, space, space.saturating_add(1)]) } else { odd_number(r) }
}

/// One or two lengths become odd; now and then the list is empty or too long. An index has no space: 0.
pub fn damaged_lengths(r: &mut Random, mut lengths: Vec<u32>, space: u32) -> Vec<u32> {
    match r.within(1, 40) {
        1 => return vec![],
        2 => return vec![odd_number(r); r.pick(&[4097, 4098, 5000, 9000])],
        _ => {}
    }
    for _ in 0..r.within(1, 2) {
        let at = r.size(0, lengths.len() - 1);
        lengths[at] = odd_length(r, space);
    }
    lengths
}

/// Each strip a little longer or shorter than needed, sometimes empty.
pub fn lent_near(r: &mut Random, needed: &[usize]) -> Vec<usize> {
    let mut near = |needed: usize| if r.once_in(30) { 0 } else { (needed + r.size(0, 3)).saturating_sub(r.size(0, 1)) };
    needed.iter().map(|&needed| near(needed)).collect()
}

/// Each strip as needed or up to 4 entries longer.
pub fn lent_enough(r: &mut Random, needed: &[usize]) -> Vec<usize> {
    needed.iter().map(|&needed| needed + r.size(0, 4)).collect()
}

pub fn packed(numbers: &[u32]) -> Vec<u8> {
    numbers.iter().flat_map(|number| number.to_le_bytes()).collect()
}

/// A whole job of each kind.
pub fn job(r: &mut Random) -> Vec<u8> {
    let most = r.pick(&[3, 12, 60]);
    let n = r.size(0, most);
    let mut numbers = vec![r.pick(&[5, 5, 4, 2])];
    for _ in 0..numbers[0] {
        numbers.push(odd_number(r));
    }
    numbers.push(n as u32);
    for _ in 0..n {
        numbers.push(if r.once_in(5) { odd_number(r) } else { r.within(1, 4095) });
    }
    packed(&numbers)
}

/// A job cut, lengthened, or with a byte or a whole number changed.
pub fn damaged_job(r: &mut Random) -> Vec<u8> {
    let mut job = job(r);
    for _ in 0..r.within(1, 2) {
        damage(r, &mut job);
    }
    job
}

fn damage(r: &mut Random, job: &mut Vec<u8>) {
    let at = r.size(0, job.len());
    match r.within(1, 6) {
        1 => job.truncate(at),
        2 => job.extend((0..r.within(1, 9)).map(|k| k as u8)),
        3 => job.insert(at, r.bits() as u8),
        4 if at < job.len() => job[at] = r.bits() as u8,
        5 if at < job.len() => job[at] ^= 1 << r.within(0, 7),
        6 if at + 4 <= job.len() => job[at / 4 * 4..at / 4 * 4 + 4].copy_from_slice(&odd_number(r).to_le_bytes()),
        _ => {}
    }
}
