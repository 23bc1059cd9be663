//! The definitions of document 01, with the space of W-202, the editions of W-205 and nothing clever: every setting and every boundary
//! sequence is listed.
use crate::paper::Starts;
use hathurmo::raw::{Limits, PageLimits};
use hathurmo::NO_SETTING;

/// The points of a list that begins with `first`: those from first+1 to n whose bit is set, then n+1.
fn points(first: usize, n: usize, bits: u32) -> Vec<usize> {
    let later = (first + 1..=n).filter(|point| bits >> (point - first - 1) & 1 == 1);
    std::iter::once(first).chain(later).chain(std::iter::once(n + 1)).collect()
}

/// The length of a line of these words, at least one: the space after the last of them is off.
fn line(l: Limits, words: &[u32]) -> u32 {
    words.iter().sum::<u32>() - l.space
}

/// The least that a line may have: the last one anything under edition 1, lastmin under edition 2.
fn least(l: Limits, last: bool) -> u32 {
    match (last, l.edition) {
        (false, _) => l.lmin,
        (true, 1) => 0,
        (true, _) => l.lastmin,
    }
}

/// The total of a setting, where it is admissible.
fn setting_total(l: Limits, lengths: &[u32], points: &[usize]) -> Option<u64> {
    let n = lengths.len();
    let mut total = 0;
    for ends in points.windows(2) {
        let x = line(l, &lengths[ends[0] - 1..ends[1] - 1]);
        let last = ends[1] == n + 1;
        if x < least(l, last) || l.lmax < x {
            return None;
        }
        let off = u64::from(x.abs_diff(l.lopt));
        total += if last && x <= l.lopt { 0 } else { u64::from(l.a) * off * off };
    }
    Some(total)
}

pub fn paragraph(l: Limits, lengths: &[u32]) -> Starts {
    let n = lengths.len();
    let mut starts = Starts { best: vec![0; n + 1], next: vec![0; n + 1] };
    for i in 1..=n {
        let all = (0..1 << (n - i)).map(|bits| points(i, n, bits));
        let found = all.filter_map(|p| setting_total(l, lengths, &p).map(|total| (total, p[1]))).min();
        let (best, next) = found.unwrap_or((NO_SETTING, 0));
        let free = (least(l, true)..=l.lopt).contains(&line(l, &lengths[i - 1..]));
        starts.best[i - 1] = best;
        starts.next[i - 1] = if free { n as u32 + 1 } else { next as u32 };
    }
    starts
}

/// The key total of a boundary sequence with the length of its first point, where every page lies in lmin..lmax.
fn key_total(l: PageLimits, lengths: &[u32], points: &[usize]) -> Option<u64> {
    let paged = points.windows(2).all(|page| {
        let x: u32 = lengths[page[0]..page[1] - 1].iter().sum();
        l.lmin <= x && x <= l.lmax
    });
    let keys = points.iter().filter(|&&point| 1 <= point && point <= lengths.len());
    paged.then(|| keys.map(|&point| u64::from(lengths[point - 1])).sum())
}

pub fn index(l: PageLimits, lengths: &[u32]) -> Starts {
    let n = lengths.len();
    let mut starts = Starts { best: vec![0; n + 2], next: vec![0; n + 2] };
    for i in 0..=n {
        let all = (0..1 << (n - i)).map(|bits| points(i, n, bits));
        // Of equal totals the largest next comes first.
        let least = all.filter_map(|p| key_total(l, lengths, &p).map(|total| (total, n + 1 - p[1]))).min();
        (starts.best[i], starts.next[i]) = least.map_or((NO_SETTING, 0), |(total, back)| (total, (n + 1 - back) as u32));
    }
    starts
}
