//! Compares the static library with document 01 as rendered in `paper` and `brute`: what is told, every entry of every strip, the
//! entries past the part used, the memory around the strips, and the inputs. `tests/outside/run` builds and runs it.
mod brute;
mod call;
mod cases;
mod paper;
mod random;

use hathurmo::raw::{Limits, PageLimits};
use hathurmo::NO_SETTING;
use random::Random;
use std::sync::atomic::{AtomicUsize, Ordering};
use std::sync::Mutex;

const SEED: u64 = 19_870_001;
/// Each kind of case is split into so many parts; a part has its own seed, so the number of threads changes nothing.
const PARTS: usize = 16;

/// What was met: calls, refusals by number, moves by kind, starts below the least last length with a front.
#[derive(Default)]
struct Tally {
    calls: usize,
    numbers: [usize; 8],
    kinds: [usize; 8],
    barred: usize,
}

impl Tally {
    fn note(&mut self, number: u32, moves: &[u32]) {
        self.calls += 1;
        self.numbers[number as usize] += 1;
        for entry in moves {
            self.kinds[(entry % 8) as usize] += 1;
        }
    }

    fn join(&mut self, other: &Tally) {
        self.calls += other.calls;
        self.barred += other.barred;
        for k in 0..8 {
            self.numbers[k] += other.numbers[k];
            self.kinds[k] += other.kinds[k];
        }
    }
}

type Done = Result<(), String>;

fn set_paragraph(tally: &mut Tally, r: &mut Random, limits: Limits, lengths: &[u32], lent: &[usize]) -> Done {
    let said = |what| format!("{what}\n  paragraph {limits:?}, lengths {lengths:?}, strips lent {lent:?}");
    let (told, outcome) = call::paragraph(limits, lengths, lent, r).map_err(said)?;
    tally.note(told.number, &outcome.narrow[3]);
    tally.barred += outcome.barred;
    Ok(())
}

fn set_index(tally: &mut Tally, r: &mut Random, limits: PageLimits, lengths: &[u32], lent: &[usize]) -> Done {
    let said = |what| format!("{what}\n  index {limits:?}, lengths {lengths:?}, strips lent {lent:?}");
    let (told, outcome) = call::index(limits, lengths, lent, r).map_err(said)?;
    tally.note(told.number, &outcome.narrow[4]);
    Ok(())
}

/// Lists short enough to list every setting: the plain way itself is compared first.
fn brute_lists(r: &mut Random, tally: &mut Tally) -> Done {
    let (lengths, widest) = cases::short_lengths(r, 9);
    let (limits, words) = cases::paragraph(r, &lengths, widest);
    let pages = cases::page_limits(r, widest);
    assert_eq!(paper::paragraph_starts(limits, &paper::sums(&words)), brute::paragraph(limits, &words), "{limits:?} {words:?}");
    assert_eq!(paper::index_starts(pages, &lengths, &paper::sums(&lengths)), brute::index(pages, &lengths), "{pages:?} {lengths:?}");
    set_paragraph(tally, r, limits, &words, &paper::paragraph_room(words.len()))?;
    set_index(tally, r, pages, &lengths, &paper::index_room(lengths.len()))
}

fn lists(r: &mut Random, tally: &mut Tally, most: usize) -> Done {
    let (lengths, widest) = cases::short_lengths(r, most);
    let n = lengths.len();
    let (limits, words) = cases::paragraph(r, &lengths, widest);
    let pages = cases::page_limits(r, widest);
    let (lent, page_lent) = (cases::lent_enough(r, &paper::paragraph_room(n)), cases::lent_enough(r, &paper::index_room(n)));
    set_paragraph(tally, r, limits, &words, &lent)?;
    set_index(tally, r, pages, &lengths, &page_lent)
}

fn short_lists(r: &mut Random, tally: &mut Tally) -> Done {
    lists(r, tally, 40)
}

fn middle_lists(r: &mut Random, tally: &mut Tally) -> Done {
    lists(r, tally, 400)
}

fn chord_lists(r: &mut Random, tally: &mut Tally) -> Done {
    let (limits, lengths) = cases::chord_list(r, 60);
    set_paragraph(tally, r, limits, &lengths, &paper::paragraph_room(lengths.len()))
}

fn crossing_lists(r: &mut Random, tally: &mut Tally) -> Done {
    let (limits, lengths) = cases::crossing_list(r, 30);
    set_paragraph(tally, r, limits, &lengths, &paper::paragraph_room(lengths.len()))
}

/// The library says and writes the same under both limits, in strips that are now and then too short.
fn set_both(tally: &mut Tally, r: &mut Random, both: [Limits; 2], lengths: &[u32]) -> Done {
    let needed = paper::paragraph_room(lengths.len());
    let lent = if r.once_in(8) { cases::lent_near(r, &needed) } else { cases::lent_enough(r, &needed) };
    let said = |what| format!("{what}\n  paragraph {both:?}, lengths {lengths:?}, strips lent {lent:?}");
    let told = call::same_paragraph(both, lengths, &lent, r).map_err(said)?;
    tally.note(told.number, &[]);
    tally.note(told.number, &[]);
    Ok(())
}

/// A paragraph with a space is the one without it whose lmin, lopt, lmax and, but for 0, lastmin are each raised by it.
fn raised_limits(r: &mut Random, tally: &mut Tally) -> Done {
    let most = r.pick(&[6, 30, 200]);
    let (limits, lengths) = cases::raisable_list(r, most);
    set_both(tally, r, [limits, cases::raised(limits)], &lengths)
}

/// Edition 2 with lastmin 0 is edition 1, where the other limits or the lengths are bad too.
fn equal_editions(r: &mut Random, tally: &mut Tally) -> Done {
    let most = r.pick(&[6, 30, 200]);
    let (lengths, widest) = cases::short_lengths(r, most);
    let (mut limits, mut lengths) = match r.within(1, 4) {
        1 => cases::chord_list(r, most),
        2 => cases::crossing_list(r, most),
        _ => cases::paragraph(r, &lengths, widest),
    };
    if r.once_in(16) {
        limits = cases::damaged_limits(r, limits);
    }
    if r.once_in(16) {
        lengths = cases::damaged_lengths(r, lengths, limits.space);
    }
    set_both(tally, r, cases::both_editions(limits), &lengths)
}

/// W-205's worked cases: limits, lengths, refusal, total, breaks, best, next, moves.
type Worked = (Limits, &'static [u32], u32, u64, &'static [u32], &'static [u64], &'static [u32], &'static [u32]);

const WORKED: [Worked; 4] = [
    (Limits::new(1, 2, 2, 1).with_lastmin(2), &[1], 6, 0, &[], &[NO_SETTING, 0], &[0, 0], &[17]),
    (
        Limits::new(1, 6, 6, 1).with_lastmin(4),
        &[3, 2, 2, 3],
        0,
        1,
        &[1, 3],
        &[1, 16, 0, NO_SETTING, 0],
        &[3, 3, 5, 0, 0],
        &[41, 34, 43, 25, 17],
    ),
    (Limits::new(2, 4, 6, 1).with_lastmin(3), &[3, 2, 2], 0, 1, &[1, 2], &[1, 0, NO_SETTING, 0], &[2, 4, 0, 0], &[33, 26, 35, 17]),
    (
        Limits::new(2, 5, 7, 1).with_space(1).with_lastmin(4),
        &[4, 3, 3, 2],
        0,
        1,
        &[1, 3],
        &[1, 4, 0, NO_SETTING, 0],
        &[3, 5, 5, 0, 0],
        &[41, 34, 25, 43, 17],
    ),
];

/// The worked cases as they were worked on paper; the library is then compared with what `paper` says of them.
fn worked_last_lines(r: &mut Random, tally: &mut Tally) -> Done {
    for (limits, lengths, number, total, breaks, best, next, moves) in WORKED {
        let lent = cases::lent_enough(r, &paper::paragraph_room(lengths.len()));
        let outcome = paper::paragraph(limits, lengths, &lent);
        assert_eq!((outcome.told.number, outcome.told.total), (number, total), "{limits:?}");
        assert_eq!(outcome.best, best, "{limits:?}");
        assert_eq!(outcome.narrow, [&paper::sums(lengths), next, &vec![0; lengths.len()], moves, breaks], "{limits:?}");
        set_paragraph(tally, r, limits, lengths, &lent)?;
    }
    Ok(())
}

fn long_lists(r: &mut Random, tally: &mut Tally) -> Done {
    let (lengths, widest) = cases::long_lengths(r);
    let n = lengths.len();
    let (limits, words) = cases::long_paragraph(r, &lengths, widest);
    let pages = cases::long_page_limits(r, widest);
    let (lent, page_lent) = (cases::lent_enough(r, &paper::paragraph_room(n)), cases::lent_enough(r, &paper::index_room(n)));
    set_paragraph(tally, r, limits, &words, &lent)?;
    set_index(tally, r, pages, &lengths, &page_lent)
}

/// Some of limits, lengths and strips are bad, so that the order of the refusals shows.
fn damaged_lists(r: &mut Random, tally: &mut Tally) -> Done {
    let (mut lengths, widest) = cases::short_lengths(r, 12);
    let (mut limits, mut words) = cases::paragraph(r, &lengths, widest);
    let mut pages = cases::page_limits(r, widest);
    if r.once_in(2) {
        (limits, pages) = (cases::damaged_limits(r, limits), cases::damaged_page_limits(r, pages));
    }
    if r.once_in(2) {
        (words, lengths) = (cases::damaged_lengths(r, words, limits.space), cases::damaged_lengths(r, lengths, 0));
    }
    let lent = cases::lent_near(r, &paper::paragraph_room(words.len()));
    let page_lent = cases::lent_near(r, &paper::index_room(lengths.len()));
    set_paragraph(tally, r, limits, &words, &lent)?;
    set_index(tally, r, pages, &lengths, &page_lent)
}

/// The digits of a number in base 3, each 0, 1 or 2, low digit first.
fn thirds(number: usize, count: usize) -> Vec<usize> {
    (0..count).map(|place| number / 3usize.pow(place as u32) % 3).collect()
}

/// Every strip one entry short, just enough or one entry longer, in every combination: one n a case.
fn strip_lengths(r: &mut Random, tally: &mut Tally) -> Done {
    let space = r.within(0, 2);
    let lengths: Vec<u32> = (0..r.size(1, 6)).map(|_| r.within(space + 1, space + 4)).collect();
    let near = |needed: Vec<usize>, number| -> Vec<usize> {
        needed.iter().zip(thirds(number, needed.len())).map(|(needed, third)| needed + third - 1).collect()
    };
    let first = Limits::new(1, 5, 6, 2).with_space(space);
    let limits = r.pick(&[first, first.with_lastmin(4)]);
    for number in 0..3usize.pow(6) {
        let lent = near(paper::paragraph_room(lengths.len()), number);
        set_paragraph(tally, r, limits, &lengths, &lent)?;
    }
    for number in 0..3usize.pow(7) {
        let lent = near(paper::index_room(lengths.len()), number);
        set_index(tally, r, PageLimits { lmin: 0, lmax: 5 }, &lengths, &lent)?;
    }
    Ok(())
}

fn jobs(r: &mut Random, tally: &mut Tally) -> Done {
    let job = if r.once_in(4) { cases::job(r) } else { cases::damaged_job(r) };
    let held = job.len() / 4;
    // A whole job has 7, 6 or 4 numbers that are no lengths.
    let room = if r.once_in(2) { held.saturating_sub(r.size(3, 8)) } else { r.pick(&[4096, 60, held, 0]) };
    let number = call::job(&job, room, r).map_err(|what| format!("{what}\n  job {job:?}, lengths strip {room}"))?;
    tally.note(number, &[]);
    Ok(())
}

/// One whole job cut at every byte and lengthened by up to 9, with every length of the lengths strip near n.
fn cut_jobs(r: &mut Random, tally: &mut Tally) -> Done {
    let mut job = cases::job(r);
    let whole = job.len();
    job.extend([9; 9]);
    let room = r.pick(&[whole / 4, (whole / 4).saturating_sub(7), (whole / 4).saturating_sub(8), 4096]);
    for len in 0..=job.len() {
        let number = call::job(&job[..len], room, r).map_err(|what| format!("{what}\n  job {:?}, strip {room}", &job[..len]))?;
        tally.note(number, &[]);
    }
    Ok(())
}

/// Jobs on both sides of the most that is read, with a lengths strip on both sides of the most that is needed.
fn long_jobs(r: &mut Random, tally: &mut Tally) -> Done {
    let n = r.within(4094, 4098);
    let mut numbers = [vec![5, 1, 6, 6, 1, 1, n], vec![4, 1, 6, 6, 1, n], vec![2, 2, 7, n]][r.size(0, 2)].clone();
    numbers.extend((0..n).map(|_| r.within(1, 4095)));
    let mut job = cases::packed(&numbers);
    job.truncate(job.len() - r.pick(&[0, 0, 0, 1, 4]));
    job.resize(job.len() + r.pick(&[0, 0, 0, 1, 4]), 0);
    let room = r.size(4093, 4099);
    let number = call::job(&job, room, r).map_err(|what| format!("{what}\n  job of {n} lengths in {} bytes, strip {room}", job.len()))?;
    tally.note(number, &[]);
    Ok(())
}

fn penalties(r: &mut Random, tally: &mut Tally) -> Done {
    let widest = r.pick(&[3, 60, 4095]);
    let (mut limits, _) = cases::paragraph(r, &[], widest);
    if r.once_in(4) {
        limits = cases::damaged_limits(r, limits);
    }
    let any = r.bits() as u32;
    let (low, high) = (limits.lmin, limits.lmax);
    let edges = [low.wrapping_sub(1), low, low.wrapping_add(1), limits.lopt, high.wrapping_sub(1), high, high.wrapping_add(1)];
    let far = [0, 1, 4095, any % 4097, any % 16_773_121, 16_773_120, 16_773_121, u32::MAX, any];
    let length = if r.once_in(2) { r.pick(&edges) } else { r.pick(&far) };
    let told = call::penalty(limits, length).map_err(|what| format!("{what}\n  penalty {limits:?}, length {length}"))?;
    tally.note(told.number, &[]);
    Ok(())
}

/// The safe functions say what the raw ones say.
fn wrapped(r: &mut Random, tally: &mut Tally) -> Done {
    let (lengths, widest) = cases::short_lengths(r, 20);
    let (limits, lengths) = cases::paragraph(r, &lengths, widest);
    let mut room = hathurmo::ParagraphRoom::new(lengths.len());
    let said = hathurmo::set_paragraph(limits, &lengths, room.lend());
    let outcome = paper::paragraph(limits, &lengths, &paper::paragraph_room(lengths.len()));
    let moves = outcome.told.moves as usize;
    let expected = match outcome.told.number {
        0 => Ok(hathurmo::Setting { total: outcome.told.total, lines: outcome.told.lines as usize, moves }),
        _ => Err(hathurmo::Refusal::None { moves }),
    };
    tally.note(outcome.told.number, &outcome.narrow[3]);
    if said == expected { Ok(()) } else { Err(format!("the wrapper: {said:?}, expected {expected:?}\n  {limits:?} {lengths:?}")) }
}

/// A kind of case: its name, how many there are, and one of them.
type Kind = (&'static str, usize, fn(&mut Random, &mut Tally) -> Done);

const KINDS: [Kind; 16] = [
    ("every setting listed", 128_000, brute_lists),
    ("short lists", 240_000, short_lists),
    ("lists up to 400", 16_000, middle_lists),
    ("second-inequality lists", 96_000, chord_lists),
    ("lists up to 4096", 1_600, long_lists),
    ("damaged lists", 200_000, damaged_lists),
    ("strips of every length", 32, strip_lengths),
    ("jobs", 250_000, jobs),
    ("jobs cut at every byte", 1_600, cut_jobs),
    ("jobs of about 4096 lengths", 1_600, long_jobs),
    ("penalties alone", 250_000, penalties),
    ("the safe wrapper", 30_000, wrapped),
    ("crossing lists with a space", 96_000, crossing_lists),
    ("a space and raised limits", 80_000, raised_limits),
    ("edition 2 with lastmin 0 and edition 1", 48_000, equal_editions),
    ("worked last lines", PARTS, worked_last_lines),
];

fn run_part(kind: usize, part: usize) -> Result<Tally, String> {
    let (name, count, case) = KINDS[kind];
    let mut r = Random::new(SEED ^ (kind * PARTS + part) as u64 * 0x1_0000_0001);
    let mut tally = Tally::default();
    for _ in 0..count / PARTS {
        case(&mut r, &mut tally).map_err(|what| format!("{name}: {what}"))?;
    }
    Ok(tally)
}

/// Takes parts until none is left; the first failure ends all.
fn work(next: &AtomicUsize, tallies: &Mutex<Vec<Tally>>) {
    loop {
        let part = next.fetch_add(1, Ordering::Relaxed);
        if part >= KINDS.len() * PARTS {
            return;
        }
        // A part of each kind in turn, so that a failure of any kind shows early.
        let kind = part % KINDS.len();
        match run_part(kind, part / KINDS.len()) {
            Ok(tally) => tallies.lock().expect("no thread failed")[kind].join(&tally),
            Err(what) => {
                eprintln!("{what}");
                std::process::exit(1);
            }
        }
    }
}

/// What was compared; fails where some refusal, some kind of move or some such start was never met, for then little was shown.
fn report(tallies: &[Tally]) {
    let mut all = Tally::default();
    for ((name, _, _), tally) in KINDS.iter().zip(tallies) {
        println!("{:>9} calls  {name}", tally.calls);
        all.join(tally);
    }
    let names = ["set or read", "EMPTY", "MANY", "LIMITS", "LENGTH", "ROOM", "NONE", "JOB"];
    let kinds = ["", "Add", "Pass", "Drop", "Pop", "Step", "Jump", "Link"];
    let join = |names: &[&str], counts: &[usize]| -> Vec<String> {
        names.iter().zip(counts).map(|(name, count)| format!("{name} {count}")).collect()
    };
    println!("{:>9} calls in all: {}", all.calls, join(&names, &all.numbers).join(", "));
    println!("moves compared: {}", join(&kinds[1..], &all.kinds[1..]).join(", "));
    println!("starts below the least last length with a front, which is no chooser: {}", all.barred);
    assert!(all.numbers.iter().all(|&count| count > 0) && all.kinds[1..].iter().all(|&count| count > 0) && all.barred > 0);
    println!("every answer and every entry as documents 01 and 02 say");
}

fn main() {
    let next = AtomicUsize::new(0);
    let tallies = Mutex::new(KINDS.map(|_| Tally::default()).into_iter().collect::<Vec<_>>());
    let threads = std::thread::available_parallelism().map_or(2, |count| count.get());
    std::thread::scope(|scope| {
        for _ in 0..threads {
            scope.spawn(|| work(&next, &tallies));
        }
    });
    report(&tallies.into_inner().expect("no thread failed"));
}
