//! The compositor's table, the cases of W-202 and W-205, each refusal and every penalty through the safe functions. The rest of the engine
//! is tried in tests/outside.
use super::*;

fn spaced(lmin: u32, lopt: u32, lmax: u32, a: u32, space: u32) -> Limits {
    Limits::new(lmin, lopt, lmax, a).with_space(space)
}

/// Total and breaks of a paragraph.
fn broken(limits: Limits, lengths: &[u32]) -> Result<(u64, Vec<u32>), Refusal> {
    let mut room = ParagraphRoom::new(lengths.len());
    let setting = set_paragraph(limits, lengths, room.lend())?;
    Ok((setting.total, room.breaks[..setting.lines].to_vec()))
}

/// Key total and boundaries of an index.
fn paged(lmin: u32, lmax: u32, lengths: &[u32]) -> Result<(u64, Vec<u32>), Refusal> {
    let mut room = IndexRoom::new(lengths.len());
    let setting = set_index(PageLimits { lmin, lmax }, lengths, room.lend())?;
    Ok((setting.total, room.boundaries[..setting.lines].to_vec()))
}

fn packed(numbers: &[u32]) -> Vec<u8> {
    numbers.iter().flat_map(|number| number.to_le_bytes()).collect()
}

#[test]
fn marked_paragraphs() {
    assert_eq!(broken(Limits::new(1, 6, 6, 1), &[3, 2, 2, 5]), Ok((13, vec![1, 2, 4])));
    assert_eq!(broken(Limits::new(6, 8, 10, 1), &[4, 4, 3, 5, 2]), Ok((0, vec![1, 3, 5])));
    assert_eq!(broken(Limits::new(2, 4, 6, 1), &[3, 2, 2]), Ok((1, vec![1, 2])));
    assert!(matches!(broken(Limits::new(6, 8, 9, 1), &[5, 5]), Err(Refusal::None { .. })));
    assert_eq!(broken(Limits::new(6, 8, 9, 1), &[5]), Ok((0, vec![1])));
    assert_eq!(broken(Limits::new(6, 8, 10, 1), &[10]), Ok((4, vec![1])));
    assert!(matches!(broken(Limits::new(6, 8, 10, 1), &[11]), Err(Refusal::None { .. })));
    assert_eq!(broken(Limits::new(6, 8, 10, 15), &[10]), Ok((60, vec![1])));
}

/// W-202's worked cases: limits, lengths, total, breaks, best, moves.
type Worked = (Limits, &'static [u32], u64, &'static [u32], &'static [u64], &'static [u32]);

#[test]
fn worked_with_a_space() {
    let cases: [Worked; 5] = [
        (spaced(1, 6, 6, 1, 0), &[3, 2, 2, 5], 13, &[1, 2, 4], &[13, 4, 16, 0, 0], &[41, 43, 33, 25, 35, 28, 17]),
        (spaced(1, 5, 6, 1, 1), &[4, 3, 3, 6], 4, &[1, 2, 4], &[4, 0, 9, 0, 0], &[41, 43, 33, 25, 35, 28, 17]),
        (spaced(1, 1, 2, 1, 1), &[2], 0, &[1], &[0, 0], &[17]),
        (spaced(2, 4, 6, 1, 1), &[4, 3, 3], 2, &[1, 2], &[2, 1, 0, 0], &[33, 25, 35, 28, 17]),
        (spaced(6, 8, 10, 1, 2), &[4, 4, 3, 5, 5], 1, &[1, 4], &[1, 4, 4, 0, 0, 0], &[49, 51, 41, 43, 33, 25]),
    ];
    for (limits, lengths, total, breaks, best, moves) in cases {
        let mut room = ParagraphRoom::new(lengths.len());
        let setting = set_paragraph(limits, lengths, room.lend()).unwrap();
        assert_eq!(setting, Setting { total, lines: breaks.len(), moves: moves.len() });
        assert_eq!(room.breaks[..setting.lines], *breaks);
        assert_eq!(room.best, best);
        assert_eq!(room.moves[..setting.moves], *moves);
    }
}

/// Between two break points the space cancels: taken off in the crossing test, these would cost 4 and 49.
#[test]
fn the_crossing_test_keeps_plain_sums() {
    assert_eq!(broken(spaced(1, 3, 9, 1, 1), &[2, 2, 2, 3]), Ok((1, vec![1, 3])));
    assert_eq!(broken(spaced(1, 8, 25, 1, 5), &[6, 6, 8, 7]), Ok((5, vec![1, 3])));
}

#[test]
fn spaces_that_are_refused() {
    assert_eq!(broken(spaced(1, 6, 6, 1, 255), &[256]), Ok((0, vec![1])));
    assert_eq!(broken(spaced(1, 6, 6, 1, 256), &[257]), Err(Refusal::Limits));
    assert_eq!(broken(spaced(1, 6, 6, 1, 256), &[0]), Err(Refusal::Limits));
    assert_eq!(broken(spaced(1, 6, 6, 1, u32::MAX), &[257]), Err(Refusal::Limits));
    assert_eq!(broken(spaced(1, 6, 6, 1, 2), &[3, 4, 2, 0]), Err(Refusal::Length { word: 3 }));
    assert_eq!(broken(spaced(1, 6, 6, 1, 255), &[255]), Err(Refusal::Length { word: 1 }));
    assert!(matches!(broken(spaced(6, 8, 9, 1, 1), &[6, 6]), Err(Refusal::None { .. })));
}

/// W-205's worked cases: limits, lengths, total (`None` for NONE), breaks, best, next, moves.
type LastLine = (Limits, &'static [u32], Option<u64>, &'static [u32], &'static [u64], &'static [u32], &'static [u32]);

const LAST_LINES: [LastLine; 4] = [
    (Limits::new(1, 2, 2, 1).with_lastmin(2), &[1], None, &[], &[NO_SETTING, 0], &[0, 0], &[17]),
    (
        Limits::new(1, 6, 6, 1).with_lastmin(4),
        &[3, 2, 2, 3],
        Some(1),
        &[1, 3],
        &[1, 16, 0, NO_SETTING, 0],
        &[3, 3, 5, 0, 0],
        &[41, 34, 43, 25, 17],
    ),
    (
        Limits::new(2, 4, 6, 1).with_lastmin(3),
        &[3, 2, 2],
        Some(1),
        &[1, 2],
        &[1, 0, NO_SETTING, 0],
        &[2, 4, 0, 0],
        &[33, 26, 35, 17],
    ),
    (
        Limits::new(2, 5, 7, 1).with_space(1).with_lastmin(4),
        &[4, 3, 3, 2],
        Some(1),
        &[1, 3],
        &[1, 4, 0, NO_SETTING, 0],
        &[3, 5, 5, 0, 0],
        &[41, 34, 25, 43, 17],
    ),
];

#[test]
fn worked_under_edition_2() {
    for (limits, lengths, total, breaks, best, next, moves) in LAST_LINES {
        let mut room = ParagraphRoom::new(lengths.len());
        let told = match total {
            Some(total) => Ok(Setting { total, lines: breaks.len(), moves: moves.len() }),
            None => Err(Refusal::None { moves: moves.len() }),
        };
        assert_eq!(set_paragraph(limits, lengths, room.lend()), told);
        assert_eq!(room.breaks[..breaks.len()], *breaks);
        assert_eq!(room.best, best);
        assert_eq!(room.next, next);
        assert_eq!(room.moves[..moves.len()], *moves);
    }
}

/// Limits that break a rule of the edition or of lastmin, and those that keep it by one unit.
#[test]
fn editions_that_are_refused() {
    let first = Limits::new(1, 6, 7, 1);
    for edition in [0, 3, u32::MAX] {
        assert_eq!(broken(Limits { edition, ..first }, &[3]), Err(Refusal::Limits));
        assert_eq!(broken(Limits { edition, ..first.with_lastmin(3) }, &[3]), Err(Refusal::Limits));
    }
    for lastmin in [7, u32::MAX] {
        assert_eq!(broken(first.with_lastmin(lastmin), &[7]), Err(Refusal::Limits));
    }
    assert_eq!(broken(first.with_lastmin(6), &[6]), Ok((0, vec![1])));
    for lastmin in [1, u32::MAX] {
        assert_eq!(broken(Limits { lastmin, ..first }, &[3]), Err(Refusal::Limits));
    }
    assert_eq!(broken(first.with_lastmin(7), &[]), Err(Refusal::Empty));
    assert_eq!(broken(first.with_lastmin(7), &[0]), Err(Refusal::Limits));
    assert_eq!(broken(first.with_lastmin(4), &[3, 0]), Err(Refusal::Length { word: 2 }));
}

/// A last line of exactly lastmin, and of one unit less, with a space and without.
#[test]
fn the_least_last_length_from_both_sides() {
    for space in [0, 1, 5] {
        let limits = spaced(1, 9, 9, 1, space).with_lastmin(4);
        assert_eq!(broken(limits, &[4 + space]), Ok((0, vec![1])));
        assert_eq!(broken(limits, &[3 + space]), Err(Refusal::None { moves: 1 }));
    }
}

/// All that a call says and writes.
fn whole(limits: Limits, lengths: &[u32]) -> (Result<Setting, Refusal>, ParagraphRoom) {
    let mut room = ParagraphRoom::new(lengths.len());
    let said = set_paragraph(limits, lengths, room.lend());
    (said, room)
}

#[test]
fn edition_2_with_lastmin_0_is_edition_1() {
    let lists: [&[u32]; 5] = [&[3, 2, 2, 5], &[4, 4, 3, 5, 2], &[2, 2], &[11], &[]];
    for lengths in lists {
        for limits in [Limits::new(1, 6, 6, 1), Limits::new(6, 8, 10, 15), spaced(2, 4, 6, 1, 1), Limits::new(1, 6, 6, 16)] {
            let (first, second) = (whole(limits, lengths), whole(limits.with_lastmin(0), lengths));
            assert_eq!(first.0, second.0);
            assert_eq!(format!("{:?}", first.1), format!("{:?}", second.1));
        }
    }
}

#[test]
fn marked_indexes() {
    assert_eq!(paged(2, 7, &[3, 4, 2, 5]), Ok((2, vec![3])));
    assert!(matches!(paged(2, 7, &[8]), Err(Refusal::None { .. })));
    assert_eq!(paged(0, 7, &[8]), Ok((8, vec![1])));
    assert_eq!(paged(0, 2, &[1, 1, 1]), Ok((1, vec![3])));
    assert_eq!(paged(0, 7, &[7]), Ok((0, vec![])));
}

#[test]
fn refusals_with_their_places() {
    assert_eq!(broken(Limits::new(1, 6, 6, 1), &[]), Err(Refusal::Empty));
    assert_eq!(broken(Limits::new(1, 6, 6, 1), &[1; 4097]), Err(Refusal::Many));
    assert_eq!(broken(Limits::new(1, 6, 6, 16), &[1]), Err(Refusal::Limits));
    assert_eq!(broken(Limits::new(1, 6, 6, 1), &[1, 2, 4096]), Err(Refusal::Length { word: 3 }));
    assert_eq!(paged(7, 7, &[1]), Err(Refusal::Limits));
    assert_eq!(paged(2, 7, &[0]), Err(Refusal::Length { word: 1 }));
}

#[test]
fn short_strips_are_named() {
    let mut room = ParagraphRoom::new(4);
    room.moves.pop();
    room.breaks.pop();
    assert_eq!(set_paragraph(Limits::new(1, 6, 6, 1), &[3, 2, 2, 5], room.lend()), Err(Refusal::Room { strip: 5 }));
    let mut room = IndexRoom::new(4);
    room.boundaries.pop();
    assert_eq!(set_index(PageLimits { lmin: 2, lmax: 7 }, &[3, 4, 2, 5], room.lend()), Err(Refusal::Room { strip: 7 }));
}

#[test]
fn none_counts_its_moves() {
    let mut room = ParagraphRoom::new(2);
    room.breaks.fill(9);
    assert_eq!(set_paragraph(Limits::new(6, 8, 9, 1), &[5, 5], room.lend()), Err(Refusal::None { moves: 1 }));
    assert_eq!(room.best, [NO_SETTING, 0, 0]);
    assert_eq!(room.breaks, [9, 9]);
}

#[test]
fn moves_of_the_first_rows() {
    let mut room = ParagraphRoom::new(4);
    let setting = set_paragraph(Limits::new(1, 6, 6, 1), &[3, 2, 2, 5], room.lend()).unwrap();
    assert_eq!(room.moves[..setting.moves], [41, 43, 33, 25, 35, 28, 17]);
    assert_eq!(Move::from_entry(room.moves[5]), Some(Move { kind: Kind::Pop, index: 3 }));
    assert_eq!(Move::from_entry(8), None);
}

#[test]
fn penalties_alone() {
    let measure = Limits::new(6, 8, 10, 15);
    for (length, cost) in [(6, 60), (8, 0), (10, 60)] {
        assert_eq!(penalty(measure, length), Ok(Penalty::Of(cost)));
    }
    for length in [0, 5, 11, 16_773_120] {
        assert_eq!(penalty(measure, length), Ok(Penalty::Outside));
    }
    assert_eq!(penalty(measure, 16_773_121), Err(Refusal::Length { word: 0 }));
    assert_eq!(penalty(Limits::new(6, 8, 6, 1), 16_773_121), Err(Refusal::Limits));
    for space in [1, 255] {
        assert_eq!(penalty(spaced(6, 8, 10, 15, space), 10), Ok(Penalty::Of(60)));
        assert_eq!(penalty(spaced(6, 8, 10, 15, space), 11), Ok(Penalty::Outside));
    }
    assert_eq!(penalty(spaced(6, 8, 10, 15, 256), 10), Err(Refusal::Limits));
}

/// The edition and lastmin are judged as limits, and no length is compared with lastmin.
#[test]
fn penalties_alone_under_each_edition() {
    let measure = Limits::new(6, 8, 10, 15);
    for lastmin in [0, 1, 7, 8] {
        for (length, cost) in [(6, 60), (8, 0), (10, 60)] {
            assert_eq!(penalty(measure.with_lastmin(lastmin), length), Ok(Penalty::Of(cost)));
        }
        assert_eq!(penalty(measure.with_lastmin(lastmin), 5), Ok(Penalty::Outside));
    }
    assert_eq!(penalty(measure.with_lastmin(9), 8), Err(Refusal::Limits));
    assert_eq!(penalty(Limits { lastmin: 1, ..measure }, 8), Err(Refusal::Limits));
    for edition in [0, 3, u32::MAX] {
        assert_eq!(penalty(Limits { edition, ..measure }, 16_773_121), Err(Refusal::Limits));
    }
}

/// W-206: the product is taken in 32 bits. Every distance above and below lopt, by every weight, against the product in 64 bits.
#[test]
fn every_distance_by_every_weight() {
    for a in 1..=15 {
        for length in 1..=4095 {
            let (over, under) = (u64::from(length) - 1, 4095 - u64::from(length));
            assert_eq!(penalty(Limits::new(1, 1, 4095, a), length), Ok(Penalty::Of(u64::from(a) * over * over)));
            assert_eq!(penalty(Limits::new(1, 4095, 4095, a), length), Ok(Penalty::Of(u64::from(a) * under * under)));
        }
    }
}

/// Every word a line of its own, as far from lopt as a line may be.
#[test]
fn the_greatest_total() {
    let lengths = [4095; 4096];
    let mut room = ParagraphRoom::new(lengths.len());
    let setting = set_paragraph(Limits::new(1, 1, 4095, 15), &lengths, room.lend()).unwrap();
    assert_eq!(setting.total, 4096 * 15 * 4094 * 4094);
    assert!(room.breaks.iter().copied().eq(1..=4096));
}

#[test]
fn jobs_are_read() {
    let mut lengths = [7; 5];
    let read = read_job(&packed(&[4, 1, 6, 6, 1, 4, 3, 2, 2, 5]), &mut lengths);
    assert_eq!(read, Ok(Job::Paragraph { limits: Limits::new(1, 6, 6, 1), n: 4 }));
    assert_eq!(lengths, [3, 2, 2, 5, 7]);
    let read = read_job(&packed(&[5, 1, 5, 6, 1, 300, 2, 3, 2]), &mut lengths);
    assert_eq!(read, Ok(Job::Paragraph { limits: spaced(1, 5, 6, 1, 300), n: 2 }));
    let read = read_job(&packed(&[2, 2, 7, 1, 9]), &mut lengths);
    assert_eq!(read, Ok(Job::Index { limits: PageLimits { lmin: 2, lmax: 7 }, n: 1 }));
    assert_eq!(lengths, [9, 2, 2, 5, 7]);
}

#[test]
fn damaged_jobs_leave_the_strip() {
    let mut lengths = [7; 2];
    let whole = packed(&[2, 2, 7, 2, 3, 4]);
    assert_eq!(read_job(&whole[..23], &mut lengths), Err(Refusal::Job { at: 20 }));
    assert_eq!(read_job(&packed(&[3]), &mut lengths), Err(Refusal::Job { at: 0 }));
    assert_eq!(read_job(&packed(&[6, 1, 5, 6, 1, 1, 1, 3]), &mut lengths), Err(Refusal::Job { at: 0 }));
    assert_eq!(read_job(&packed(&[5, 1, 5, 6, 1]), &mut lengths), Err(Refusal::Job { at: 20 }));
    assert_eq!(read_job(&packed(&[5, 1, 5, 6, 1, 1, 1, 3, 4]), &mut lengths), Err(Refusal::Job { at: 32 }));
    assert_eq!(read_job(&packed(&[2, 2, 7, 2, 3, 4, 5]), &mut lengths), Err(Refusal::Job { at: 24 }));
    assert_eq!(read_job(&packed(&[2, 2, 7, 4097]), &mut lengths), Err(Refusal::Many));
    assert_eq!(read_job(&packed(&[2, 2, 7, 3, 3, 4, 5]), &mut lengths), Err(Refusal::Room { strip: 1 }));
    assert_eq!(lengths, [7, 7]);
}
