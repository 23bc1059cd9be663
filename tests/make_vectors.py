#!/usr/bin/env python3
"""Writes the stored input and output of the programs jobs, longs and traces, from the oracle.

    python3 tests/make_vectors.py            writes crates/{jobs,longs,traces}/{stdin,stdout}
    python3 tests/make_vectors.py --check    writes nothing; exit status 1 where a stored file differs

Input: records one after the other, each after its size in bytes, which takes 2 bytes. The input ends with its last record and has at
most 60,000 bytes. For jobs and longs a record is a job. For traces it is the edition of the last-line rule and lastmin, 2 bytes each, and
then a job. They are put in the limits of a paragraph, where the job reader gives 1 and 0; for an index they are read and not used, and are
1 and 0. Numbers of 2 bytes have their low byte first.

Output of jobs and longs: the listings of the jobs one after the other, nothing between them.

Output of traces: its jobs are all read without a refusal, n at most 12. For each job the strips lent have room for 12 lengths and 2
entries more, every entry 7 before the call (a u64 7 in best). After the call, for each strip in 01's order, one line with the entries
that 01 asks for and 2 more, in decimal, and then what was told:
    sums: 0 3 5 7 12 7 7
    best: ..
    told NUMBER PLACE TOTAL LINES MOVES
Paragraph: sums best next queue moves breaks. Index: sums best next left right moves boundaries. "No setting" is printed as
18446744073709551615. A strip that needs no entry (n = 0) still has its 2, so no line is empty. A paragraph has one line more for each
of its lengths: what is told of the penalty of a line of that length, asked for alone, in the same form.
"""
import pathlib
import random
import sys

import oracle
from oracle import Limits, PageLimits, job_of, job_of_five, pack

ROOT = pathlib.Path(__file__).resolve().parent.parent
SEED = 19870
MOST_BYTES = 60_000


# ---- the jobs ---------------------------------------------------------------------------------------------------------

def listed_jobs():
    """01's two listings, as the numbers it prints them for, and one with a space."""
    return [pack([4, 1, 6, 6, 1, 4, 3, 2, 2, 5]), pack([2, 2, 7, 4, 3, 4, 2, 5]), pack([5, 1, 5, 6, 1, 1, 4, 4, 3, 3, 6])]


def marked_jobs():
    return [job_of(limits, lengths) for _, limits, lengths, _, _ in oracle.MARKED]


def spaced_jobs():
    """W-202's worked cases; a space of 0 is written too."""
    return [job_of_five(limits, lengths) for _, limits, lengths, *_ in oracle.SPACED]


def chord_jobs():
    """Where 01's first error shows, and where the space taken off in the crossing test does."""
    return [job_of(limits, lengths) for _, limits, lengths, _, _ in oracle.CHORD_ALONE + oracle.SPACE_OFF]


def bridged_jobs(r, count):
    """Rears bridged while two or three stand: which rear goes shows in the moves, seldom in their number."""
    picked = [oracle.random_bridge_case(r, 12, 2 + k % 2) for k in range(count)]
    return [job_of(*case) for case in oracle.BRIDGED_OF_TWO + picked]


def paragraph_edges():
    """Each bound of the paragraph's numbers from both sides, then the order of the refusals."""
    good = Limits(1, 2, 3, 1)
    limits = [
        Limits(1, 2, 4095, 1), Limits(1, 2, 4096, 1), Limits(1, 2, 2**32 - 1, 1),
        Limits(1, 2, 3, 0), Limits(1, 2, 3, 15), Limits(1, 2, 3, 16), Limits(1, 2, 3, 2**32 - 1),
        Limits(3, 3, 3, 1), Limits(2, 3, 3, 1), Limits(4, 3, 3, 1), Limits(2, 1, 3, 1), Limits(1, 4, 3, 1),
        Limits(0, 2, 3, 1), Limits(2**32 - 1, 2, 3, 1), Limits(1, 1, 2, 1), Limits(4094, 4095, 4095, 15),
    ]
    lengths = [
        (Limits(1, 2, 4095, 1), [4095]), (Limits(1, 2, 4095, 1), [4096]), (good, [0]), (good, [2**32 - 1]),
        (good, [1, 2, 0, 4096]), (good, [1, 2, 4096, 0]), (good, [1] * 30 + [0]), (good, [4, 1]), (good, [1, 4]),
    ]
    order = [(good, []), (Limits(0, 0, 0, 0), []), (Limits(0, 0, 0, 0), [0]), (Limits(6, 8, 9, 1), [5, 0])]
    return [job_of(l, [1, 2]) for l in limits] + [job_of(*case) for case in lengths + order]


def space_edges():
    """The space's own bound and the lengths' bound by it, from both sides; the order of the refusals; a space of 0 written out."""
    good = Limits(1, 2, 3, 1, 1)
    spaces = [
        (good._replace(space=255), [256]), (good._replace(space=256), [257]), (good._replace(space=2**32 - 1), [257]),
        (good._replace(space=255), [255]), (good._replace(space=255), [256] * 30), (good._replace(space=255), [257, 258, 256]),
        (Limits(1, 2, 4095, 15, 255), [4095, 256, 4095]),
    ]
    lengths = [[1], [2], [2, 3, 1, 0], [2, 0, 1], [2, 4096, 1], [2] * 30 + [1]]
    order = [
        (good, []), (Limits(0, 0, 0, 0, 256), []), (good._replace(space=256), [0]), (good._replace(a=16), [1]),
        (Limits(6, 8, 9, 1, 1), [6, 6, 1]),
    ]
    fives = [job_of_five(good._replace(space=0), words) for words in ([1, 2], [0], [1, 4])]
    return [job_of(*case) for case in spaces + [(good, words) for words in lengths] + order] + fives


def spaced_lines():
    """Lines that end at a limit or one past it once the space is off: single words, a line of 4,095 units, the last line; none too."""
    words = [(Limits(1, 2, 3, 1, 1), lengths) for lengths in ([3], [4], [5], [5, 2], [2, 5], [2, 2], [2, 2, 2])]
    widest = [
        (Limits(1, 4095, 4095, 1, 1), [4000, 96]), (Limits(1, 4095, 4095, 1, 1), [4000, 97]), (Limits(1, 2, 4095, 1, 255), [4095, 511]),
    ]
    tight = [(Limits(6, 8, 9, 1, 1), lengths) for lengths in ([5, 5], [6, 6], [7, 9], [7, 10], [7, 11], [6, 7, 9])]
    return [job_of(*case) for case in words + widest + tight + [(Limits(2, 3, 4, 2, 3), [4, 4, 4, 4, 5, 5])]]


def index_edges():
    good = PageLimits(0, 3)
    limits = [
        PageLimits(0, 65535), PageLimits(0, 65536), PageLimits(0, 2**32 - 1), PageLimits(65534, 65535), PageLimits(3, 3),
        PageLimits(2, 3), PageLimits(4, 3), PageLimits(0, 0), PageLimits(0, 1), PageLimits(2**32 - 1, 3),
    ]
    lengths = [
        (PageLimits(0, 4095), [4095]), (PageLimits(0, 4095), [4096]), (PageLimits(0, 4094), [4095]), (good, [0]),
        (good, [2**32 - 1]), (good, [1, 0, 4096]), (good, [1, 4096, 0]), (good, [4] * 30), (PageLimits(1, 3), [4] * 3),
        (good, [3, 3, 3]), (PageLimits(61425, 65535), [4095] * 30),
    ]
    order = [(good, []), (PageLimits(1, 1), []), (PageLimits(1, 1), [0]), (PageLimits(2, 3), [8, 0])]
    return [job_of(l, [1, 2]) for l in limits] + [job_of(*case) for case in lengths + order]


def cut_jobs():
    """A paragraph without a space, an index and a paragraph with one, cut at every byte, from none to all but the last."""
    whole = [job_of(Limits(1, 6, 6, 1), [3, 2, 5]), job_of(PageLimits(2, 7), [3, 4, 2]), job_of(Limits(1, 5, 6, 1, 1), [4, 3])]
    return [job[:cut] for job in whole for cut in range(len(job))]


def damaged_jobs():
    """Bytes left over, first counts that mean nothing, counts of lengths that the file does not hold."""
    whole = [job_of(Limits(1, 6, 6, 1), [3, 2, 5]), job_of(PageLimits(2, 7), [3, 4, 2]), job_of(PageLimits(2, 7), []),
             job_of(Limits(1, 5, 6, 1, 1), [4, 3]), job_of(Limits(1, 5, 6, 1, 1), [])]
    left_over = [job + bytes([255] * more) for job in whole for more in range(1, 5)]
    counts = [pack([count, 1, 6, 6, 1, 1, 3]) for count in (0, 1, 3, 6, 7, 2**32 - 1)]
    # A first count is told by all four of its bytes, and before anything after it is looked at.
    counts += [pack([0x0104, 1, 6, 6, 1, 1, 3]), pack([0x0400_0000]), pack([3]) + b"\1", pack([2**16 + 2, 0, 7, 1, 3])]
    counts += [pack([0x0105, 1, 6, 6, 1, 1, 1, 3]), pack([0x0500_0000]), pack([6]) + b"\1"]
    # The count of one kind before the numbers of another.
    counts += [pack([5, 1, 6, 6, 1, 1, 3]), pack([5, 1, 6, 6, 1, 0]), pack([4, 1, 6, 6, 1, 1, 1, 3]), pack([5, 1, 6, 6, 1, 1, 0])]
    many = [pack([4, 1, 6, 6, 1, 4097]), pack([2, 2, 7, 4097]), pack([2, 2, 7, 2**32 - 1]), pack([4, 0, 0, 0, 0, 4097, 1]),
            pack([5, 1, 6, 6, 1, 1, 4097]), pack([5, 0, 0, 0, 0, 2**32 - 1, 4097, 1])]
    missing = [pack([4, 1, 6, 6, 1, 4096]), pack([2, 2, 7, 4096, 1]), pack([2, 2, 7, 4096, 1]) + b"\2\0\0", pack([5, 1, 6, 6, 1, 1, 4096])]
    return left_over + counts + many + missing


def random_jobs(r, count, most):
    """Two paragraphs to one index; of every nine one where the second inequality alone goes wrong, and one where the space taken
    off in the crossing test does."""
    kinds = [oracle.random_paragraph, oracle.random_paragraph, oracle.random_index]
    errors = {8: oracle.random_chord_case, 4: oracle.random_space_off_case}
    return [job_of(*errors.get(k % 9, kinds[k % 3])(r, most)) for k in range(count)]


def short_jobs():
    r = random.Random(SEED)
    fixed = listed_jobs() + marked_jobs() + spaced_jobs() + chord_jobs() + paragraph_edges() + space_edges() + spaced_lines()
    fixed += index_edges() + cut_jobs() + damaged_jobs()
    return fixed + random_jobs(r, 350, 30) + random_jobs(r, 320, 12)


def english_lengths(r, n):
    """Word lengths as in English text, the space included."""
    letters = [1, 2, 2, 2, 3, 3, 3, 3, 4, 4, 4, 5, 5, 6, 6, 7, 7, 8, 9, 10, 11]
    return [r.choice(letters) + 1 for _ in range(n)]


def long_jobs():
    """The longest job, with the longest listing, and one byte more; the largest n of an index; text with and without the space at the
    end of a line; the deepest queue; pages of many sizes."""
    r = random.Random(SEED + 1)
    longest = job_of(Limits(1, 1, 4095, 15, 1), [4095] * 4096)
    text = english_lengths(r, 600)
    return [
        longest,
        longest + b"\0",
        job_of(PageLimits(300, 420), [r.randint(1, 12) for _ in range(4096)]),
        job_of(Limits(40, 66, 72, 3), text),
        job_of(Limits(40, 66, 72, 3, 1), text),
        job_of(Limits(1, 580, 600, 1), [r.randint(1, 2) for _ in range(900)]),
        job_of(PageLimits(0, 65535), [r.randint(1, 4095) for _ in range(550)]),
    ]


def edition_1_jobs(r):
    """Every marked row, those with a space, every list where an error shows, bridged rears, some refusals, lines at the edges of a
    measure, some dozens at random; n at most 12."""
    refused = [
        job_of(Limits(1, 6, 6, 1), []), job_of(PageLimits(2, 7), []), job_of(Limits(1, 6, 6, 16), [3, 2]),
        job_of(PageLimits(7, 7), [3, 2]), job_of(Limits(1, 6, 6, 1), [3, 0]), job_of(PageLimits(2, 7), [3, 2, 4096]),
        job_of(Limits(9, 9, 10, 1), [8] * 12), job_of(PageLimits(9, 10), [8] * 12),
        job_of(Limits(1, 6, 6, 1, 256), [257, 300]), job_of(Limits(1, 6, 6, 1, 2), [3, 4, 2, 1]), job_of(Limits(1, 6, 6, 1, 2), []),
        job_of(Limits(9, 9, 10, 1, 1), [8] * 12), job_of(Limits(1, 2, 3, 1, 255), [256] * 12),
    ]
    asked = [5, 6, 7, 8, 9, 10, 11, 0, 4096, oracle.MOST_ALONE, oracle.MOST_ALONE + 1, 2**32 - 1]
    lines = [job_of(Limits(6, 8, 10, 15), asked), job_of(Limits(6, 8, 6, 1), asked), job_of(Limits(1, 1, 4095, 15), asked[1:] + [4095])]
    # W-202: a line's length is taken as given; the space counts as a limit only.
    lines += [job_of(Limits(6, 8, 10, 15, space), asked) for space in (1, 255, 256)]
    # W-206: the greatest products, at either end of a measure, alone and in the rules
    ends = [1, 4095, 4094, 1, 4094, 1, 2, 4093, 2, 4095, 1]
    lines += [job_of(Limits(1, lopt, 4095, a), ends) for lopt in (1, 4095) for a in (1, 15)]
    return marked_jobs() + spaced_jobs() + chord_jobs() + bridged_jobs(r, 12) + refused + lines + random_jobs(r, 72, 12)


def edition_edges():
    """The edition and lastmin from both sides of their rules, each told by both of its bytes; the order of the refusals."""
    good = Limits(1, 4, 6, 1)
    last = [
        (2, 4), (2, 5), (2, 0), (2, 1), (2, 65535), (0, 0), (3, 0), (65535, 0), (0, 2), (3, 2), (1, 0), (1, 1), (1, 4), (1, 65535),
        (0x0102, 2), (0x0201, 0), (0x0200, 2), (1, 0x0100), (2, 0x0104),
    ]
    edges = [(good._replace(edition=edition, lastmin=lastmin), [3, 4, 2]) for edition, lastmin in last]
    edges += [(Limits(1, 300, 400, 1, 0, 2, 0x0101), lengths) for lengths in ([256], [257], [200, 300], [200, 200, 57])]
    order = [
        (good._replace(edition=0), []), (good._replace(edition=0), [0]), (good._replace(lastmin=1), [4096]),
        (good._replace(edition=2, lastmin=4), [3, 0]), (good._replace(edition=2, lastmin=4, a=16), [3]),
        (good._replace(space=2, edition=2, lastmin=5), [2]), (good._replace(space=2, edition=2, lastmin=4), [3, 2]),
    ]
    return edges + order


def last_lines():
    """Last lines of lastmin and one unit off it, with a space and without; one line below lastmin and at it; fronts that stand and are no
    choosers; no setting at any start; the penalty alone, which is not compared with lastmin."""
    bare, spaced, widest = Limits(1, 4, 6, 1, 0, 2, 3), Limits(1, 4, 6, 1, 1, 2, 3), Limits(1, 4, 6, 1, 255, 2, 3)
    edges = [(bare, lengths) for lengths in ([2], [3], [4], [1, 1], [1, 1, 1], [5, 2], [5, 3], [5, 1, 1], [5, 1, 2], [5, 2, 2, 2])]
    edges += [(spaced, lengths) for lengths in ([3], [4], [5], [2, 2], [2, 3], [6, 3], [6, 4], [6, 2, 2], [6, 2, 3], [6, 3, 3, 3])]
    edges += [(widest, lengths) for lengths in ([257], [258], [261, 257], [261, 258])]
    whole = [(Limits(1, 9, 12, 2, space, 2, 9), [2 + space, 2, 2, 2 + off]) for space in (0, 1) for off in (0, 1, 2)]
    fronts = [(Limits(lmin, 9, 11, 3, 0, 2, lastmin), [1, 2, 1, 3, 1, 1, 2, 1, 1, 2]) for lmin in (1, 2, 4) for lastmin in (3, 5, 8, 9)]
    none = [(Limits(1, 4, 4, 1, 0, 2, 4), [3] * 12), (Limits(1, 40, 40, 1, 0, 2, 40), [3] * 12), (Limits(1, 5, 5, 1, 1, 2, 5), [5] * 12),
            (Limits(9, 9, 10, 1, 0, 2, 9), [8] * 12)]
    asked = [5, 6, 7, 8, 9, 10, 11, 0, oracle.MOST_ALONE, oracle.MOST_ALONE + 1]
    alone = [(Limits(6, 8, 10, 15, space, 2, lastmin), asked) for space, lastmin in ((0, 0), (0, 7), (1, 8), (0, 9), (256, 7))]
    return edges + whole + fronts + none + alone + [(Limits(6, 8, 10, 15, 0, 3, 0), asked), (Limits(6, 8, 10, 15, 0, 1, 6), asked)]


def last_cases(r):
    """W-205's worked cases, its edges, and some dozens at random, of which some are refused; n at most 12."""
    worked = [(limits, lengths) for _, limits, lengths, *_ in oracle.LAST]
    picked = [oracle.random_last_paragraph(r, 12) for _ in range(40)] + [oracle.random_barred_case(r, 12) for _ in range(16)]
    bad = [oracle.random_paragraph(r, 4) for _ in range(8)]
    return worked + edition_edges() + last_lines() + picked + [(oracle.random_bad_edition(r, limits), lengths) for limits, lengths in bad]


def traced(edition, lastmin, job):
    """What traces is given of a job."""
    return edition.to_bytes(2, "little") + lastmin.to_bytes(2, "little") + job


def traced_jobs():
    r = random.Random(SEED + 2)
    first = [traced(1, 0, job) for job in edition_1_jobs(r)]
    return first + [traced(limits.edition, limits.lastmin, job_of(limits, lengths)) for limits, lengths in last_cases(r)]


# ---- the files --------------------------------------------------------------------------------------------------------

def records(contents):
    return b"".join(len(content).to_bytes(2, "little") + content for content in contents)


def listings(jobs):
    return "".join(oracle.listing(job) for job in jobs)


def traced_job(content):
    """The job of a record of traces, a paragraph under the record's edition and lastmin."""
    edition, lastmin = (int.from_bytes(content[at:at + 2], "little") for at in (0, 2))
    job = oracle.read_job(content[4:])
    if isinstance(job.limits, PageLimits):
        return job
    return job._replace(limits=job.limits._replace(edition=edition, lastmin=lastmin))


def trace(content):
    job = traced_job(content)
    names = oracle.PARAGRAPH_STRIPS if isinstance(job.limits, Limits) else oracle.INDEX_STRIPS
    told, strips = oracle.set_job(job, more=2, fill=7)
    rows = [f"{name}: {' '.join(map(str, strip))}" for name, strip in zip(names, strips)]
    alone = [oracle.penalty_alone(job.limits, x) for x in job.lengths] if isinstance(job.limits, Limits) else []
    return "".join(row + "\n" for row in rows + ["told " + " ".join(map(str, numbers)) for numbers in [told, *alone]])


def files():
    """Each file's name and bytes."""
    short, long, traced = short_jobs(), long_jobs(), traced_jobs()
    made = {
        "jobs": (records(short), listings(short)),
        "longs": (records(long), listings(long)),
        "traces": (records(traced), "".join(map(trace, traced))),
    }
    for crate, (stdin, stdout) in made.items():
        assert len(stdin) <= MOST_BYTES, (crate, len(stdin))
        yield ROOT / "crates" / crate / "stdin", stdin
        yield ROOT / "crates" / crate / "stdout", stdout.encode("ascii")


def write():
    for path, content in files():
        path.parent.mkdir(parents=True, exist_ok=True)
        path.write_bytes(content)
        print(f"{path.relative_to(ROOT)}: {len(content)} bytes")


def check():
    differing = [path.relative_to(ROOT) for path, content in files() if not path.exists() or path.read_bytes() != content]
    for path in differing:
        print(f"{path}: differs from what the oracle gives", file=sys.stderr)
    sys.exit(1 if differing else 0)


if __name__ == "__main__":
    check() if sys.argv[1:] == ["--check"] else write()
