#!/usr/bin/env python3
"""Document 01 in plain Python with what document 02 added to it, written from the papers and never from the engine.

Three renderings of the same answers, so that a slip in one shows against the others:
  by definition  every setting (or boundary sequence) is listed and the least is taken; for short lists only
  by table       for each start every next is tried; quadratic, for lists of any length
  by the rules   01's queue and pointer rules, word for word; these alone give the moves
Above them stand the setter with every strip, the penalty asked for alone, the job reader and the listing.

    python3 tests/oracle.py selftest [SEED]    compares the three, 01's own cases and 02's; exit status 1 where they differ
    python3 tests/oracle.py listing < JOB      prints the listing of a job
"""
import itertools
import random
import sys
from collections import namedtuple

NO_SETTING = 2**64 - 1
MOST_WORDS = 4096
MOST_LENGTH = 4095
MOST_SPACE = 255
MOST_ALONE = 16_773_120
EMPTY, MANY, LIMITS, LENGTH, ROOM, NONE, JOB = range(1, 8)
ADD, PASS, DROP, POP, STEP, JUMP, LINK = range(1, 8)

# The space is taken off the end of a line (W-202); a paragraph that gives none has 0, and counts it as 01 does. The last-line rule has
# its edition (W-205); 01's is the first, which has no least last length: 0.
Limits = namedtuple("Limits", "lmin lopt lmax a space edition lastmin", defaults=[0, 1, 0])
PageLimits = namedtuple("PageLimits", "lmin lmax")
Told = namedtuple("Told", "number place total lines moves")
# What a rendering says of the starts: for the paragraph entry 0 is start 1, for the index start 0; the end is last.
Starts = namedtuple("Starts", "best next")

PARAGRAPH_STRIPS = ("sums", "best", "next", "queue", "moves", "breaks")
INDEX_STRIPS = ("sums", "best", "next", "left", "right", "moves", "boundaries")


# ---- lengths ----------------------------------------------------------------------------------------------------------

def running_sums(lengths):
    """Entry k, from 0, is the total of the first k lengths."""
    return list(itertools.accumulate(lengths, initial=0))


def line(limits, lengths, i, j):
    """Line(i, j): the sum of the lengths of words i to j-1 less the space after the last of them; with no word there is none to take."""
    words = lengths[i - 1:j - 1]
    return sum(words) - limits.space if words else 0


def least_last(limits):
    """The least last length: 0 under edition 1, lastmin under edition 2."""
    return {1: 0, 2: limits.lastmin}[limits.edition]


def gap(lengths, a, b):
    """Gap(a, b): the sum of the lengths strictly between a and b."""
    return sum(lengths[a:b - 1])


def penalty(limits, x):
    """The penalty formula. W-204: no way of setting, and no queue rule, ever applies it to a line outside the measure."""
    assert limits.lmin <= x <= limits.lmax, f"a line of {x} is outside {limits}"
    return limits.a * (x - limits.lopt) ** 2


# ---- by definition: every setting is listed ---------------------------------------------------------------------------

def rising_lists(first, last):
    """Every rising list that begins with `first` and goes no further than `last`."""
    later = range(first + 1, last + 1)
    for count in range(len(later) + 1):
        for rest in itertools.combinations(later, count):
            yield (first,) + rest


def neighbours(points, end):
    return list(zip(points, points[1:] + (end,)))


def admissible(limits, lengths, starts):
    """Every line but the last has lmin <= length <= lmax; the last has length <= lmax, and is not below the least last length."""
    *lines, last = [line(limits, lengths, i, j) for i, j in neighbours(starts, len(lengths) + 1)]
    return all(limits.lmin <= x <= limits.lmax for x in lines) and least_last(limits) <= last <= limits.lmax


def setting_total(limits, lengths, starts):
    """The penalties of all lines; a last line of length <= lopt costs 0."""
    lines = [line(limits, lengths, i, j) for i, j in neighbours(starts, len(lengths) + 1)]
    last = 0 if lines[-1] <= limits.lopt else penalty(limits, lines[-1])
    return sum(penalty(limits, x) for x in lines[:-1]) + last


def second_point(points, end):
    return points[1] if len(points) > 1 else end


def paragraph_start_by_definition(limits, lengths, i):
    """(best, chosen next) of start i over all admissible settings of words i to n."""
    n = len(lengths)
    totals = {s: setting_total(limits, lengths, s) for s in rising_lists(i, n) if admissible(limits, lengths, s)}
    if not totals:
        return NO_SETTING, 0
    best = min(totals.values())
    if line(limits, lengths, i, n + 1) <= limits.lopt:
        return best, n + 1
    return best, min(second_point(s, n + 1) for s, total in totals.items() if total == best)


def paragraph_by_definition(limits, lengths):
    n = len(lengths)
    pairs = [paragraph_start_by_definition(limits, lengths, i) for i in range(1, n + 1)] + [(0, 0)]
    return Starts([best for best, _ in pairs], [chosen for _, chosen in pairs])


def paged(limits, lengths, boundaries):
    """Every Gap between neighbours lies in lmin..lmax, the first and last page included."""
    pages = [gap(lengths, a, b) for a, b in neighbours(boundaries, len(lengths) + 1)]
    return all(limits.lmin <= page <= limits.lmax for page in pages)


def index_start_by_definition(limits, lengths, i):
    """(best, chosen next) of start i over all boundary sequences from i to n+1; w_i counts, for i from 1 to n."""
    n = len(lengths)
    totals = {s: sum(lengths[b - 1] for b in s if b) for s in rising_lists(i, n) if paged(limits, lengths, s)}
    if not totals:
        return NO_SETTING, 0
    best = min(totals.values())
    return best, max(second_point(s, n + 1) for s, total in totals.items() if total == best)


def index_by_definition(limits, lengths):
    n = len(lengths)
    pairs = [index_start_by_definition(limits, lengths, i) for i in range(0, n + 1)] + [(0, 0)]
    return Starts([best for best, _ in pairs], [chosen for _, chosen in pairs])


# ---- by table: for each start every next is tried ---------------------------------------------------------------------

def paragraph_nexts(limits, sums, best, i):
    """(total, j) for each next j of start i that has a setting; `best` is kept by start."""
    end = len(sums)
    for j in range(i + 1, end + 1):
        x = sums[j - 1] - sums[i - 1] - limits.space
        if x > limits.lmax:
            return
        last = j == end
        if x >= (least_last(limits) if last else limits.lmin) and best[j] != NO_SETTING:
            yield best[j] + (0 if last and x <= limits.lopt else penalty(limits, x)), j


def paragraph_by_table(limits, lengths):
    n = len(lengths)
    sums = running_sums(lengths)
    best, chosen = {n + 1: 0}, {n + 1: 0}
    for i in range(n, 0, -1):
        # The least total, and of equal totals the smallest next: pairs compare in that order.
        best[i], chosen[i] = min(paragraph_nexts(limits, sums, best, i), default=(NO_SETTING, 0))
        if least_last(limits) <= sums[n] - sums[i - 1] - limits.space <= limits.lopt:
            chosen[i] = n + 1
    return Starts([best[i] for i in range(1, n + 2)], [chosen[i] for i in range(1, n + 2)])


def index_nexts(limits, sums, best, i):
    """(best of j, -j) for each next j of start i: the sign makes the least pair the largest next."""
    end = len(sums)
    for j in range(i + 1, end + 1):
        page = sums[j - 1] - sums[i]
        if page > limits.lmax:
            return
        if page >= limits.lmin and best[j] != NO_SETTING:
            yield best[j], -j


def index_by_table(limits, lengths):
    n = len(lengths)
    sums = running_sums(lengths)
    best, chosen = {n + 1: 0}, {n + 1: 0}
    for i in range(n, -1, -1):
        least, minus = min(index_nexts(limits, sums, best, i), default=(NO_SETTING, 0))
        own = lengths[i - 1] if i else 0
        best[i] = NO_SETTING if least == NO_SETTING else least + own
        chosen[i] = -minus
    return Starts([best[i] for i in range(0, n + 2)], [chosen[i] for i in range(0, n + 2)])


def smaller_to_the_left(best, n):
    """01's left strip: for j from 1 to n+1 the largest k with 1 <= k < j whose best is smaller, or 0. By a plain look."""
    return [0] + [next((k for k in range(j - 1, 0, -1) if best[k] < best[j]), 0) for j in range(1, n + 2)]


def not_larger_to_the_right(best, n):
    """01's right strip: for j from 1 to n the smallest k > j whose best is not larger; the ends have 0."""
    return [0] + [next(k for k in range(j + 1, n + 2) if best[k] <= best[j]) for j in range(1, n + 1)] + [0]


# ---- by the rules: the queue ------------------------------------------------------------------------------------------

class QueueRules:
    """01's queue rules. best and next are kept by start; the queue's front is first, its rear last.

    W-202: a line of the rules is less the space; between two break points the space cancels, so `bridged` takes plain sums.
    W-205: the rules are the same under both editions; the last length is asked only where the start takes its next."""

    def __init__(self, limits, lengths, chord_alone=False, space_off=False):
        self.limits, self.n, self.lengths = limits, len(lengths), lengths
        self.sums = running_sums(lengths)
        self.chord_alone = chord_alone    # 01's first error: bridging by the second inequality alone
        self.between = self.line if space_off else self.apart    # the error W-202 warns of: the space taken off in the crossing test
        self.queue, self.moves = [], []
        self.bridges = []    # how many stood at each Pop of a bridged rear, to choose cases by
        self.fronts = {}    # the front after the rules at each start, 0 where none stands
        self.asked = set()    # the starts at which the front was asked for the next
        self.candidate = self.n + 1
        self.best, self.next = {self.n + 1: 0}, {self.n + 1: 0}

    def apart(self, i, j):
        """The plain sum of words i to j-1."""
        return self.sums[j - 1] - self.sums[i - 1]

    def line(self, i, j):
        return self.apart(i, j) - self.limits.space if i < j else 0

    def through(self, i, j):
        """F(i, j), also for j = n+1."""
        return self.best[j] + penalty(self.limits, self.line(i, j))

    def move(self, kind, index):
        self.moves.append(8 * index + kind)

    def bridged(self, j, k, l):
        best, p, limits = self.best, penalty, self.limits
        jk, kl, jl = self.between(j, k), self.between(k, l), self.between(j, l)
        edge = best[k] + p(limits, limits.lmax - kl) >= best[j] + p(limits, limits.lmax - jl)
        chord = jl * best[k] >= jk * best[l] + kl * best[j] + limits.a * jk * jl * kl
        return chord and (edge or self.chord_alone)

    def drop_long(self, i):
        while self.queue and self.line(i, self.queue[0]) > self.limits.lmax:
            self.move(DROP, self.queue.pop(0))

    def add(self, i, candidate):
        while self.queue and self.through(i, candidate) <= self.through(i, self.queue[-1]):
            self.move(POP, self.queue.pop())
        while len(self.queue) >= 2 and self.bridged(candidate, self.queue[-1], self.queue[-2]):
            self.bridges.append(len(self.queue))
            self.move(POP, self.queue.pop())
        self.queue.append(candidate)
        self.move(ADD, candidate)

    def consider(self, i):
        while self.line(i, self.candidate) >= self.limits.lmin:
            j = self.candidate
            if self.line(i, j) > self.limits.lmax or self.best[j] == NO_SETTING:
                self.move(PASS, j)
            else:
                self.add(i, j)
            self.candidate -= 1

    def drop_worse(self, i):
        while len(self.queue) >= 2 and self.through(i, self.queue[1]) <= self.through(i, self.queue[0]):
            self.move(DROP, self.queue.pop(0))

    def chosen_by_front(self, i):
        """(best, next) of a start at which the front is the chooser."""
        self.asked.add(i)
        return (self.through(i, self.queue[0]), self.queue[0]) if self.queue else (NO_SETTING, 0)

    def take(self, i):
        rest = self.line(i, self.n + 1)
        if rest > self.limits.lopt:
            self.best[i], self.next[i] = self.chosen_by_front(i)
        elif rest >= least_last(self.limits):
            self.best[i], self.next[i] = 0, self.n + 1
        else:
            self.best[i], self.next[i] = NO_SETTING, 0

    def run(self):
        for i in range(self.n, 0, -1):
            self.drop_long(i)
            self.consider(i)
            self.drop_worse(i)
            self.fronts[i] = self.queue[0] if self.queue else 0
            self.take(i)
        starts = range(1, self.n + 2)
        return Starts([self.best[i] for i in starts], [self.next[i] for i in starts])


def barred_fronts(rules):
    """How many starts, once the rules have run, have a front that is no chooser, the rest being below the least last length."""
    return sum(rules.line(i, rules.n + 1) < least_last(rules.limits) for i, front in rules.fronts.items() if front)


def check_choosers(rules, starts):
    """Demand 3, of bests and nexts that the rules did not find: the front is the chosen next wherever it is the chooser, and it is asked
    nowhere else, so not below the least last length."""
    for i in range(1, rules.n + 1):
        rest = line(rules.limits, rules.lengths, i, rules.n + 1)
        assert (i in rules.asked) == (rest > rules.limits.lopt), (rules.limits, rules.lengths, i)
        if rest > rules.limits.lopt:
            assert rules.fronts[i] == starts.next[i - 1], (rules.limits, rules.lengths, i)
        elif rest < least_last(rules.limits):
            assert (starts.best[i - 1], starts.next[i - 1]) == (NO_SETTING, 0), (rules.limits, rules.lengths, i)


# ---- by the rules: the pointer ----------------------------------------------------------------------------------------

class PointerRules:
    """01's pointer rules. best, next, left and right are lists by index, 0 to n+1."""

    def __init__(self, limits, lengths):
        self.limits, self.n, self.lengths = limits, len(lengths), lengths
        self.sums = running_sums(lengths)
        self.moves = []
        self.r = self.n + 1
        self.best, self.next, self.left, self.right = ([0] * (self.n + 2) for _ in range(4))

    def gap(self, a, b):
        return self.sums[b - 1] - self.sums[a]

    def move(self, kind, index):
        self.moves.append(8 * index + kind)

    def step(self, i):
        while self.gap(i, self.r) > self.limits.lmax:
            self.r -= 1
            self.move(STEP, self.r)

    def jump(self, i):
        while self.left[self.r] and self.gap(i, self.left[self.r]) >= self.limits.lmin:
            self.r = self.left[self.r]
            self.move(JUMP, self.r)

    def take(self, i):
        fits = self.limits.lmin <= self.gap(i, self.r) <= self.limits.lmax
        if fits and self.best[self.r] != NO_SETTING:
            self.best[i] = self.best[self.r] + (self.lengths[i - 1] if i else 0)
            self.next[i] = self.r
        else:
            self.best[i], self.next[i] = NO_SETTING, 0

    def link(self, i):
        k = i + 1
        while self.best[k] > self.best[i]:
            self.left[k] = i
            self.move(LINK, k)
            k = self.right[k]
        self.right[i] = k

    def run(self):
        for i in range(self.n, -1, -1):
            self.step(i)
            self.jump(i)
            self.take(i)
            if i >= 1:
                self.link(i)
        return Starts(self.best, self.next)


# ---- refusals ---------------------------------------------------------------------------------------------------------

class Refused(Exception):
    """A refusal with its number and place."""

    def __init__(self, number, place=0):
        super().__init__(number, place)
        self.told = Told(number, place, 0, 0, 0)


def edition_holds(limits):
    """W-205: edition 1 has lastmin 0, edition 2 has it up to lopt, and there is no other."""
    return limits.edition == 1 and limits.lastmin == 0 or limits.edition == 2 and limits.lastmin <= limits.lopt


def paragraph_limits_hold(limits):
    ordered = 1 <= limits.lmin <= limits.lopt <= limits.lmax <= 4095
    return (ordered and limits.lmin < limits.lmax and 1 <= limits.a <= 15 and limits.space <= MOST_SPACE
            and edition_holds(limits))


def page_limits_hold(limits):
    return 0 <= limits.lmin < limits.lmax <= 65535


def paragraph_room(n):
    """The entries each strip must hold, in 01's order."""
    return [n + 1, n + 1, n + 1, n, 2 * n, n]


def index_room(n):
    return [n + 1, n + 2, n + 2, n + 2, n + 2, 2 * n, n]


def check(limits_hold, space, lengths, room, strips):
    """Refusals 1 to 5 in their order; an index has no space, 0."""
    n = len(lengths)
    if n == 0:
        raise Refused(EMPTY)
    if n > MOST_WORDS:
        raise Refused(MANY)
    if not limits_hold:
        raise Refused(LIMITS)
    for word, length in enumerate(lengths, 1):
        if length == 0 or length > MOST_LENGTH or length <= space:
            raise Refused(LENGTH, word)
    for number, (needed, strip) in enumerate(zip(room(n), strips), 1):
        if len(strip) < needed:
            raise Refused(ROOM, number)


# ---- the setter: what is told, and every entry of every strip ----------------------------------------------------------

def over(front, strip):
    """The front is written, the rest is as it was."""
    return list(front) + list(strip[len(front):])


def follow(chosen, first, end):
    """The chosen nexts from `first` up to the end; chosen is by index."""
    points = []
    while first != end:
        points.append(first)
        first = chosen[first]
    return points


def same(*renderings):
    """All renderings agree; the common one."""
    assert all(r == renderings[0] for r in renderings), renderings
    return renderings[0]


def finish(fronts, strips, total, answer, moves):
    """What is told and the strips after a call that refusals 1 to 5 let pass; the answer strip is the last."""
    after = [over(front, strip) for front, strip in zip(fronts, strips)]
    if total == NO_SETTING:
        return Told(NONE, 0, 0, 0, len(moves)), after + [list(strips[-1])]
    return Told(0, 0, total, len(answer), len(moves)), after + [over(answer, strips[-1])]


def set_paragraph(limits, lengths, strips):
    """(told, strips after) for strips in 01's order; what is lent is not changed."""
    try:
        check(paragraph_limits_hold(limits), limits.space, lengths, paragraph_room, strips)
    except Refused as refused:
        return refused.told, [list(strip) for strip in strips]
    n = len(lengths)
    rules = QueueRules(limits, lengths)
    starts = same(paragraph_by_table(limits, lengths), rules.run())
    check_choosers(rules, starts)
    found = starts.best[0] != NO_SETTING
    breaks = follow([0] + starts.next, 1, n + 1) if found else []
    fronts = [running_sums(lengths), starts.best, starts.next, [0] * n, rules.moves]
    return finish(fronts, strips, starts.best[0], breaks, rules.moves)


def set_index(limits, lengths, strips):
    try:
        check(page_limits_hold(limits), 0, lengths, index_room, strips)
    except Refused as refused:
        return refused.told, [list(strip) for strip in strips]
    n = len(lengths)
    rules = PointerRules(limits, lengths)
    starts = same(rules.run(), index_by_table(limits, lengths))
    left = same(rules.left, smaller_to_the_left(starts.best, n))
    right = same(rules.right, not_larger_to_the_right(starts.best, n))
    found = starts.best[0] != NO_SETTING
    boundaries = follow(starts.next, 0, n + 1)[1:] if found else []
    fronts = [running_sums(lengths), starts.best, starts.next, left, right, rules.moves]
    return finish(fronts, strips, starts.best[0], boundaries, rules.moves)


def penalty_alone(limits, length):
    """The penalty of one line asked for alone: the total is the penalty, or NO_SETTING where the line is outside the measure.

    The length is the line's own, the space already off. Which line it is nobody says, so no length is compared with lastmin."""
    if not paragraph_limits_hold(limits):
        return Told(LIMITS, 0, 0, 0, 0)
    if length > MOST_ALONE:
        return Told(LENGTH, 0, 0, 0, 0)
    if not limits.lmin <= length <= limits.lmax:
        return Told(0, 0, NO_SETTING, 0, 0)
    return Told(0, 0, penalty(limits, length), 0, 0)


# ---- the job reader ---------------------------------------------------------------------------------------------------

# A job as read: limits is Limits (counts 5 and 4) or PageLimits (count 2).
Job = namedtuple("Job", "limits lengths")
LIMITS_OF_COUNT = {5: Limits, 4: Limits, 2: PageLimits}


def number_at(job, at):
    """The 32-bit number at a byte offset, low byte first."""
    if len(job) < at + 4:
        raise Refused(JOB, at)
    return int.from_bytes(job[at:at + 4], "little")


def numbers_at(job, at, count):
    return [number_at(job, at + 4 * k) for k in range(count)]


def read_job(job, room=MOST_WORDS):
    """The job, read in file order to its end; `room` is the length of the lengths strip. Raises Refused."""
    count = number_at(job, 0)
    if count not in LIMITS_OF_COUNT:
        raise Refused(JOB, 0)
    limits = LIMITS_OF_COUNT[count](*numbers_at(job, 4, count))
    at = 4 + 4 * count
    n = number_at(job, at)
    if n > MOST_WORDS:
        raise Refused(MANY)
    if n > room:
        raise Refused(ROOM, 1)
    lengths = numbers_at(job, at + 4, n)
    end = at + 4 + 4 * n
    if len(job) > end:
        raise Refused(JOB, end)
    return Job(limits, lengths)


def pack(numbers):
    """The job file of some numbers."""
    return b"".join(number.to_bytes(4, "little") for number in numbers)


def job_numbers(limits, lengths):
    """The numbers of a job. A paragraph without a space is written by the count 4, which stands for it. No job carries an edition."""
    written = limits[:4] if isinstance(limits, Limits) and limits.space == 0 else limits[:5]
    return [len(written), *written, len(lengths), *lengths]


def job_of(limits, lengths):
    return pack(job_numbers(limits, lengths))


def job_of_five(limits, lengths):
    """The job of a paragraph that gives its space, be it 0."""
    return pack([5, *limits[:5], len(lengths), *lengths])


# ---- the listing ------------------------------------------------------------------------------------------------------

def lent(room, n, more=0, fill=0):
    """Strips of the entries needed and `more` besides, each entry `fill`."""
    return [[fill] * (needed + more) for needed in room(n)]


def line_row(limits, lengths, first, after):
    """A line's first word, length and penalty."""
    x = line(limits, lengths, first, after)
    free = after == len(lengths) + 1 and x <= limits.lopt
    return f"{first} {x} {0 if free else penalty(limits, x)}"


def paragraph_rows(limits, lengths, told, strips):
    breaks = strips[-1][:told.lines]
    lines = zip(breaks, breaks[1:] + [len(lengths) + 1])
    rows = [line_row(limits, lengths, i, j) for i, j in lines]
    return [f"paragraph {len(lengths)}", f"penalty {told.total}", f"lines {told.lines}", *rows, f"moves {told.moves}"]


def index_rows(limits, lengths, told, strips):
    rows = [f"{b} {lengths[b - 1]}" for b in strips[-1][:told.lines]]
    return [f"index {len(lengths)}", f"keys {told.total}", f"boundaries {told.lines}", *rows, f"moves {told.moves}"]


def set_job(job, more=0, fill=0):
    """(told, strips after) of a job that was read, with strips lent by the oracle."""
    n = len(job.lengths)
    if isinstance(job.limits, Limits):
        return set_paragraph(job.limits, job.lengths, lent(paragraph_room, n, more, fill))
    return set_index(job.limits, job.lengths, lent(index_room, n, more, fill))


def listing(job_bytes):
    """What the setting program prints for a job."""
    try:
        job = read_job(job_bytes)
    except Refused as refused:
        return f"refused {refused.told.number} {refused.told.place}\n"
    told, strips = set_job(job)
    if told.number:
        return f"refused {told.number} {told.place}\n"
    rows = paragraph_rows if isinstance(job.limits, Limits) else index_rows
    return "".join(row + "\n" for row in rows(job.limits, job.lengths, told, strips))


# ---- 01's own cases ---------------------------------------------------------------------------------------------------

# The compositor's table: mark, limits, lengths, total (None for NONE), answer strip.
MARKED = [
    ("P1", Limits(1, 6, 6, 1), [3, 2, 2, 5], 13, [1, 2, 4]),
    ("P2", Limits(6, 8, 10, 1), [4, 4, 3, 5, 2], 0, [1, 3, 5]),
    ("P3", Limits(2, 4, 6, 1), [3, 2, 2], 1, [1, 2]),
    ("P4", Limits(6, 8, 9, 1), [5, 5], None, []),
    ("P5", Limits(6, 8, 9, 1), [5], 0, [1]),
    ("P6", Limits(6, 8, 10, 1), [10], 4, [1]),
    ("P7", Limits(6, 8, 10, 1), [11], None, []),
    ("P8", Limits(6, 8, 10, 15), [10], 60, [1]),
    ("G1", PageLimits(2, 7), [3, 4, 2, 5], 2, [3]),
    ("G2", PageLimits(2, 7), [8], None, []),
    ("G3", PageLimits(0, 7), [8], 8, [1]),
    ("G4", PageLimits(0, 2), [1, 1, 1], 1, [3]),
    ("G5", PageLimits(0, 7), [7], 0, []),
]

MARKED_MOVES = {"P1": [41, 43, 33, 25, 35, 28, 17], "G1": [39, 37, 30]}

# W-202, worked on paper: mark, limits, lengths, total, breaks, best, moves. S1 is P1 with its space written.
SPACED = [
    ("S1", Limits(1, 6, 6, 1, 0), [3, 2, 2, 5], 13, [1, 2, 4], [13, 4, 16, 0, 0], [41, 43, 33, 25, 35, 28, 17]),
    ("S2", Limits(1, 5, 6, 1, 1), [4, 3, 3, 6], 4, [1, 2, 4], [4, 0, 9, 0, 0], [41, 43, 33, 25, 35, 28, 17]),
    ("S3", Limits(1, 1, 2, 1, 1), [2], 0, [1], [0, 0], [17]),
    ("S4", Limits(2, 4, 6, 1, 1), [4, 3, 3], 2, [1, 2], [2, 1, 0, 0], [33, 25, 35, 28, 17]),
    ("S5", Limits(6, 8, 10, 1, 2), [4, 4, 3, 5, 5], 1, [1, 4], [1, 4, 4, 0, 0, 0], [49, 51, 41, 43, 33, 25]),
]

# W-205, worked on paper: mark, limits, lengths, total (None for NONE), breaks, best, next, moves. In E1 the front is 2 and no chooser.
LAST = [
    ("E1", Limits(1, 2, 2, 1, 0, 2, 2), [1], None, [], [NO_SETTING, 0], [0, 0], [17]),
    ("E2", Limits(1, 6, 6, 1, 0, 2, 4), [3, 2, 2, 3], 1, [1, 3], [1, 16, 0, NO_SETTING, 0], [3, 3, 5, 0, 0], [41, 34, 43, 25, 17]),
    ("E3", Limits(2, 4, 6, 1, 0, 2, 3), [3, 2, 2], 1, [1, 2], [1, 0, NO_SETTING, 0], [2, 4, 0, 0], [33, 26, 35, 17]),
    ("E4", Limits(2, 5, 7, 1, 1, 2, 4), [4, 3, 3, 2], 1, [1, 3], [1, 4, 0, NO_SETTING, 0], [3, 5, 5, 0, 0], [41, 34, 25, 43, 17]),
]

PARAGRAPH_LISTING = "paragraph 4\npenalty 13\nlines 3\n1 3 9\n2 4 4\n4 5 0\nmoves 7\n"
# S2's: the lines of 4, 3 + 3 and 6 units are 3, 5 and 5 long.
SPACED_LISTING = "paragraph 4\npenalty 4\nlines 3\n1 3 4\n2 5 0\n4 5 0\nmoves 7\n"
INDEX_LISTING = "index 4\nkeys 2\nboundaries 1\n3 2\nmoves 3\n"

# Lists where bridging by the second inequality alone goes wrong: name, limits, lengths, least total, the total it gives.
# In the last two only a later start's best or next is wrong; its strips show it, the total does not.
CHORD_ALONE = [
    ("shortest", Limits(1, 5, 5, 11), [1, 1, 1, 3, 3], 88, 110),
    ("six words", Limits(1, 5, 5, 5), [1, 1, 2, 2, 1, 3], 25, 45),
    ("more than twice", Limits(1, 6, 6, 8), [2, 1, 3, 1, 2, 1, 3, 1], 32, 72),
    ("lmin above 1", Limits(2, 5, 5, 2), [1, 1, 1, 2, 1, 1, 1, 1, 2, 2, 2], 4, 8),
    ("later start", Limits(1, 5, 5, 10), [3, 1, 1, 1, 3, 3], 10, 10),
    ("total 0", Limits(1, 4, 4, 4), [1, 1, 1, 1, 2, 1, 1, 1, 2, 1, 2, 1], 0, 0),
    ("with a space", Limits(1, 6, 6, 10, 1), [2, 2, 2, 2, 3, 3], 50, 90),
]

# Lists where the space taken off in the crossing test goes wrong, told in the same way.
SPACE_OFF = [
    ("shortest", Limits(1, 3, 9, 1, 1), [2, 2, 2, 3], 1, 4),
    ("as many moves", Limits(1, 8, 25, 1, 5), [6, 6, 8, 7], 5, 49),
    ("lmin above 1", Limits(3, 9, 17, 12, 3), [6, 8, 4, 5, 6], 156, 432),
    ("lopt at lmax", Limits(1, 15, 15, 1, 5), [6, 6, 6, 6, 7, 8], 53, 65),
    ("a best of a later start", Limits(1, 3, 6, 3, 1), [2, 2, 2, 2, 3], 0, 0),
    ("a next and no best", Limits(1, 4, 8, 6, 1), [2, 2, 3, 4, 4], 30, 30),
]

# Lists where a rear is bridged while just two stand; a rule that waits for a third takes other moves here.
BRIDGED_OF_TWO = [
    (Limits(2, 6, 6, 11), [3, 1, 1, 3, 3]),
    (Limits(1, 66, 66, 2), [26, 18, 12, 12, 27, 39]),
    (Limits(7, 13, 22, 14), [1, 10, 12, 7, 3, 2, 6, 8]),
    (Limits(3, 7, 9, 3, 1), [4, 2, 2, 4, 4]),
]


# ---- chosen at random -------------------------------------------------------------------------------------------------

def random_lengths(r, most):
    """1 to `most` lengths; the narrower the range, the more totals are equal."""
    widest = r.choice([1, 2, 2, 3, 5, 9, 40])
    return [r.randint(1, widest) for _ in range(r.randint(1, most))], widest


def random_limits(r, widest):
    """Paragraph limits near the lengths, loose or tight, lopt often at an end."""
    lmax = r.randint(2, 5 * widest + 2)
    lmin = r.choice([1, lmax - 1, r.randint(1, lmax - 1)])
    lopt = r.choice([lmin, lmax, r.randint(lmin, lmax), r.randint(lmin, lmax)])
    return Limits(lmin, lopt, lmax, r.choice([1, 1, 2, 15, r.randint(1, 15)]))


def random_page_limits(r, widest):
    """Page limits near the lengths; short pages with a low lmin make the pointer jump."""
    lmax = r.choice([r.randint(1, 5 * widest + 2), r.randint(widest // 2 + 1, 2 * widest)])
    return PageLimits(r.choice([0, lmax - 1, r.randint(0, lmax - 1), r.randint(0, lmax // 3)]), lmax)


def random_space(r):
    """None as often as not, else a narrow one; now and then the widest."""
    return r.choice([0, 0, 0, 0, 0, 1, 1, 2, r.randint(1, 9), MOST_SPACE])


def spaced(lengths, space):
    """The lengths with a space after each: all are above it, those of one unit by no more than that."""
    return [length + space for length in lengths]


def random_paragraph(r, most):
    lengths, widest = random_lengths(r, most)
    space = random_space(r)
    return random_limits(r, widest + space)._replace(space=space), spaced(lengths, space)


def random_lastmin(r, limits, lengths):
    """A least last length up to lopt: an end of that range, lmin, any, or within one unit of what some last words are as one line."""
    rest = line(limits, lengths, r.randint(max(1, len(lengths) - 3), len(lengths)), len(lengths) + 1)
    near = r.randint(rest - 1, rest + 1)
    return min(limits.lopt, r.choice([0, 1, limits.lmin, limits.lopt, r.randint(0, limits.lopt), near, near, near]))


def random_last_paragraph(r, most):
    """A paragraph under edition 2."""
    limits, lengths = random_paragraph(r, most)
    return limits._replace(edition=2, lastmin=random_lastmin(r, limits, lengths)), lengths


def random_bad_edition(r, limits):
    """The same limits with an edition that there is not, or with a lastmin that their edition does not have."""
    other, beyond = r.choice([0, 3, 4, 255, 65535]), r.choice([limits.lopt + 1, limits.lmax + 1, r.randint(limits.lopt + 1, 65535)])
    last = [(other, 0), (other, r.randint(0, limits.lopt)), (1, 1), (1, r.randint(1, limits.lopt)), (2, beyond)]
    edition, lastmin = r.choice(last)
    return limits._replace(edition=edition, lastmin=lastmin)


def random_of_both(r, most):
    """A paragraph under either edition."""
    return r.choice([random_paragraph, random_last_paragraph])(r, most)


def random_index(r, most):
    lengths, widest = random_lengths(r, most)
    return random_page_limits(r, widest), lengths


def chord_alone_differs(limits, lengths):
    """Whether bridging by the second inequality alone gives some start another best or next."""
    return QueueRules(limits, lengths).run() != QueueRules(limits, lengths, chord_alone=True).run()


def random_chord_case(r, most):
    """A paragraph on which the second inequality alone goes wrong."""
    while True:
        lmax, space = r.randint(4, 9), r.choice([0, 0, 1])
        limits = Limits(r.randint(1, 2), r.choice([lmax, lmax, lmax - 1]), lmax, r.randint(1, 15), space)
        lengths = [r.randint(1, r.choice([2, 3])) for _ in range(r.randint(5, max(5, most)))]
        if chord_alone_differs(limits, spaced(lengths, space)):
            return limits, spaced(lengths, space)


def space_off_differs(limits, lengths):
    """Whether the space taken off in the crossing test gives some start another best or next."""
    return QueueRules(limits, lengths).run() != QueueRules(limits, lengths, space_off=True).run()


def random_space_off_case(r, most):
    """A paragraph on which the space taken off in the crossing test goes wrong."""
    while True:
        lengths, widest = random_lengths(r, most)
        space = r.choice([1, 1, 2, r.randint(1, 9)])
        limits = random_limits(r, widest + space)._replace(lmin=1, space=space)
        if space_off_differs(limits, spaced(lengths, space)):
            return limits, spaced(lengths, space)


def bridges(limits, lengths):
    """How many stood in the queue at each Pop of a bridged rear."""
    rules = QueueRules(limits, lengths)
    rules.run()
    return rules.bridges


def random_bridge_case(r, most, standing):
    """A paragraph where a bridged rear is popped while `standing` stand."""
    while True:
        limits, lengths = random_paragraph(r, most)
        if standing in bridges(limits, lengths):
            return limits, lengths


def random_barred_case(r, most):
    """A paragraph under edition 2 with a start at which a front stands and is no chooser."""
    while True:
        limits, lengths = random_last_paragraph(r, most)
        rules = QueueRules(limits, lengths)
        rules.run()
        if barred_fronts(rules):
            return limits, lengths


# ---- self test --------------------------------------------------------------------------------------------------------

def greedy_total(limits, lengths):
    """The total where each line is filled as far as it goes (01's second error)."""
    starts = [1]
    for word in range(2, len(lengths) + 1):
        if line(limits, lengths, starts[-1], word + 1) > limits.lmax:
            starts.append(word)
    return setting_total(limits, lengths, tuple(starts))


def compare_paragraph(limits, lengths):
    rules = QueueRules(limits, lengths)
    starts = same(paragraph_by_definition(limits, lengths), paragraph_by_table(limits, lengths), rules.run())
    check_choosers(rules, starts)
    assert len(rules.moves) <= 2 * len(lengths), (limits, lengths)
    return starts.best[0] == NO_SETTING


def compare_index(limits, lengths):
    n = len(lengths)
    rules = PointerRules(limits, lengths)
    starts = same(index_by_definition(limits, lengths), index_by_table(limits, lengths), rules.run())
    same(rules.left, smaller_to_the_left(starts.best, n))
    same(rules.right, not_larger_to_the_right(starts.best, n))
    assert len(rules.moves) <= 2 * n, (limits, lengths)
    return starts.best[0] == NO_SETTING


def test_marked():
    for mark, limits, lengths, total, answer in MARKED:
        told, strips = set_job(Job(limits, lengths), more=1, fill=7)
        if total is None:
            assert (told.number, told.place) == (NONE, 0), mark
            assert strips[-1] == [7] * (len(lengths) + 1), mark
        else:
            assert told[:4] == (0, 0, total, len(answer)), mark
            assert strips[-1] == over(answer, [7] * (len(lengths) + 1)), mark
        moves = MARKED_MOVES.get(mark)
        assert moves is None or strips[-2][:told.moves] == moves, mark
        (compare_paragraph if isinstance(limits, Limits) else compare_index)(limits, lengths)
    assert greedy_total(*MARKED[0][1:3]) == 17


def test_spaced():
    for mark, limits, lengths, total, breaks, best, moves in SPACED:
        n = len(lengths)
        told, strips = set_job(Job(limits, lengths), more=1, fill=7)
        assert told == (0, 0, total, len(breaks), len(moves)), mark
        assert strips[0] == running_sums(lengths) + [7], mark
        assert strips[1] == best + [7], mark
        assert strips[3] == [0] * n + [7], mark
        assert strips[4] == over(moves, [7] * (2 * n + 1)), mark
        assert strips[5] == over(breaks, [7] * (n + 1)), mark
        compare_paragraph(limits, lengths)


def test_space_off():
    for name, limits, lengths, least, wrong in SPACE_OFF:
        assert space_off_differs(limits, lengths), name
        assert QueueRules(limits, lengths, space_off=True).run().best[0] == wrong, name
        assert paragraph_by_table(limits, lengths).best[0] == least, name


def test_last():
    for mark, limits, lengths, total, breaks, best, chosen, moves in LAST:
        n = len(lengths)
        told, strips = set_job(Job(limits, lengths), more=1, fill=7)
        assert told == ((NONE, 0, 0, 0, len(moves)) if total is None else (0, 0, total, len(breaks), len(moves))), mark
        assert strips[:4] == [running_sums(lengths) + [7], best + [7], chosen + [7], [0] * n + [7]], mark
        assert strips[4:] == [over(moves, [7] * (2 * n + 1)), over(breaks, [7] * (n + 1))], mark
        compare_paragraph(limits, lengths)


def same_setting(lengths, *limits):
    """What is told under each of these limits, which must be the same, as must be every entry of every strip."""
    told, _ = same(*(set_job(Job(l, lengths), more=2, fill=7) for l in limits))
    return told


def without_space(limits):
    """The limits of the paragraph that counts the space after a line's last word, and so is the same paragraph. A lastmin of 0 asks
    nothing, and stays."""
    space = limits.space
    return limits._replace(lmin=limits.lmin + space, lopt=limits.lopt + space, lmax=limits.lmax + space, space=0,
                           lastmin=limits.lastmin + space if limits.lastmin else 0)


def compare_shifted(limits, lengths):
    """A paragraph with a space, and the one without it whose limits are each raised by it."""
    assert same_setting(lengths, limits, without_space(limits)).number in (0, NONE), (limits, lengths)


def compare_editions(limits, lengths):
    """Edition 2 with lastmin 0, and edition 1."""
    assert same_setting(lengths, *(limits._replace(edition=edition, lastmin=0) for edition in (1, 2))).number in (0, NONE)


def test_chord_alone():
    for name, limits, lengths, least, wrong in CHORD_ALONE:
        assert chord_alone_differs(limits, lengths), name
        assert QueueRules(limits, lengths, chord_alone=True).run().best[0] == wrong, name
        assert paragraph_by_table(limits, lengths).best[0] == least, name


def test_bridged_of_two():
    for limits, lengths in BRIDGED_OF_TWO:
        assert 2 in bridges(limits, lengths), (limits, lengths)


def test_listings():
    assert listing(pack([4, 1, 6, 6, 1, 4, 3, 2, 2, 5])) == PARAGRAPH_LISTING
    assert listing(pack([2, 2, 7, 4, 3, 4, 2, 5])) == INDEX_LISTING
    assert listing(job_of(*MARKED[3][1:3])) == "refused 6 0\n"
    assert listing(pack([5, 1, 6, 6, 1, 0, 4, 3, 2, 2, 5])) == PARAGRAPH_LISTING
    assert listing(pack([5, 1, 5, 6, 1, 1, 4, 4, 3, 3, 6])) == SPACED_LISTING


def refusal(job_bytes, room=MOST_WORDS):
    try:
        read_job(job_bytes, room)
    except Refused as refused:
        return refused.told.number, refused.told.place
    return 0, 0


def read_damaged(whole):
    """A job of 4 lengths: cut at every byte, with too short a strip, with bytes left over."""
    for cut in range(len(whole)):
        assert refusal(whole[:cut]) == (JOB, cut // 4 * 4), cut
    assert refusal(whole) == (0, 0) and refusal(whole, 4) == (0, 0)
    assert refusal(whole, 3) == (ROOM, 1) and refusal(whole[:-1], 3) == (ROOM, 1)
    for more in range(1, 5):
        assert refusal(whole + bytes(more)) == (JOB, len(whole))


def test_reader():
    four, five = job_of(Limits(1, 6, 6, 1), [3, 2, 2, 5]), job_of_five(Limits(1, 5, 6, 1, 1), [4, 3, 3, 6])
    read_damaged(four)
    read_damaged(five)
    assert read_job(four) == Job(Limits(1, 6, 6, 1, 0), [3, 2, 2, 5]) == read_job(job_of_five(*read_job(four)))
    assert read_job(five) == Job(Limits(1, 5, 6, 1, 1), [4, 3, 3, 6]) and five == job_of(*read_job(five))
    longest = job_of_five(Limits(1, 5, 6, 1, 1), [2] * MOST_WORDS)
    assert len(longest) == 16_412 and refusal(longest) == (0, 0) and refusal(longest + b"\0") == (JOB, 16_412)
    for count in (0, 1, 3, 6, 2**32 - 1):
        assert refusal(pack([count]) + five[4:]) == (JOB, 0)
    assert refusal(pack([3])) == (JOB, 0)
    assert refusal(pack([2, 0, 7, 4097]), 0) == (MANY, 0)
    assert refusal(pack([2, 0, 7, 0]), 0) == (0, 0)


def test_edges():
    """01, "On the edges"; each as a listing, so that reader and setter both stand behind it."""
    def number(limits, lengths):
        text = listing(job_of(limits, lengths))
        return int(text.split()[1]) if text.startswith("refused") else 0
    assert number(Limits(1, 2, 4095, 1), [1]) == 0 and number(Limits(1, 2, 4096, 1), [1]) == LIMITS
    assert number(Limits(1, 2, 3, 0), [1]) == LIMITS and number(Limits(1, 2, 3, 16), [1]) == LIMITS
    assert number(Limits(3, 3, 3, 1), [1]) == LIMITS and number(PageLimits(3, 3), [1]) == LIMITS
    assert number(PageLimits(0, 65535), [1]) == 0 and number(PageLimits(0, 65536), [1]) == LIMITS
    assert number(Limits(1, 2, 4095, 1), [4095]) == 0 and number(Limits(1, 2, 4095, 1), [4096]) == LENGTH
    assert number(Limits(1, 2, 3, 1), [1] * 4096) == 0 and number(Limits(1, 2, 3, 1), [1] * 4097) == MANY
    assert number(Limits(0, 0, 0, 0), []) == EMPTY and number(Limits(0, 0, 0, 0), [0]) == LIMITS
    assert number(Limits(1, 2, 3, 1, 255), [256]) == 0 and number(Limits(1, 2, 3, 1, 255), [255]) == LENGTH
    assert number(Limits(1, 2, 3, 1, 256), [257]) == LIMITS and number(Limits(1, 2, 3, 1, 256), [0]) == LIMITS
    assert number(Limits(1, 2, 3, 1, 1), [2]) == 0 and number(Limits(1, 2, 3, 1, 1), [1]) == LENGTH
    assert number(Limits(1, 2, 4095, 1, 255), [4095]) == 0 and number(Limits(1, 2, 4095, 1, 255), [4096]) == LENGTH
    assert listing(job_of(Limits(1, 2, 3, 1, 1), [2, 3, 1, 0])) == "refused 4 3\n"


def test_editions():
    """The edition and lastmin from both sides of their rules, and the order of the refusals."""
    def number(lengths, **last):
        return set_job(Job(Limits(1, 4, 6, 1)._replace(**last), lengths))[0].number
    for edition in (0, 3, 4, 2**16, 2**32 - 1):
        assert number([4], edition=edition) == LIMITS == number([4], edition=edition, lastmin=2)
    assert number([4], lastmin=0) == 0 and number([4], lastmin=1) == LIMITS == number([4], lastmin=2**32 - 1)
    assert number([4], edition=2, lastmin=4) == 0 and number([4], edition=2, lastmin=5) == LIMITS
    assert number([4], edition=2, lastmin=2**32 - 1) == LIMITS
    assert number([], edition=0) == EMPTY and number([0], edition=0) == LIMITS and number([1] * 4097, edition=0) == MANY
    assert number([0], edition=2, lastmin=4) == LENGTH and number([3], edition=2, lastmin=4) == NONE
    for space in (0, 1, 9):
        assert number([3 + space], space=space, edition=2, lastmin=3) == 0
        assert number([3 + space], space=space, edition=2, lastmin=4) == NONE


def test_penalty():
    assert penalty_alone(Limits(1, 6, 6, 1), 3).total == 9
    limits = Limits(6, 8, 10, 15)
    assert [penalty_alone(limits, x).total for x in (6, 8, 10)] == [60, 0, 60]
    for x in (5, 11, 0, MOST_ALONE):
        assert penalty_alone(limits, x) == Told(0, 0, NO_SETTING, 0, 0)
    assert penalty_alone(limits, MOST_ALONE + 1) == Told(LENGTH, 0, 0, 0, 0)
    assert penalty_alone(Limits(6, 8, 6, 1), MOST_ALONE + 1) == Told(LIMITS, 0, 0, 0, 0)
    for space in (1, MOST_SPACE):    # the length is the line's own: nothing is taken off it
        assert [penalty_alone(limits._replace(space=space), x).total for x in (6, 8, 10)] == [60, 0, 60]
    assert penalty_alone(limits._replace(space=MOST_SPACE + 1), 8) == Told(LIMITS, 0, 0, 0, 0)
    for lastmin in (0, 1, 7, 8):    # nor is it compared with lastmin
        assert [penalty_alone(limits._replace(edition=2, lastmin=lastmin), x).total for x in (6, 8, 10)] == [60, 0, 60]
    assert penalty_alone(limits._replace(edition=2, lastmin=9), MOST_ALONE + 1) == Told(LIMITS, 0, 0, 0, 0)
    greatest = 251_412_540  # 15·4,094², below 01's 2^28
    assert penalty_alone(Limits(1, 1, 4095, 15), 4095).total == greatest == penalty_alone(Limits(1, 4095, 4095, 15), 1).total


def test_room():
    """Strip after strip one entry too short: ROOM names the first, and nothing is written."""
    all_limits = (Limits(1, 6, 6, 1), Limits(1, 5, 6, 1, 1), Limits(1, 5, 6, 1, 1, 2, 4))
    paragraphs = [(set_paragraph, limits, paragraph_room) for limits in all_limits]
    for setter, limits, room in [*paragraphs, (set_index, PageLimits(2, 7), index_room)]:
        for short in range(len(room(4))):
            strips = lent(room, 4, fill=7)
            for later in range(short, len(strips)):
                strips[later].pop()
            told, after = setter(limits, [3, 2, 2, 5], strips)
            assert told == Told(ROOM, short + 1, 0, 0, 0) and after == strips


def test_random(seed, count):
    """The three renderings on lists short enough to list every setting; how many of each kind had none."""
    r = random.Random(seed)
    nones = [0, 0]
    for _ in range(count):
        nones[0] += compare_paragraph(*random_of_both(r, r.choice([4, 7, 9])))
        nones[1] += compare_index(*random_index(r, r.choice([4, 7, 9])))
    for _ in range(count // 100):
        compare_paragraph(*random_chord_case(r, 11))
        compare_paragraph(*random_space_off_case(r, 9))
        compare_paragraph(*random_barred_case(r, 9))
    return nones


def with_space(draw, r, most):
    """A case that has a space; without one it would be compared with itself."""
    while True:
        limits, lengths = draw(r, most)
        if limits.space > 0:
            return limits, lengths


def test_shifted(seed, count):
    """The space against limits raised by it."""
    r = random.Random(seed)
    for _ in range(count):
        compare_shifted(*with_space(random_of_both, r, 40))
    for _ in range(count // 10):
        compare_shifted(*with_space(random_chord_case, r, 20))
        compare_shifted(*with_space(random_space_off_case, r, 20))


def test_equal_editions(seed, count):
    """Edition 2 with lastmin 0 against edition 1."""
    r = random.Random(seed)
    for _ in range(count):
        compare_editions(*random_paragraph(r, 40))
    for _ in range(count // 10):
        compare_editions(*random_chord_case(r, 20))
        compare_editions(*random_space_off_case(r, 20))


def test_bad_editions(seed, count):
    """A bad edition or lastmin is LIMITS before any length or strip is looked at, and nothing is written; the penalty alone says so too."""
    r = random.Random(seed)
    for _ in range(count):
        limits, lengths = random_paragraph(r, 12)
        bad, strips = random_bad_edition(r, limits), lent(paragraph_room, r.randint(0, len(lengths)), fill=7)
        lengths[r.randrange(len(lengths))] = r.choice([0, 1, 4096])
        assert set_paragraph(bad, lengths, strips) == (Told(LIMITS, 0, 0, 0, 0), strips), bad
        assert penalty_alone(bad, r.choice([limits.lopt, MOST_ALONE + 1])) == Told(LIMITS, 0, 0, 0, 0), bad


def test_longer(seed, count):
    """Table and rules on lists too long to list every setting; set_job compares them."""
    r = random.Random(seed)
    for _ in range(count):
        set_job(Job(*random_of_both(r, 120)))
        set_job(Job(*random_index(r, 120)))


def selftest(seed):
    for test in (test_marked, test_spaced, test_last, test_chord_alone, test_space_off, test_bridged_of_two, test_listings, test_reader,
                 test_edges, test_editions, test_penalty, test_room):
        test()
    count, longer = 20_000, 2_000
    nones = test_random(seed, count)
    test_longer(seed + 1, longer)
    test_shifted(seed + 2, longer)
    test_equal_editions(seed + 3, longer)
    test_bad_editions(seed + 4, longer)
    print(f"{len(MARKED)} marked rows, {len(SPACED)} with a space, {len(LAST)} under edition 2, all listings; lists where an error shows: "
          f"{len(CHORD_ALONE)} where the second inequality stands alone, {len(SPACE_OFF)} where the crossing test takes the space off")
    print(f"by definition = by table = by the rules: {count} paragraphs of both editions ({nones[0]} with none), "
          f"{count} indexes ({nones[1]} with none), {count // 100} lists at random of each error and "
          f"with a front below the least last length")
    pairs = longer + 2 * (longer // 10)
    print(f"a space = limits raised by it: {pairs} paragraphs; edition 2 with lastmin 0 = edition 1: {pairs}; every entry of every strip")
    print(f"by table = by the rules: {longer} longer paragraphs, {longer} longer indexes")


def main(arguments):
    if arguments[:1] == ["selftest"]:
        selftest(int(arguments[1]) if len(arguments) > 1 else 1)
    elif arguments == ["listing"]:
        sys.stdout.write(listing(sys.stdin.buffer.read()))
    else:
        sys.exit(__doc__)


if __name__ == "__main__":
    main(sys.argv[1:])
