#!/usr/bin/env python3
"""Writes examples/NAME.numbers and examples/NAME.listing: jobs as decimal text, and what the setting program prints for each.

    python3 tests/make_examples.py            writes the files
    python3 tests/make_examples.py --check    writes nothing; exit status 1 where a stored file differs

The table's rows and the cases with a space come from the oracle; the catalogue's page, with the space at the end of a line and without
it, and the directory from the texts beside the examples, set at fixed pitch.
"""
import pathlib
import sys

import oracle

EXAMPLES = pathlib.Path(__file__).resolve().parent.parent / "examples"
ON_A_ROW = 20
# What the limits of a job are, by their count.
LIMITS_BY_COUNT = {2: "lmin lmax", 4: "lmin lopt lmax A", 5: "lmin lopt lmax A space"}


def table_examples():
    for mark, limits, lengths, _, _ in oracle.MARKED:
        yield mark, f"Row {mark} of the compositor's table.", limits[:4], lengths


def spaced_examples():
    """W-202's worked cases; all give their space, so the first does too, though it is 0."""
    for mark, limits, lengths, *_ in oracle.SPACED:
        yield mark, f"Case {mark}: a space of {limits.space} is taken off the end of each line.", limits[:5], lengths


def catalogue_examples():
    """A page of a parts catalogue: a word's length is its letters and the space after it. With it given, a line ends with letters."""
    lengths = [len(word) + 1 for word in (EXAMPLES / "catalogue.txt").read_text().split()]
    about = "The words of catalogue.txt, each with its space, at 52 to 62 units a line"
    yield "catalogue", f"{about}.", (52, 60, 62, 3), lengths
    yield "catalogue-space", f"{about}, which ends with its last letter.", (52, 60, 62, 3, 1), lengths


def directory_example():
    """A directory: an item's length is its letters, and a page takes 150 to 240 of them."""
    lengths = [len(item) for item in (EXAMPLES / "directory.txt").read_text().splitlines()]
    return "directory", "The items of directory.txt, at 150 to 240 letters a page.", (150, 240), lengths


def numbers_text(about, limits, lengths):
    """A comment, the limits after their count, the lengths after theirs."""
    rows = [lengths[k:k + ON_A_ROW] for k in range(0, len(lengths), ON_A_ROW)]
    kind = LIMITS_BY_COUNT[len(limits)]
    head = [f"# {about}", f"# A count and {kind}; a count and the lengths.", " ".join(map(str, [len(limits), *limits]))]
    return "".join(row + "\n" for row in head + [str(len(lengths))] + [" ".join(map(str, row)) for row in rows])


def files():
    """Each file's path and text."""
    for name, about, limits, lengths in [*table_examples(), *spaced_examples(), *catalogue_examples(), directory_example()]:
        yield EXAMPLES / f"{name}.numbers", numbers_text(about, limits, lengths)
        yield EXAMPLES / f"{name}.listing", oracle.listing(oracle.pack([len(limits), *limits, len(lengths), *lengths]))


def main(checking):
    differing = [(path, text) for path, text in files() if not path.exists() or path.read_text() != text]
    for path, text in differing:
        if checking:
            print(f"examples/{path.name}: differs from what the oracle gives", file=sys.stderr)
        else:
            path.write_text(text)
    sys.exit(1 if checking and differing else 0)


if __name__ == "__main__":
    main(sys.argv[1:] == ["--check"])
