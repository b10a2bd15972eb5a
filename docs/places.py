#!/usr/bin/env python3
"""Compares rows of the table "To change something" in docs/ARCHITECTURE.md with a search of the sources.

Run it anywhere. For an operation, a built-in target, a limit, the number of locks and the last stamp it looks for a word
that each place of it must have, in sources, definitions and proofs, without tests, edits and programs that only use the
library. It names what the table lacks and what it has too much, and ends with status 1 where there is either.
"""
import re
import sys
from pathlib import Path

TOP = Path(__file__).resolve().parent.parent
# the head of a row, the words that its places have, and places that the row has, or lacks, for another reason
ROWS = {
    "an operation": (
        r"AddFetch|OrFetch|add_fetch|or_fetch",
        {
            "op_table/specs/CallTests.antt",
            "op_table/proofs/CallKinds.antt",
            "place_core/proofs/CellValues.antt",
            "ledger_sums/proofs/Members.antt",
            "work_lang/proofs/CanonicalTexts.antt",
            "work_lang/proofs/FormReads.antt",
        },
    ),
    "a built-in target": (r"word64", {"top_call/specs/Forms.antt", "top_call/proofs/FormFacts.antt"}),
    "a limit of workloads": (r"8_?388_?608|1_?024|1_?000_?000", set()),
    "the number of locks": (r"67", set()),
    "the last stamp, the number of passes": (r"18_?446_?744_?073_?709_?551_?614|65_?535", set()),
}
# programs that use the library, and module docs with another number
LEFT_OUT = {"arena_times", "call_times", "tour", "ptr_handles", "refused_memory", "pages", "sized_times"}
# a start of a generated object is the greatest u16 too; what texts are read as, by example
ALIKE = {
    "work_lang/specs/Generated.antt",
    "work_lang/src/generate.rt",
    "work_lang/specs/Vectors.antt",
    "work_lang/src/vectors.rt",
    "work_lang/proofs/TextFacts.antt",
}


def places(pattern: str) -> set:
    """The files whose text has one of the words."""
    word = re.compile(rf"(?<![0-9A-Za-z_])({pattern})(?![0-9A-Za-z_])")
    found = set()
    for kind in ("src/**/*.rt", "specs/**/*.antt", "proofs/**/*.antt"):
        for file in (TOP / "crates").glob(f"*/{kind}"):
            name = file.relative_to(TOP / "crates").as_posix()
            if "test" in name.replace("call_tests", "").lower() or "trial" in name.lower():
                continue
            if name.split("/")[0] not in LEFT_OUT and name not in ALIKE and word.search(file.read_text()):
                found.add(name)
    return found


def listed(head: str) -> set:
    """The files that the row names, each after its crate."""
    page = (TOP / "docs/ARCHITECTURE.md").read_text()
    row = next(line for line in page.splitlines() if line.startswith(f"| {head} |"))
    crate, files = "", set()
    for word in re.findall(r"`([^`]+)`", row.split("|", 2)[2]):
        if re.fullmatch(r"[a-z_]+/[A-Za-z_/]+\.(rt|antt)", word):
            files.add(f"{crate}/{word}")
        elif (TOP / "crates" / word).is_dir():
            crate = word
    return files


def main() -> None:
    wrong = 0
    for head, (pattern, besides) in ROWS.items():
        found, told = places(pattern) - besides, listed(head) - besides
        for name in sorted(found - told):
            print(f"{head}: the row lacks {name}")
        for name in sorted(told - found):
            print(f"{head}: nothing of it stands in {name}")
        wrong += len(found ^ told)
        crates = {name.split("/")[0] for name in found}
        print(f"{head}: {len(found)} files in {len(crates)} crates")
    sys.exit(1 if wrong else 0)


main()
