#!/usr/bin/env python3
"""Times the proved program, and a plain Rust program beside it, on fixed workloads: run.py [--program PATH] [NAME ..]

Run it at the top of the repository after `rt run` has built crates/portable/out/portable. It prints a line for each
workload, or for those named, and adds a row to bench/results.csv; of another program it only prints. It stops where a
program fails, or where both write what must be equal and isn't.
"""
import argparse
import hashlib
import re
import sys
import tempfile
from pathlib import Path

import make_text
import measure

PROGRAM = measure.TOP / "crates/portable/out/portable"
HOW = "cd crates/portable && rt run -- run < ../pages/data/examples/first.work"


def whole(report: bytes) -> bytes:
    return report


def last(report: bytes) -> bytes:
    """The last values."""
    return report.rpartition(b"\nlast\n")[2]


def calls(report: bytes) -> bytes:
    """The calls, and of the last values the names and which are fixed, without what was found."""
    found = rb"(?m)( =|^[a-z][a-z0-9_]*) (?:ok |err )?[^\n =]*( fixed)?$"
    return re.sub(found, rb"\1\2", report)


# the words of the program and of its peer, where they aren't `run`
NUMBERS = ["7", "16", "62500"]
WORDS = {
    "many": (["many", *NUMBERS], ["many", *NUMBERS]),
    "many_word32": (["many", *NUMBERS], ["many_word32", *NUMBERS]),
}
RUN = (["run"], ["run"])
# what of a report is a function of the workload
SAME = {"full": calls, "u128_additions": last, "u8_additions": last}


def side_by_side(launcher: Path, peer: Path, program: Path, name: str, text: Path) -> tuple:
    """The runs of both programs, in turns. Whatever must be equal is compared at each run; the calls, which take long to
    take out of a report, at the first alone."""
    same = SAME.get(name, whole)
    own, others = WORDS.get(name, RUN)
    ours, theirs = [], []
    for number in range(measure.RUNS):
        one = measure.done(launcher, [program, *own], text)
        other = measure.done(launcher, [peer, *others], text)
        if (number == 0 or same is not calls) and same(one.written) != same(other.written):
            sys.exit(f"{name}: the reports differ")
        ours.append(one._replace(written=b""))
        theirs.append(other._replace(written=b""))
    return ours, theirs


def main() -> None:
    words = argparse.ArgumentParser()
    words.add_argument("--program", type=Path, default=PROGRAM)
    words.add_argument("names", nargs="*", metavar="NAME")
    given = words.parse_args()
    measure.need(given.program, HOW)
    with tempfile.TemporaryDirectory() as folder:
        launcher = measure.build_launcher(Path(folder))
        peer = measure.build_peer(Path(folder), "peer.rs")
        for name in given.names or make_text.WORKLOADS:
            made = make_text.text(name)
            text = Path(folder) / f"{name}.work"
            text.write_bytes(made)
            ours, theirs = side_by_side(launcher, peer, given.program, name, text)
            text.unlink()
            row = measure.compared(name, len(made), hashlib.sha256(made).hexdigest()[:16], ours, theirs)
            if given.program == PROGRAM:
                measure.keep("results.csv", measure.COLUMNS, row)


main()
