#!/usr/bin/env python3
"""Times reading alone: `portable run` on texts of about 8 MB that have a fault in their last line, so that all is read
and only the fault is written.

Run it at the top of the repository after `rt run` has built crates/portable/out/portable. It prints, for each text, the
median of the runs, the time of the processor, megabytes per second and the peak memory, and adds a row to
bench/reading.csv.
"""
import datetime
import random
import sys
import tempfile
from pathlib import Path

import measure

PROGRAM = measure.TOP / "crates/portable/out/portable"
HOW = "cd crates/portable && rt run -- run < ../pages/data/examples/first.work"
COLUMNS = "date,commit,processor,text,bytes,ms,cpu_ms,mb_per_s,peak_mb"
HEAD = "work 1\ntarget full64\n"
MOST = 8_388_608


def names(count: int) -> list:
    return [f"object_name_{number:04d}" for number in range(count)]


def filled(line: str, before: str, after: str) -> str:
    """As many of this line as there is room for."""
    count = (MOST - len(before) - len(after)) // len(line)
    return before + line * count + after


def comments() -> str:
    return filled("# " + "a comment of some words, passed over" * 2 + "\n", HEAD, "x\n")


def spaces() -> str:
    return filled(" " * 1023 + "\n", HEAD, "x\n")


def objects() -> str:
    lines = [f"object {name} u128 {'9' * 38}" for name in names(1024)]
    room = (MOST - len(HEAD) - sum(map(len, lines)) - 2) // len(lines) - 1
    return HEAD + "".join(line + " " * room + "\n" for line in lines) + "x\n"


def calls(threads: int, each: int, spare: int) -> str:
    """Calls with operands on 1,024 objects."""
    chosen = random.Random(1)
    declared = "".join(f"object n{number} u64 0\n" for number in range(1024))
    lines = []
    for _ in range(threads):
        lines.append("thread\n")
        lines += [f"n{chosen.randrange(1000)} fetch_add {chosen.randrange(10**5)}" + " " * spare + "\n" for _ in range(each)]
        lines.append("end\n")
    return HEAD + declared + "".join(lines) + "x\n"


TEXTS = {
    "comments": comments,
    "spaces": spaces,
    "objects": objects,
    "calls_65536": lambda: calls(1, 65_536, 106),
    "calls_380000": lambda: calls(7, 54_286, 0),
}


def timed(launcher: Path, text: Path) -> measure.Run:
    one = measure.run(launcher, [PROGRAM, "run"], text)
    if one.status != 1 or not one.written.endswith(b"word 1 UnknownWord\n"):
        sys.exit(f"{text.name}: status {one.status}, {one.written[:60]}")
    return one


def main() -> None:
    measure.need(PROGRAM, HOW)
    with tempfile.TemporaryDirectory() as folder:
        launcher = measure.build_launcher(Path(folder))
        for name, make in TEXTS.items():
            path = Path(folder) / f"{name}.work"
            path.write_text(make())
            runs = [timed(launcher, path) for _ in range(measure.RUNS)]
            wall, size = measure.median(runs, "wall"), path.stat().st_size
            head = [datetime.date.today().isoformat(), measure.commit(), measure.processor(), name, size]
            row = head + [
                f"{wall:.1f}",
                f"{measure.median(runs, 'cpu'):.1f}",
                f"{size / 1000 / wall:.0f}",
                f"{max(one.peak for one in runs):.1f}",
            ]
            print(f"{name}: {row[5]} ms, {row[6]} ms of processor, {row[7]} MB/s, {row[8]} MB")
            measure.keep("reading.csv", COLUMNS, row)


main()
