#!/usr/bin/env python3
"""Refuses each allocation of the program in turn, and looks how it ends: refuse.py [CASE ..]

Run it at the top of the repository after `rt run` has built crates/refused_memory/out/refused_memory. That program runs a
case over a source and a sink that take no memory. For each case, or those named, the case is run once without a refusal,
and then with the first allocation refused, the second, and so on, until a run makes fewer. Each must end with status 5 and
nothing written, or with the status and as many bytes as without a refusal. A line for each case tells how many did which;
where one did neither, its number is told and the status is 1.
"""
import os
import re
import subprocess
import sys
import tempfile
from pathlib import Path
from typing import NamedTuple

import measure

PROGRAM = measure.TOP / "crates/refused_memory/out/refused_memory"
HOW = "cd crates/refused_memory && rt run"
SECONDS = 60
NO_MEMORY = (5, 0)


class Run(NamedTuple):
    """What the program printed last, its status and bytes if it did, and how many allocations it asked for."""

    printed: str
    ended: tuple
    calls: int


def build_refuser(folder: Path) -> Path:
    refuser = folder / "refuse.so"
    source = measure.TOP / "bench/refuse.c"
    subprocess.run(["gcc", "-O2", "-shared", "-fPIC", "-Wall", "-o", refuser, source], check=True)
    return refuser


def run(refuser: Path, case: str, refused: int) -> Run:
    """One run of a case, with the allocation of this number refused."""
    told, tell = os.pipe()
    how = {"LD_PRELOAD": str(refuser), "REFUSE": str(refused), "REFUSE_TOLD": str(tell)}
    try:
        done = subprocess.run([PROGRAM, case], env=how, pass_fds=[tell], capture_output=True, timeout=SECONDS)
    except subprocess.TimeoutExpired:
        sys.exit(f"{case}: with allocation {refused} refused it hadn't ended after {SECONDS} seconds")
    finally:
        os.close(tell)
    with open(told, "rb") as pipe:
        calls = int(pipe.read() or 0)
    line = done.stdout.decode().strip()
    found = re.fullmatch(r"[a-z_ ]+: status (\d), (\d+) bytes", line)
    ended = (int(found[1]), int(found[2])) if found and done.returncode == 0 else None
    return Run(f"{line} {done.stderr.decode().strip()} (exit {done.returncode})", ended, calls)


def names() -> list:
    """The cases, in the order in which the program runs them."""
    lines = subprocess.run([PROGRAM], check=True, capture_output=True, text=True).stdout.splitlines()
    return [line.split(":")[0] for line in lines]


def refuse_each(refuser: Path, case: str) -> bool:
    """Runs a case with each allocation refused, prints how the runs ended, and answers whether all ended well."""
    plain = run(refuser, case, 0)
    without_memory = unchanged = refused = 0
    wrong = []
    while True:
        refused += 1
        one = run(refuser, case, refused)
        if one.calls < refused and one.ended is not None:
            break
        if one.ended == NO_MEMORY:
            without_memory += 1
        elif one.ended == plain.ended:
            unchanged += 1
        else:
            wrong.append(f"{case}: with allocation {refused} refused: {one.printed}")
    status, taken = plain.ended or ("none", 0)
    print(
        f"{case:12} status {status}, {taken:5} bytes | {refused - 1:5} allocations refused in turn |"
        f" {without_memory:5} ended with status 5 and nothing written, {unchanged:4} as without, {len(wrong)} otherwise",
        flush=True,
    )
    for line in wrong:
        print(line)
    return plain.ended is not None and not wrong


def main() -> None:
    measure.need(PROGRAM, HOW)
    with tempfile.TemporaryDirectory() as folder:
        refuser = build_refuser(Path(folder))
        well = [refuse_each(refuser, case) for case in sys.argv[1:] or names()]
    sys.exit(0 if all(well) else 1)


main()
