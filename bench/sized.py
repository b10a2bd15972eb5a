#!/usr/bin/env python3
"""Times sized calls on a region beside libatomic's own functions: sized.py [NAME ..]

Run it at the top of the repository after `rt run` has built crates/sized_times/out/sized_times. The sixteen operations in
sizes 1, 8 and 16, or those named, as __atomic_fetch_add_8, are made on one thread (Debian's gcc has libatomic; what the
machine's library hasn't is passed over). The name `open` stands for a region of 65,536 cells that is opened once. It prints
the medians and their ratios, checks that both leave the same value, and adds rows to bench/results.csv.
"""
import subprocess
import sys
import tempfile
from pathlib import Path

import measure

PROGRAM = measure.TOP / "crates/sized_times/out/sized_times"
FETCHED = ("add", "sub", "and", "or", "xor", "nand")
OPERATIONS = (
    ["load", "store", "exchange", "compare_exchange"]
    + [f"fetch_{word}" for word in FETCHED]
    + [f"{word}_fetch" for word in FETCHED]
)
NAMES = ["open"] + [f"__atomic_{operation}_{size}" for size in (1, 8, 16) for operation in OPERATIONS]
TIMES = 5_000_000
CELLS = 65_536
# the peer's status where the library hasn't the function
WANTING = 3


def build_peer(folder: Path) -> Path:
    peer = folder / "peer"
    subprocess.run(["gcc", "-O2", "-o", peer, measure.TOP / "bench/sized_peer.c", "-ldl"], check=True)
    return peer


def main() -> None:
    measure.need(PROGRAM, "cd crates/sized_times && rt run")
    with tempfile.TemporaryDirectory() as folder:
        launcher = measure.build_launcher(Path(folder))
        peer = build_peer(Path(folder))
        for name in sys.argv[1:] or NAMES:
            if measure.run(launcher, [peer, name, "1"], Path("/dev/null")).status == WANTING:
                print(f"{name}: libatomic of this machine hasn't it")
                continue
            words = [name, str(CELLS if name == "open" else TIMES)]
            ours, theirs, checksum = measure.in_turns(launcher, [PROGRAM, *words], [peer, *words], name)
            short = "open_cells" if name == "open" else name.removeprefix("__atomic_")
            measure.keep("results.csv", measure.COLUMNS, measure.compared(short, 0, checksum, ours, theirs))


main()
