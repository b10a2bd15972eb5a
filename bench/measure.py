"""What the scripts of the bench share: building, one run of a program, and rows."""
import csv
import datetime
import hashlib
import os
import statistics
import subprocess
import sys
from pathlib import Path
from typing import NamedTuple

TOP = Path(__file__).resolve().parent.parent
RUNS = 15
COLUMNS = (
    "date,commit,processor,workload,bytes,sha256,ms,cpu_ms,peer_ms,peer_cpu_ms,ratio,cpu_ratio,peak_mb,peer_peak_mb"
)


class Run(NamedTuple):
    """Milliseconds by the clock and of processor, peak memory in MB, the status, and the bytes written."""

    wall: float
    cpu: float
    peak: float
    status: int
    written: bytes


def need(program: Path, command: str) -> None:
    if not program.exists():
        sys.exit(f"build the program first: {command}")


def build_launcher(folder: Path) -> Path:
    launcher = folder / "launch"
    subprocess.run(["gcc", "-O2", "-static", "-o", launcher, TOP / "bench/launch.c"], check=True)
    return launcher


def build_peer(folder: Path, source: str) -> Path:
    peer = folder / "peer"
    subprocess.run(["rustc", "--edition", "2021", "-O", "-o", peer, TOP / "bench" / source], check=True)
    return peer


def run(launcher: Path, command: list, given: Path) -> Run:
    """One run of a program on a file. It writes to memory, so that nothing else takes part."""
    told, tell = os.pipe()
    output = os.memfd_create("output")
    try:
        with given.open("rb") as text:
            command = [launcher, str(tell), *command]
            subprocess.run(command, stdin=text, stdout=output, pass_fds=[tell], check=True)
        os.close(tell)
        wall, cpu, peak, status = (int(word) for word in os.read(told, 100).split())
        os.lseek(output, 0, os.SEEK_SET)
        with open(output, "rb", closefd=False) as file:
            written = file.read()
    finally:
        os.close(told)
        os.close(output)
    return Run(wall / 1000, cpu / 1000, peak / 1024, os.waitstatus_to_exitcode(status), written)


def done(launcher: Path, command: list, given: Path) -> Run:
    """One run that must end with status 0."""
    one = run(launcher, command, given)
    if one.status != 0:
        sys.exit(f"{command} on {given.name} ended with status {one.status}: {one.written[:80]}")
    return one


def in_turns(launcher: Path, own: list, other: list, what: str) -> tuple:
    """The runs of two programs that read nothing, in turns, and the head of the SHA-256 of what each of them must write."""
    nothing = Path("/dev/null")
    ours, theirs = [], []
    for _ in range(RUNS):
        ours.append(done(launcher, own, nothing))
        theirs.append(done(launcher, other, nothing))
    if len({one.written for one in ours + theirs}) != 1:
        sys.exit(f"{what}: the values differ")
    return ours, theirs, hashlib.sha256(ours[0].written).hexdigest()[:16]


def median(runs: list, column: str) -> float:
    return statistics.median(getattr(one, column) for one in runs)


def processor() -> str:
    for line in Path("/proc/cpuinfo").read_text().splitlines():
        if line.startswith("model name"):
            return line.split(":", 1)[1].strip()
    return os.uname().machine


def commit() -> str:
    """The commit's short name, with a + where a file that it has was changed; the results don't count."""
    git = ["git", "-C", TOP]
    name = subprocess.run([*git, "rev-parse", "--short", "HEAD"], check=True, capture_output=True, text=True).stdout
    changed = subprocess.run([*git, "diff", "--quiet", "HEAD", "--", ".", ":!bench/*.csv"]).returncode
    return name.strip() + "+" * changed


def keep(file: str, columns: str, row: list) -> None:
    """Adds a row to a table of results."""
    path = TOP / "bench" / file
    fresh = not path.exists()
    with path.open("a", newline="") as table:
        writer = csv.writer(table, lineterminator="\n")
        if fresh:
            writer.writerow(columns.split(","))
        writer.writerow(row)


def compared(workload: str, size: int, checksum: str, ours: list, peers: list) -> list:
    """Prints the medians of both programs, and gives their row of results.csv."""
    wall, peer_wall = median(ours, "wall"), median(peers, "wall")
    cpu, peer_cpu = median(ours, "cpu"), median(peers, "cpu")
    peak, peer_peak = (max(one.peak for one in runs) for runs in (ours, peers))
    print(
        f"{workload:16} {wall:8.1f} ms, peer {peer_wall:8.1f}, ratio {wall / peer_wall:5.2f} |"
        f" processor {cpu:8.1f} ms, peer {peer_cpu:8.1f}, ratio {cpu / peer_cpu:5.2f} |"
        f" {peak:6.1f} MB, peer {peer_peak:6.1f}",
        flush=True,
    )
    numbers = [f"{number:.1f}" for number in (wall, cpu, peer_wall, peer_cpu)]
    ratios = [f"{wall / peer_wall:.2f}", f"{cpu / peer_cpu:.2f}"]
    head = [datetime.date.today().isoformat(), commit(), processor(), workload, size, checksum]
    return head + numbers + ratios + [f"{peak:.1f}", f"{peer_peak:.1f}"]
