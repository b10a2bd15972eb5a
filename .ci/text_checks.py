#!/usr/bin/env python3
"""What no clause can say of the sources, checked as text.

A step on a table of words is recorded, and clauses speak of what is recorded. A look that leaves no record (`peek`), or a
step by a seat that is made for it, could stand beside a recorded one, and a step of one kind could be made by a machine
operation of another that does as much (a load by an `or` of 0). So each operation on a table is named here with the
function that makes it and the step that it is recorded as; any other is refused. Then `docs/places.py` compares the table
"To change something" with the sources.

Status 0 where all is as named, else 1.
"""
import re
import subprocess
import sys
from pathlib import Path

TOP = Path(__file__).resolve().parent.parent

# Of each crate that has a table: file, function, machine operation, step.
STEPS = {
    "seat_views": """
        arena.rt   laid         of_words          -
        lanes.rt   op_as        load              Op<J>
        lanes.rt   op_as        store             Op<J>
        lanes.rt   op_as        swap              Op<J>
        lanes.rt   op_as        compare_exchange  Op<J>
        lanes.rt   op_as        fetch_add         Op<J>
        lanes.rt   op_as        fetch_sub         Op<J>
        lanes.rt   op_as        fetch_and         Op<J>
        lanes.rt   op_as        fetch_or          Op<J>
        lanes.rt   op_as        fetch_xor         Op<J>
        lanes.rt   op_as        fetch_max         Op<J>
        lanes.rt   op_as        fetch_min         Op<J>
        lanes.rt   look_as      load              Look<J>
        lanes.rt   try_as       compare_exchange  Try<J>
        locks.rt   take_as      swap              Take<J>
        locks.rt   held_as      load              Held<J>
        locks.rt   put_as       store             Put<J>
        locks.rt   release_as   store             Release<J>
        locks.rt   stamp_as     load              Stamp<J>
        locks.rt   part_as      load              Part<J>
        locks.rt   match_as     load              Match<J>
        pass.rt    give         split_seat        rule::Gives
        pass.rt    take_back    join_seat         rule::Joins
        pass.rt    take_back    load              rule::Learns
        pass.rt    note         split_seat        rule::Notes
        pass.rt    meet         join_seat         rule::Meets
        pass.rt    meet         load              rule::Hears
        pass.rt    drop_glance  load              rule::Drops
    """,
    "any_size": """
        blocks.rt  of           of_words          -
        pass.rt    give         split_seat        rule::Gives
        pass.rt    take_back    join_seat         rule::Joins
        pass.rt    take_back    load              rule::Learns
        steps.rt   take_as      swap              Take<J>
        steps.rt   held         load              Held
        steps.rt   put          store             Put
        steps.rt   release_as   store             Release<J>
    """,
}
# Operations of a table, of its seats and of what else can be made of them, whether a step is recorded or not.
OPERATIONS = (
    "peek|load|store|swap|compare_exchange|compare_exchange_with|exchange|fetch_add|fetch_sub|fetch_and|fetch_or|fetch_xor"
    "|fetch_max|fetch_min|load_new_seat|swap_new_seat|split_seat|join_seat|of_words|vacant|slot_mut|close|close_with"
    "|into_badge|into_seat|park|park_timeout|wake_one|wake_all|turn"
)
CALL = re.compile(rf"(?:\.|::)\s*({OPERATIONS})\s*(?:::\s*<\s*((?:\w|::)+(?:\s*<\s*\w+\s*>)?)\s*>)?\s*\(")
NAMED = re.compile(r"\bfn\s+(\w+)")
# A note hands its seat to `meet`, which joins it.
OWN = {("seat_views", "note.rt"), ("seat_views", "pass.rt")}


def code_of(text: str) -> str:
    """The text without comments, and with strings emptied."""
    text = re.sub(r'"(?:[^"\\]|\\.)*"', '""', text)
    return re.sub(r"//[^\n]*", "", text)


def sources(crate: Path):
    """The crate's sources that are no tests."""
    for file in sorted((crate / "src").rglob("*.rt")):
        name = file.relative_to(crate / "src").as_posix()
        if "test" not in name and "trial" not in name:
            yield name, code_of(file.read_text())


def steps_of(crate: Path):
    """Each operation on a table: file, function, operation, step."""
    found = []
    for name, text in sources(crate):
        starts = [(m.start(), m.group(1)) for m in NAMED.finditer(text)]
        for call in CALL.finditer(text):
            within = [function for at, function in starts if at < call.start()]
            step = re.sub(r"\s", "", call.group(2) or "-")
            before = text[: call.start()].rstrip()
            on_table = before.endswith(("shared", "Table")) or step != "-"
            if call.group(1) == "into_seat" and (crate.name, name) in OWN:
                continue
            if on_table or call.group(1) in ("peek", "load_new_seat", "swap_new_seat", "into_badge", "into_seat", "slot_mut"):
                found.append((name, within[-1] if within else "-", call.group(1), step))
    return sorted(found)


def main() -> int:
    wrong = 0
    for crate in sorted((TOP / "crates").iterdir()):
        named = sorted(tuple(line.split()) for line in STEPS.get(crate.name, "").strip().splitlines())
        uses = any(re.search(r"\batomic_table\b", text) for _, text in sources(crate))
        if not named and uses:
            print(f"{crate.name}: a table whose steps aren't named in .ci/text_checks.py")
            wrong += 1
        if not named:
            continue
        found = steps_of(crate)
        for step in found:
            if found.count(step) > named.count(step):
                print(f"{crate.name}: {' '.join(step)}: not one of the named steps")
                wrong += 1
        for step in named:
            if named.count(step) > found.count(step):
                print(f"{crate.name}: {' '.join(step)}: named, and not found")
                wrong += 1
    if subprocess.run([sys.executable, TOP / "docs/places.py"], stdout=subprocess.DEVNULL).returncode != 0:
        print("docs/places.py: the table and the sources differ")
        wrong += 1
    print(f"text checks: {wrong} wrong")
    return 1 if wrong else 0


if __name__ == "__main__":
    sys.exit(main())
