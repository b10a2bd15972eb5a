#!/usr/bin/env python3
"""The workloads of the bench: `make_text.py NAME` writes one to standard output.

A name gives the same bytes every time. `many` and `many_word32` have none: the programs draw their calls.
"""
import random
import sys

MOST_BYTES = 8_388_608

WIDTHS = {"i8": 8, "u8": 8, "i16": 16, "u16": 16, "i32": 32, "u32": 32, "i64": 64, "u64": 64, "i128": 128, "u128": 128,
          "bool": 1, "ptr": 64}
ALL = ["load", "store", "swap", "compare_exchange", "compare_exchange_weak", "fetch_and", "fetch_or", "fetch_xor"]
LOGIC = ["and", "fetch_nand", "or", "xor", "fetch_not", "not"]
BITS = ["bit_set", "bit_clear", "bit_toggle"]
NEW_LOGIC = ["and_fetch", "nand_fetch", "or_fetch", "xor_fetch"]
NEW_NUMBERS = ["add_fetch", "sub_fetch"]
NUMBERS = ["fetch_add", "add", "fetch_sub", "sub", "fetch_max", "fetch_min", "fetch_neg", "neg"]
WORDS = {
    "int": ALL + LOGIC + NUMBERS + BITS,
    "bool": ALL + LOGIC,
    "ptr": ALL + ["fetch_byte_add", "fetch_byte_sub"] + BITS,
}
ORDERS = ["relaxed", "acquire", "release", "acq_rel", "seq_cst"]
LOOKS = ["relaxed", "acquire", "seq_cst"]


def value(source: random.Random, kind: str) -> str:
    bits = source.getrandbits(WIDTHS[kind])
    if kind == "bool":
        return "true" if bits else "false"
    if kind == "ptr":
        return hex(bits)
    if kind[0] == "i" and bits >> (WIDTHS[kind] - 1):
        bits -= 1 << WIDTHS[kind]
    return str(bits)


def orders(source: random.Random, word: str) -> list:
    if source.random() < 0.5:
        return []
    if word == "load":
        return [source.choice(LOOKS)]
    if word == "store":
        return [source.choice(["relaxed", "release", "seq_cst"])]
    if word.startswith("compare"):
        return [source.choice(ORDERS), source.choice(LOOKS)]
    return [source.choice(ORDERS)]


def mixed_call(source: random.Random, name: str, kind: str) -> str:
    word = source.choice(WORDS[kind if kind in WORDS else "int"])
    if word == "load" or word.endswith(("not", "neg")):
        operands = []
    elif word in BITS:
        operands = [str(source.randrange(256))]
    else:
        operands = [value(source, kind) for _ in range(2 if word.startswith("compare") else 1)]
    return " ".join([name, word] + operands + orders(source, word))


def plain_call(source: random.Random, name: str) -> str:
    return f"{name} fetch_add {source.getrandbits(64)}" if source.random() < 0.5 else f"{name} load"


def text_of(target: str, objects: list, threads: list, version: int = 1) -> str:
    lines = [f"work {version}", f"target {target}"] + objects
    for calls in threads:
        lines += ["thread", *calls, "end"]
    return "\n".join(lines) + "\n"


def one_thread(calls: int, objects: int, seed: int, mixed: bool) -> str:
    """Loads and additions on u64 objects; or, mixed, all calls on all kinds, with orders on a half of them."""
    source = random.Random(seed)
    names = [f"object_{number:04d}_{source.randrange(10_000):04d}" for number in range(objects)]
    kinds = {name: list(WIDTHS)[number % 12] if mixed else "u64" for number, name in enumerate(names)}
    declared = [f"object {name} {kinds[name]} {value(source, kinds[name])}" for name in names]
    lines = []
    for _ in range(calls):
        name = source.choice(names)
        lines.append(mixed_call(source, name, kinds[name]) if mixed else plain_call(source, name))
    return text_of("full64", declared, [lines])


def comments() -> str:
    """As many comments as there is room for, before a workload of one call."""
    work = text_of("full64", ["object n u64 0"], [["n fetch_add 5"]])
    line = "# " + "a comment of some words, passed over" * 2 + "\n"
    return line * ((MOST_BYTES - len(work)) // len(line)) + work


def wide_exchanges(calls: int, objects: int, seed: int) -> str:
    """Exchanges on u128 objects with operands of 39 digits. About a half of them find what they expect."""
    source = random.Random(seed)
    number = lambda: source.randrange(10**38, 2**128)
    names = [f"object_{number:04d}_{source.randrange(10_000):04d}" for number in range(objects)]
    values = {name: number() for name in names}
    declared = [f"object {name} u128 {values[name]}" for name in names]
    lines = []
    for _ in range(calls):
        name = source.choice(names)
        found, new = source.random() < 0.5, number()
        lines.append(f"{name} compare_exchange {values[name] if found else number()} {new}")
        if found:
            values[name] = new
    return text_of("full64", declared, [lines])


# how often a word is called, of integers, of bools and of pointers; short ones, since a text has 8 bytes a call
OFTEN = {
    "int": {"load": 36, "not": 14, "neg": 9, "or": 9, "add": 10, "sub": 6, "xor": 5, "and": 3, "swap": 2, "store": 2,
            "fetch_add": 3, "bit_set": 1},
    "bool": {"load": 60, "not": 39, "swap": 1},
    "ptr": {"load": 97, "swap": 1, "store": 1, "bit_set": 1},
}


def short_names(count: int) -> list:
    """Names of one letter, then of two bytes, then of three."""
    letters = "abcdefghijklmnopqrstuvwxyz"
    rest = letters + "0123456789_"
    names = list(letters) + [a + b for a in letters for b in rest] + [a + b + "_" for a in letters for b in "xyz"]
    return names[:count]


def small_call(source: random.Random, name: str, kind: str, word: str) -> str:
    if word in ("load", "not", "neg"):
        return f"{name} {word}"
    if kind == "bool":
        return f"{name} {word} {value(source, kind)}"
    before = "0x" if kind == "ptr" and word != "bit_set" else ""
    return f"{name} {word} {before}{source.randrange(10)}"


def full(threads: int, calls: int, objects: int, seed: int) -> str:
    """As many threads of short calls, on objects of all kinds up to 64 bits and, one in sixteen, of 128."""
    source = random.Random(seed)
    narrow = [kind for kind in WIDTHS if WIDTHS[kind] <= 64]
    kinds = {}
    for number, name in enumerate(short_names(objects)):
        kinds[name] = ("u128", "i128")[number // 16 % 2] if number % 16 == 0 else narrow[number % len(narrow)]
    declared = [f"object {name} {kind} {value(source, kind)}" for name, kind in kinds.items()]
    names = list(kinds)
    words = {group: (list(often), list(often.values())) for group, often in OFTEN.items()}
    scripts = []
    for _ in range(threads):
        script = []
        for name in source.choices(names, k=calls):
            kind = kinds[name]
            group, weights = words[kind if kind in words else "int"]
            script.append(small_call(source, name, kind, source.choices(group, weights)[0]))
        scripts.append(script)
    return text_of("full64", declared, scripts)


def additions(target: str, declared: str, bits: int, seed: int) -> str:
    """Four threads of 65,536 additions to one object, with operands of so many bits."""
    source = random.Random(seed)
    name = declared.split()[1]
    threads = [[f"{name} fetch_add {source.getrandbits(bits)}" for _ in range(65_536)] for _ in range(4)]
    return text_of(target, [declared], threads)


# words of the second version that write, one for each object of `full_blocks`
BLOCK_WORDS = {
    "int": NEW_NUMBERS + NEW_LOGIC + ["fetch_add", "fetch_xor", "swap", "fetch_neg"],
    "bool": NEW_LOGIC + ["fetch_not"],
    "ptr": ["fetch_byte_add", "fetch_xor", "swap", "bit_toggle"],
}


def full_blocks(threads: int, calls: int, seed: int) -> str:
    """As many threads as a workload may have, each with one block of one line, on an object of its own; the objects are
    of all kinds."""
    source = random.Random(seed)
    kinds = list(WIDTHS)
    objects, scripts = [], []
    for number in range(threads):
        name, kind = f"o{number:02d}", kinds[number % len(kinds)]
        objects.append(f"object {name} {kind} {value(source, kind)}")
        words = BLOCK_WORDS[kind if kind in BLOCK_WORDS else "int"]
        word = words[number // len(kinds) % len(words)]
        if word in BITS:
            operands = [str(source.randrange(256))]
        else:
            operands = [] if word in ("fetch_not", "fetch_neg") else [value(source, kind)]
        scripts.append([f"repeat: {calls}", " ".join([name, word, *operands]), "end"])
    return text_of("full64", objects, scripts, version=2)


WORKLOADS = {
    "one_thread": lambda: one_thread(65_536, 1_024, 1, False),
    "mixed_calls": lambda: one_thread(65_536, 1_024, 2, True),
    "comments": comments,
    "wide_exchanges": lambda: wide_exchanges(60_000, 1_024, 3),
    "full": lambda: full(16, 62_500, 1_024, 4),
    "full_blocks": lambda: full_blocks(64, 62_500, 7),
    "many": lambda: "",
    "many_word32": lambda: "",
    "u128_additions": lambda: additions("full64", "object w u128 18446744073709551615", 48, 5),
    "u8_additions": lambda: additions("word64", "object c u8 250", 8, 6),
}


def text(name: str) -> bytes:
    made = WORKLOADS[name]().encode()
    assert len(made) <= MOST_BYTES, f"{name}: {len(made)} bytes"
    return made


if __name__ == "__main__":
    sys.stdout.buffer.write(text(sys.argv[1]))
