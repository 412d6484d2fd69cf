"""Holds the program to the second marker, on sheets made from a fixed seed.

    python3 compare/run.py [--share] [PROGRAM [SHEETS]]

Without PROGRAM it is built first, by `rt run`. --share takes fewer sheets, SHEETS as many as it says. Ends by 'N passed, M failed';
what never came up, of all fields with all verdicts, all refusals and all faults, counts as failed.
"""

import collections
import pathlib
import random
import subprocess
import sys
import time

import marker

ROOT = pathlib.Path(__file__).resolve().parent.parent
SEED = 1969
SHEETS, SHARE = 20000, 2000


def generated(f, rng, length, n):
    """Taps of that length, and n digits that they generate."""
    taps = [rng.randrange(f.q) for _ in range(length)]
    s = [rng.randrange(f.q) for _ in range(min(length, n))]
    while len(s) < n:
        s.append(f.neg(marker.left_at(f, taps, s + [0], len(s) + 1)))
    return taps, s


def a_task(rng):
    """A name or none, digits and a claim: that which generated them or another, longer, altered, or with no digit of the field."""
    name = rng.choice([None, *marker.FIELDS])
    f = marker.FIELDS[name or "p2"]
    n = rng.choice([0, 1, 2, 3, 4, 5, 6, 8, 12, 20, rng.randrange(40)])
    taps, digits = generated(f, rng, rng.choice([rng.randrange(n // 2 + 2), rng.randrange(n + 1)]), n)
    claim = list(taps)
    kind = rng.randrange(10)
    if kind == 0 and claim:
        claim[rng.randrange(len(claim))] = rng.randrange(f.q)
    elif kind == 1:
        claim = [rng.randrange(f.q) for _ in range(rng.randrange(n + 3))]
    elif kind == 2:
        claim = [rng.randrange(f.q) for _ in range(n + rng.randrange(3))]
    elif kind == 3 and digits:
        digits[rng.randrange(n)] = rng.randrange(f.q)
    elif kind == 4:
        claim += [0] * rng.randrange(4)
    elif kind == 5 and rng.random() < 0.5:
        (digits if digits and rng.random() < 0.5 else claim).append(f.q + rng.randrange(3))
    elif kind == 6:
        tried = [[rng.randrange(f.q) for _ in taps] for _ in range(20)]
        claim = next((t for t in tried if marker.first_break(f, t, digits) is None), claim)
    elif kind == 7:
        claim = [0] * (n + rng.randrange(3))
    return name, digits, claim


def words(keyword, numbers):
    return b" ".join([keyword] + [b"%d" % x for x in numbers]) + b"\n"


def sheet_of(tasks):
    text, places = b"", []
    for name, digits, claim in tasks:
        places.append(len(text))
        if name is not None:
            text += b"field " + name.encode() + b"\n"
        text += words(b"digits", digits) + words(b"claim", claim)
    return text + words(b"tail", places)


def a_sheet(rng):
    return sheet_of([a_task(rng) for _ in range(rng.choice([0, 1, 1, 2, 3, rng.randrange(33)]))])


PIECES = [
    b" ", b"  ", b"\n", b"0", b"9", b"00", b"65535", b"65536", b"-1", b"x", b"\0", b"\xff",
    b"field", b"digits ", b"claim", b"tail", b"p2", b" p3", b" b8",
]


def damaged(rng, text):
    """Bytes put in, left out or altered; the end cut; lines left out, doubled or exchanged; so too words."""
    for _ in range(rng.choice([1, 1, 1, 2, 3])):
        at = rng.randrange(len(text) + 1)
        lines = text.split(b"\n")
        i, j = rng.randrange(len(lines)), rng.randrange(len(lines))
        parts = lines[i].split(b" ")
        word = rng.randrange(len(parts))
        kind = rng.randrange(10)
        if kind == 0:
            text = text[:at] + rng.choice(PIECES) + text[at:]
        elif kind == 1:
            text = text[:at] + text[at + rng.choice([1, 1, 2, 5]):]
        elif kind == 2:
            text = text[:at] + bytes([rng.randrange(256)]) + text[at + 1:]
        elif kind == 3:
            text = rng.choice([text[:at], text + rng.choice(PIECES)])
        elif kind == 4:
            lines[i], lines[j] = lines[j], lines[i]
            text = b"\n".join(lines)
        elif kind == 5:
            text = b"\n".join(lines[:i] + lines[i + 1:])
        elif kind == 6:
            text = b"\n".join(lines[:i] + [lines[j]] + lines[i:])
        else:
            put = {7: [], 8: [parts[word]] * 2, 9: [rng.choice(PIECES).strip(b" \n")]}[kind]
            lines[i] = b" ".join(parts[:word] + put + parts[word + 1:])
            text = b"\n".join(lines)
    return text


def edges(rng):
    """Sheets at the limits: of names, places, tasks, bytes, numbers, digits and taps."""
    yield b""
    yield b"field\ndigits\nclaim\ntail 0\n"
    yield b"field p2 p3\ndigits\nclaim\ntail 0\n"
    for places in (b"", b" 0", b" 0 12", b" 0 13", b" 0 13 26"):
        yield b"digits\nclaim\ndigits\nclaim\ntail" + places + b"\n"
    empty = (None, [], [])
    for n in (31, 32, 33):
        yield sheet_of([empty] * n)
        yield sheet_of([empty] * (n - 1) + [("p3", [], [])])
    for n in (32767, 32768, 32769):
        body = b"digits" + b" 0" * ((n - 20) // 2)
        yield body + b"0" * (n - len(body) - 14) + b"\nclaim\ntail 0\n"
        yield body + b" " * (n - len(body) - 14) + b"\nclaim\ntail 0\n"
        yield b"x" * n
    for word in (b"0", b"00", b"9", b"65535", b"65536", b"99999", b"100000", b"-1", b"+1", b"1.", b"", b"p2"):
        yield b"digits " + word + b"\nclaim\ntail 0\n"
        yield b"digits\nclaim " + word + b"\ntail 0\n"
        yield b"digits\nclaim\ntail " + word + b"\n"
    for n in (255, 256, 257):
        bits = [rng.randrange(2) for _ in range(n)]
        yield sheet_of([(None, bits, []), (None, [], bits), (None, [0] * n, bits), (None, bits, [0] * n)])
    # the longest strings, with registers of half their length and less
    for name, length in (("p2", 128), ("p251", 20), ("t256", 40)):
        taps, digits = generated(marker.FIELDS[name], rng, length, 256)
        yield sheet_of([(name, digits, taps)])


def sheets(wanted):
    rng = random.Random(SEED)
    made = list(edges(rng))
    while len(made) < wanted:
        sheet = a_sheet(rng)
        made += [sheet, damaged(rng, sheet), damaged(rng, sheet)]
    return made


def built():
    """The program, proved and built from the files as they stand."""
    print("compare: rt run in crates/mark_sheet, which takes some minutes where nothing is built yet", file=sys.stderr)
    crate = ROOT / "crates" / "mark_sheet"
    run = subprocess.run(["rt", "run"], cwd=crate, stdin=subprocess.DEVNULL, capture_output=True, check=False)
    if run.returncode != 0:
        sys.stdout.buffer.write(run.stdout + run.stderr)
        sys.exit("the program could not be built")
    return crate / "out" / "mark_sheet"


def main(arguments):
    share = "--share" in arguments
    paths = [a for a in arguments if a != "--share"]
    if len(paths) > 2 or any(p.startswith("-") for p in paths) or not all(p.isdigit() for p in paths[1:]):
        sys.exit(__doc__)
    wanted = int(paths[1]) if len(paths) > 1 else SHARE if share else SHEETS
    program = pathlib.Path(paths[0]).resolve() if paths else built()
    began = time.monotonic()
    passed = failed = 0
    seen = collections.Counter()
    for sheet in sheets(wanted):
        expected, kinds = marker.answer(sheet)
        seen.update(kinds)
        run = subprocess.run([program], input=sheet, capture_output=True, check=False)
        if run.returncode == 0 and run.stdout == expected.encode():
            passed += 1
        else:
            failed += 1
            if failed <= 5:
                print(f"sheet {sheet[:300]!r}\n expected {expected!r}\n got {run.stdout!r}, status {run.returncode}")
    print(", ".join(f"{kind}: {seen[kind]}" for kind in marker.everything()))
    for kind in marker.everything():
        if not seen[kind]:
            failed += 1
            print(f"never came up: {kind}")
    print(f"{time.monotonic() - began:.0f} seconds")
    print(f"{passed} passed, {failed} failed")
    return 1 if failed else 0


if __name__ == "__main__":
    sys.exit(main(sys.argv[1:]))
