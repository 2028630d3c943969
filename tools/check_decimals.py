#!/usr/bin/env python3
"""Compares hl_num with Python's decimal and integers over many random numbers.

Makes a scratch repository of hl_base, hl_num and a small program that answers a line of words with a line, builds
and runs it with `rt try`, and compares each line. Usage: tools/check_decimals.py [COUNT] [SEED]
"""

import os
import random
import shutil
import subprocess
import sys
import tempfile
from decimal import ROUND_HALF_EVEN, Decimal, localcontext

TOP = 2**127

PROGRAM = r"""//! Answers each line of words with a line, for a comparison with another implementation.
#![tactic(auto)]

use hl_num::{Dec, Shape, div_round, print_number, read_number};
use std::cmp::Ordering;
use std::io;

fn whole(word: Option<&str>) -> i128 {
    match word {
        Some(word) => word.parse::<i128>().unwrap_or(0),
        None => 0,
    }
}

fn small(word: Option<&str>) -> u8 {
    match word {
        Some(word) => word.parse::<u8>().unwrap_or(0),
        None => 0,
    }
}

fn mark(word: Option<&str>) -> Option<u8> {
    match small(word) {
        0 => None,
        mark => Some(mark),
    }
}

fn code(mark: Option<u8>) -> u8 {
    mark.unwrap_or(0)
}

fn main(rt: HostRuntime) -> io::Result<()> {
    for line in rt.lines(rt.alloc()) {
        let line = line?;
        let mut words = line.as_str().split(' ');
        let name = words.next().unwrap_or("");
        if name == "read" {
            let text = words.next().unwrap_or("");
            match read_number(text.as_bytes(), mark(words.next())) {
                Ok(n) => println!(rt; "{} {} {} {} {} {}", n.value.mantissa, n.value.places, code(n.mark), code(n.group), n.first, n.rest)?,
                Err(bad) => println!(rt; "bad {}", bad.at)?,
            }
            continue;
        }
        let number = whole(words.next());
        if name == "div" {
            let den = whole(words.next());
            match div_round(number, den, small(words.next())) {
                Ok(d) => println!(rt; "{} {}", d.mantissa, d.places)?,
                Err(_) => println!(rt; "range")?,
            }
            continue;
        }
        let Some(a) = Dec::new(number, small(words.next())) else {
            println!(rt; "none")?;
            continue;
        };
        if name == "round" {
            let d = a.round_half_even(small(words.next()));
            println!(rt; "{} {}", d.mantissa, d.places)?;
            continue;
        }
        if name == "print" {
            let places = small(words.next());
            let point = small(words.next());
            let group = mark(words.next());
            let first = small(words.next());
            let shape = Shape { mark: point, group, first, rest: small(words.next()) };
            match print_number(rt.alloc(), a, places, &shape) {
                Ok(text) => println!(rt; "{}", text.as_str())?,
                Err(_) => println!(rt; "memory")?,
            }
            continue;
        }
        let other = whole(words.next());
        let Some(b) = Dec::new(other, small(words.next())) else {
            println!(rt; "none")?;
            continue;
        };
        if name == "compare" {
            match a.compare(b) {
                Ordering::Less => println!(rt; "-1")?,
                Ordering::Equal => println!(rt; "0")?,
                Ordering::Greater => println!(rt; "1")?,
            }
            continue;
        }
        let answer = if name == "add" { a.add(b) } else { a.mul(b) };
        match answer {
            Ok(d) => println!(rt; "{} {}", d.mantissa, d.places)?,
            Err(_) => println!(rt; "range")?,
        }
    }
    Ok(())
}
"""


def half_even(number, divisor):
    """number / divisor, rounded half to even, by Python's decimal."""
    with localcontext() as context:
        context.prec = 400
        return int((Decimal(number) / Decimal(divisor)).quantize(Decimal(1), rounding=ROUND_HALF_EVEN))


def add(a, p, b, q):
    places = max(p, q)
    x, y = a * 10 ** (places - p), b * 10 ** (places - q)
    if max(abs(x), abs(y), abs(x + y)) >= TOP:
        return "range"
    return f"{x + y} {places}"


def mul(a, p, b, q):
    product, places = a * b, p + q
    if abs(product) >= TOP or places > 36:
        return "range"
    while places > 0 and product % 10 == 0:
        product //= 10
        places -= 1
    return f"{product} {places}"


def compare(a, p, b, q):
    x, y = a * 10 ** (36 - p), b * 10 ** (36 - q)
    return str((x > y) - (x < y))


def rounded(a, p, q):
    return f"{a} {p}" if p <= q else f"{half_even(a, 10 ** (p - q))} {q}"


def divided(num, den, places):
    scaled = num * 10**places
    return "range" if abs(scaled) >= TOP else f"{half_even(scaled, den)} {places}"


def printed(a, p, places, mark, group, first, rest):
    value = half_even(a * 10**places, 10**p)
    digits = str(abs(value)).rjust(places + 1, "0")
    whole, decimals = (digits[:-places], digits[-places:]) if places else (digits, "")
    if group:
        groups = [whole[-first:]]
        whole = whole[:-first]
        while whole:
            groups.insert(0, whole[-rest:])
            whole = whole[:-rest]
        whole = chr(group).join(groups)
    return ("-" if value < 0 else "") + whole + (chr(mark) + decimals if places else "")


def read(text, decided):
    end = next((i for i, c in enumerate(text) if c not in "0123456789.,"), len(text))
    bad = f"bad {end}"
    marks = [c for c in text if c in ".,"]
    if end < len(text) or len(marks) == len(text):
        return bad
    if decided:
        point = chr(decided) if chr(decided) in marks else ""
    elif len(marks) == 1 or len(set(marks)) == 2:
        point = marks[-1]
    else:
        point = ""
    if point and marks.count(point) > 1:
        return bad
    whole, _, decimals = text.partition(point) if point else (text, "", "")
    if not decimals.isdigit() and decimals or len(decimals) > 18:
        return bad
    others = [c for c in whole if c in ".,"]
    if len(set(others)) > 1:
        return bad
    group = others[0] if others else ""
    sizes = [len(part) for part in whole.split(group)] if group else []
    if 0 in sizes:
        return bad
    mantissa = int("".join(c for c in text if c.isdigit()))
    if mantissa >= TOP:
        return bad
    first = min(sizes[-1], 255) if group else 3
    rest = min(sizes[-2], 255) if len(sizes) > 2 else first
    return f"{mantissa} {len(decimals)} {ord(point) if point else 0} {ord(group) if group else 0} {first} {rest}"


def some_mantissa(rng):
    size = rng.choice([1, 2, 4, 8, 16, 24, 32, 38, 39])
    value = rng.randrange(10**size) if rng.random() < 0.8 else TOP - 1 - rng.randrange(100)
    if rng.random() < 0.3:
        value = value // 10 ** rng.randrange(6) * 10 ** rng.randrange(6)
    if rng.random() < 0.2:
        value = value // 10 * 10 + 5
    return rng.choice([-1, 1]) * min(value, TOP - 1)


def some_row(rng):
    name = rng.choice(["add", "mul", "compare", "round", "div", "print", "read", "read"])
    a, p, b, q = some_mantissa(rng), rng.randrange(37), some_mantissa(rng), rng.randrange(37)
    if rng.random() < 0.3:
        b = a + rng.randrange(-2, 3) if abs(a) < TOP - 2 else a
    if name == "add":
        return f"add {a} {p} {b} {q}", add(a, p, b, q)
    if name == "mul":
        return f"mul {a} {p} {b} {q}", mul(a, p, b, q)
    if name == "compare":
        return f"compare {a} {p} {b} {q}", compare(a, p, b, q)
    if name == "round":
        return f"round {a} {p} {q}", rounded(a, p, q)
    if name == "div":
        den, places = abs(b) + 1 if abs(b) < TOP - 1 else 7, rng.randrange(19)
        return f"div {a} {den} {places}", divided(a, den, places)
    if name == "print":
        mark, group = rng.choice([(46, 44), (44, 46), (46, 0)])
        first, rest = rng.randrange(1, 6), rng.randrange(1, 6)
        return f"print {a} {p} {q} {mark} {group} {first} {rest}", printed(a, p, q, mark, group, first, rest)
    length = rng.choice([1, 3, 6, 12, 30, 45])
    weights = [rng.choice([0, 1, 3]), rng.choice([0, 1, 3]), rng.choice([0, 0, 0, 1])]
    text = "".join(rng.choice("0123456789" * 3 + "." * weights[0] + "," * weights[1] + "x" * weights[2]) for _ in range(length))
    decided = rng.choice([0, 0, 46, 44])
    return f"read {text} {decided}", read(text, decided)


def main():
    count = int(sys.argv[1]) if len(sys.argv) > 1 else 20000
    rng = random.Random(int(sys.argv[2]) if len(sys.argv) > 2 else 1)
    top = os.path.dirname(os.path.dirname(os.path.abspath(__file__)))
    rows = [some_row(rng) for _ in range(count)]
    with tempfile.TemporaryDirectory() as scratch:
        for name in ["hl_base", "hl_num"]:
            shutil.copytree(f"{top}/crates/{name}", f"{scratch}/crates/{name}", ignore=shutil.ignore_patterns("out"))
        os.makedirs(f"{scratch}/crates/decimals/src")
        with open(f"{scratch}/crates.txt", "w") as out:
            out.write("hl_base:\nhl_num: hl_base\ndecimals: hl_num hl_base\n")
        with open(f"{scratch}/crates/decimals/src/main.rt", "w") as out:
            out.write(PROGRAM)
        lines = "".join(line + "\n" for line, _ in rows)
        done = subprocess.run(["rt", "try"], cwd=f"{scratch}/crates/decimals", input=lines, capture_output=True, text=True)
    answers = done.stdout.splitlines()
    wrong = 0
    for (line, want), got in zip(rows, answers):
        if got != want:
            wrong += 1
            if wrong <= 20:
                print(f"{line}\n  want {want}\n  got  {got}")
    print(f"{len(rows)} rows, {len(answers)} answers, {wrong} differ")
    if len(answers) < len(rows):
        print(done.stderr[-2000:])
    return 0 if wrong == 0 and len(answers) >= len(rows) else 1


if __name__ == "__main__":
    sys.exit(main())
