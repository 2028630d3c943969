#!/usr/bin/env python3
"""An independent reckoning of the report commands, straight from the rules: filters and sums over whole lists, exact numbers.

    reckon.py [--today=Y-M-D] JOURNAL COMMAND WORDS..

Writes the output, the error line to the error output, and ends with the status. It reads a subset of journals: entries with
amounts, costs, missing amounts, assertions and assignments, tags, marks, codes, comments and posting dates; `account`,
`commodity`, `D`, `P`, `payee` and `tag` directives, and rules of `=` and `~` (rules.py, with --auto, --forecast and --budget).
It doesn't read (and says so with status 99): costs behind assertions, aliases, `apply account`, `Y`, `decimal-mark`; and it
knows no Range."""
import re, sys, unicodedata
from datetime import date
from fractions import Fraction

# ---------------------------------------------------------------- readings that are taken (docs/DECISIONS.md), and their other sides

TAKEN = {
    "empty": "earlier",        # accounts that -E adds: those with postings before the span too; else "inside"
    "dates": "all",            # -H beside date: terms counts "all" undated; else what is before the first of the "columns", or before the "span"
    "wide": "whole",           # a register amount wider than its field stands whole; else "cut"
    "no days": "before",       # ending balances of an empty span count what is before its end; else "nothing"
    "width": "shown",          # the total that -N leaves out doesn't widen the list; else "total"
    "section": "cut",          # a cut row stands in the section of its cut name; else each posting in that of its "own" account
    "print": "given",          # a missing bound of print narrows nothing; else "letter"
}

# ---------------------------------------------------------------- refusals

class Refused(Exception):
    def __init__(self, line, status):
        self.line, self.status = line, status

class NotRead(Exception):
    pass

# ---------------------------------------------------------------- texts

def width(text):
    n = 0
    for c in text:
        if unicodedata.combining(c) or unicodedata.category(c) in ("Mn", "Me", "Cf"):
            continue
        n += 2 if unicodedata.east_asian_width(c) in "WF" else 1
    return n

def left(text, n):
    return text + " " * max(0, n - width(text))

def right(text, n):
    return " " * max(0, n - width(text)) + text

def cut_to(text, n):
    if width(text) <= n:
        return text
    keep = text
    while width(keep) > n - 2:
        keep = keep[:-1]
    return keep + ".."

def parts(account):
    return [p.encode() for p in account.split(":")]

def in_order(accounts):
    return sorted(set(accounts), key=parts)

def shown_day(n):
    return date.fromordinal(n).isoformat()

# ---------------------------------------------------------------- numbers

def half_even(x, places):
    return Fraction(round(x * 10 ** places), 10 ** places)

def needed_places(x):
    n = 0
    while (x * 10 ** n).denominator != 1:
        n += 1
    return n

class Number:
    def __init__(self, value, places, mark, group, first, rest):
        self.value, self.places, self.mark, self.group, self.first, self.rest = value, places, mark, group, first, rest

def read_number(text, decided=None):
    """A number with its decimal and group marks; None where the text is none."""
    if not re.fullmatch(r"[0-9.,]+", text) or not re.search(r"[0-9]", text):
        return None
    marks = [c for c in text if c in ".,"]
    if decided:
        mark = decided
    elif not marks:
        mark = None
    elif len(set(marks)) == 2:
        mark = marks[-1]
    else:
        mark = marks[0] if len(marks) == 1 else None
    if mark and text.count(mark) > 1:
        return None
    whole, _, decimals = text.partition(mark) if mark else (text, "", "")
    if re.search(r"[.,]", decimals):
        return None
    has_mark = mark is not None and mark in text
    groups = re.split(r"[.,]", whole)
    group = None
    if len(groups) > 1:
        if "" in groups or len(set(re.findall(r"[.,]", whole))) > 1:
            return None
        group = re.search(r"[.,]", whole).group()
        if group == mark:
            return None
    first = min(255, len(groups[-1])) if group else 3
    rest = min(255, len(groups[-2])) if len(groups) > 2 else first
    if len(decimals) > 18:
        return None
    digits = whole.replace(".", "").replace(",", "") + decimals
    return Number(Fraction(int(digits or "0"), 10 ** len(decimals)), len(decimals), mark if has_mark else None, group, first, rest)

def print_number(value, places, mark, group, first, rest, ends_with_mark=False):
    value = half_even(value, places)
    units = abs(value) * 10 ** places
    digits = str(int(units)).rjust(places + 1, "0")
    whole, decimals = (digits[:-places], digits[-places:]) if places else (digits, "")
    if mark is None:
        mark = "," if group == "." else "."
    grouped = False
    if group:
        pieces, size = [], first
        while len(whole) > size:
            pieces.insert(0, whole[-size:])
            whole, size = whole[:-size], rest
            grouped = True
        whole = group.join([whole] + pieces)
    text = whole + (mark + decimals if places else (mark if ends_with_mark and grouped else ""))
    return ("-" if value < 0 else "") + text

# ---------------------------------------------------------------- the journal

class Shape:
    def __init__(self, is_left, spaced, number):
        self.left, self.spaced, self.mark = is_left, spaced, number.mark if number else None
        self.group, self.first, self.rest = (number.group, number.first, number.rest) if number else (None, 3, 3)

class Amount:
    def __init__(self, symbol, value, places, shape):
        self.symbol, self.value, self.places, self.shape = symbol, value, places, shape

class Posting:
    def __init__(self):
        self.mark, self.side, self.account, self.amount, self.cost = "", "real", "", None, None
        self.factor = None          # of a rule: how many times the matched amount, and the symbol in place of its own
        self.want = None            # of an assertion: the amount, whether no other symbol may be left, whether subaccounts count
        self.filled = self.costed = False
        self.comment, self.tags, self.own_day, self.line, self.txn = "", [], None, 0, None
    @property
    def day(self):
        return self.own_day if self.own_day is not None else self.txn.day

class Txn:
    def __init__(self):
        self.day, self.mark, self.code, self.description, self.comment = 0, "", "", "", ""
        self.tags, self.postings, self.line, self.number = [], [], 0, 0

class Journal:
    def __init__(self):
        self.txns, self.prices, self.types = [], [], {}
        self.commodities, self.defaults = {}, {}
        self.written, self.others = {}, {}     # amounts of postings; of costs, assertions, prices and rules
        self.default = None
        self.autos, self.periodics = [], []

SYMBOL = r"[^\s0-9!\"#&'()*+,\-./:;<=>?@\[\\\]^`{|}~]+"

def read_amount(text, journal, line):
    """One amount, or None."""
    m = re.fullmatch(r'\s*([+-]?)\s*(?:("[^"]*"|%s)\s*)?([+-]?)\s*([0-9.,]+)\s*("[^"]*"|%s)?\s*' % (SYMBOL, SYMBOL), text)
    if not m or (m[1] and m[3]) or (m[2] and m[5]):
        return None
    symbol = m[2] or m[5] or ""
    at_left = m[2] is not None
    # a space between symbol and number
    if at_left:
        spaced = bool(re.search(re.escape(m[2]) + r"\s", text)) or bool(re.search(re.escape(m[2]) + r"[+-]\s", text))
    else:
        spaced = m[5] is not None and bool(re.search(r"\s" + re.escape(m[5]), text))
    symbol = symbol[1:-1] if symbol.startswith('"') else symbol
    decided = None
    if symbol in journal.commodities:
        decided = journal.commodities[symbol].shape.mark
    takes_default = m[2] is None and m[5] is None and journal.default is not None
    if takes_default:
        symbol = journal.default.symbol
        decided = journal.commodities[symbol].shape.mark if symbol in journal.commodities else None
        decided = decided or journal.default.shape.mark
    n = read_number(m[4], decided)
    if n is None:
        return None
    value = -n.value if "-" in (m[1], m[3]) else n.value
    shape = Shape(at_left, spaced, n)
    return Amount(symbol, value, n.places, shape)

def read_date(text, year=None):
    m = re.fullmatch(r"(?:(\d{4})([-/.]))?(\d{1,2})([-/.])(\d{1,2})", text)
    if not m or (m[1] and m[2] != m[4]) or (not m[1] and year is None):
        return None
    try:
        return date(int(m[1]) if m[1] else year, int(m[3]), int(m[5])).toordinal()
    except ValueError:
        return None

def read_tags(comment):
    tags = []
    for line in comment.split("\n"):
        rest = line
        while ":" in rest:
            before, _, after = rest.partition(":")
            word = re.search(r"\S+$", before)
            if word:
                value, comma, rest = after.partition(",")
                tags.append((word.group(), value.strip(" \t\r")))
            else:
                rest = after
    return tags

TYPE_WORDS = {"asset": "A", "liability": "L", "equity": "E", "revenue": "R", "expense": "X", "cash": "C", "conversion": "V"}

def note_amount(table, amount):
    table.setdefault(amount.symbol, []).append(amount)

def read_factor(text, line):
    """`*N` and `*N SYM`."""
    m = re.fullmatch(r'\*\s*([+-]?)\s*([0-9.,]+)\s*("[^"]*"|%s)?' % SYMBOL, text)
    n = read_number(m[2]) if m else None
    if n is None:
        raise NotRead("line %d: a factor" % line)
    return -n.value if m[1] == "-" else n.value, m[3].strip('"') if m[3] else None

def read_want(text, journal, line):
    """The amounts before an assertion, and what it wants."""
    m = re.match(r'((?:[^="]|"[^"]*")*)(==?)(\*?)(.*)$', text)
    if not m:
        return text, None
    if "@" in m[4]:
        raise NotRead("line %d: a cost behind an assertion" % line)
    amount = read_amount(m[4], journal, line)
    if amount is None:
        raise Refused("error: line %d: form" % line, 1)
    return m[1].strip(), (amount, m[2] == "==", m[3] == "*")

def read_amounts(p, text, journal):
    """The amount of a posting, or a rule's factor, its cost and its assertion."""
    text, p.want = read_want(text, journal, p.line)
    if p.side == "free" and not text and p.want is None:
        raise Refused("error: line %d: form" % p.line, 1)
    m = re.match(r"(.*?)\s*(\(@@\)|\(@\)|@@|@)\s*(.*)$", text)
    main, kind, cost = (m[1], m[2].strip("()"), m[3]) if m else (text, None, None)
    if main.startswith("*") and p.txn is None:
        p.factor = read_factor(main, p.line)
    elif main:
        p.amount = read_amount(main, journal, p.line)
        if p.amount is None:
            raise Refused("error: line %d: form" % p.line, 1)
        note_amount(journal.written, p.amount)
    if kind:
        c = read_amount(cost, journal, p.line)
        if c is None or not main:
            raise Refused("error: line %d: form" % p.line, 1)
        note_amount(journal.others, c)
        p.cost = (kind, c)
    if p.want:
        note_amount(journal.others, p.want[0])

def read_posting(text, journal, txn, line):
    """A posting of a transaction, or of a rule where there is none."""
    p = Posting()
    p.line, p.txn = line, txn
    m = re.match(r"([!*])\s+", text)
    if m:
        p.mark, text = m[1], text[m.end():]
    m = re.match(r"(.*?)(?:  |[ ]?\t|$)(.*)", text)
    name, rest = m[1].strip(), text[len(m[1]):].strip()
    if name.startswith("(") and name.endswith(")"):
        p.side, name = "free", name[1:-1]
    elif name.startswith("[") and name.endswith("]"):
        p.side, name = "balanced", name[1:-1]
    if not name or "" in name.split(":"):
        raise Refused("error: line %d: account" % line, 1)
    p.account = name
    quoted = re.match(r'((?:[^;"]|"[^"]*")*)(;.*)?$', rest)
    if quoted[2] is not None:
        p.comment = quoted[2][1:].strip()
    read_amounts(p, quoted[1].strip(), journal)
    return p

def read_entry(lines, journal, number):
    at, first = lines[0]
    txn = Txn()
    txn.line, txn.number = at, number
    m = re.match(r"[0-9./-]+", first)
    txn.day = read_date(m.group())
    if txn.day is None:
        raise Refused("error: line %d: date" % at, 1)
    rest = first[m.end():].strip()
    m = re.match(r"([!*])(?:\s+|$|(?=\())", rest) or re.match(r"([!*])", rest)
    if m:
        txn.mark, rest = m[1], rest[m.end():].strip()
    if rest.startswith("(") and ")" in rest:
        txn.code, _, rest = rest[1:].partition(")")
    said, semicolon, comment = rest.partition(";")
    txn.description, txn.comment = said.strip(), comment.strip()
    last = txn
    for at, text in lines[1:]:
        text = text.strip()
        if text.startswith(";"):
            last.comment += "\n" + text[1:].strip()
            continue
        last = read_posting(text, journal, txn, at)
        txn.postings.append(last)
    txn.tags = read_tags(txn.comment)
    for p in txn.postings:
        p.tags = read_tags(p.comment)
        for name, value in p.tags:
            if name == "date":
                p.own_day = read_date(value, date.fromordinal(txn.day).year)
                if p.own_day is None:
                    raise Refused("error: line %d: date" % p.line, 1)
                break
    return txn

def read_directive(lines, journal):
    at, first = lines[0]
    if first[0] in "=~":
        rules.read_rule(lines, journal)
        return
    word, _, rest = first.partition(" ")
    if word == "account":
        name, _, comment = rest.partition(";")
        name = name.strip()
        for text in [comment] + [t.strip()[1:] for _, t in lines[1:]]:
            for tag, value in read_tags(text):
                if tag == "type":
                    letter = TYPE_WORDS.get(value.lower(), value.upper())
                    if letter not in list("ALERXCV"):
                        raise Refused("error: line %d: directive" % at, 1)
                    order = "ALERXCV"
                    old = journal.types.get(name)
                    if old is None or order.index(letter) > order.index(old):
                        journal.types[name] = letter
                    break
    elif word == "commodity":
        rest = rest.partition(";")[0] if '"' not in rest else rest
        amount = read_amount(rest, journal, at)
        if len(lines) > 1:
            for _, t in lines[1:]:
                if t.strip().startswith("format"):
                    amount = read_amount(t.strip()[6:], journal, at)
        if amount is not None:
            journal.commodities[amount.symbol] = amount
    elif word == "D":
        journal.default = read_amount(rest.partition(";")[0], journal, at)
        journal.defaults[journal.default.symbol] = journal.default
    elif word == "P":
        m = re.match(r"([0-9./-]+)\s+(?:\d{1,2}:\d{1,2}(?::\d{1,2})?\s+)?(\"[^\"]*\"|%s)\s*(.*)$" % SYMBOL, rest.partition(";")[0])
        amount = read_amount(m[3], journal, at)
        symbol = m[2][1:-1] if m[2].startswith('"') else m[2]
        note_amount(journal.others, amount)
        journal.prices.append((read_date(m[1]), symbol, amount))
    elif word not in ("payee", "tag"):
        raise NotRead("line %d: %s" % (at, word))

def items_of(text):
    lines = text.split("\n")
    if lines and lines[-1] == "":
        lines.pop()
    items, at = [], 0
    while at < len(lines):
        line = lines[at].rstrip("\r")
        if line.rstrip() == "comment":
            while at < len(lines) and lines[at].rstrip() != "end comment":
                at += 1
            at += 1
        elif line.strip() == "" or line.lstrip()[0] in ";#*":
            at += 1
        else:
            if line[0] in " \t":
                raise Refused("error: line %d: form" % (at + 1), 1)
            item = [(at + 1, line)]
            at += 1
            while at < len(lines) and lines[at].strip() and lines[at][0] in " \t":
                item.append((at + 1, lines[at].rstrip("\r")))
                at += 1
            items.append(item)
    return items

def at_cost(p):
    """The symbol and the value of an amount at its cost."""
    if p.cost is None:
        return p.amount.symbol, p.amount.value
    kind, c = p.cost
    if kind == "@":
        return c.symbol, p.amount.value * c.value
    sign = (p.amount.value > 0) - (p.amount.value < 0)
    return c.symbol, sign * abs(c.value)

def places_at_cost(p):
    """How many decimals it has at its cost; a product has those that it needs."""
    if p.cost is None:
        return p.amount.places
    return p.cost[1].places if p.cost[0] == "@@" else needed_places(at_cost(p)[1])

FOUND = Shape(False, True, None)

def balance_txn(txn):
    """Finds what isn't written, and refuses sums that aren't zero. An amount that was found sets no decimals."""
    written, costs = {}, {}
    for p in txn.postings:
        if p.amount and not p.filled:
            written[p.amount.symbol] = max(written.get(p.amount.symbol, 0), p.amount.places)
        if p.cost:
            costs[p.cost[1].symbol] = max(costs.get(p.cost[1].symbol, 0), p.cost[1].places)
    def is_zero(symbol, x):
        places = written.get(symbol, costs.get(symbol))
        return x == 0 if places is None else half_even(x, places) == 0
    no_cost_or_missing = not any(p.cost or p.amount is None for p in txn.postings)
    result = list(txn.postings)
    sums_of = {}
    for side in ("real", "balanced"):
        missing = [p for p in txn.postings if p.side == side and p.amount is None]
        sums = {}
        for p in txn.postings:
            if p.side == side and p.amount:
                symbol, x = at_cost(p)
                sums[symbol] = sums.get(symbol, 0) + x
        sums_of[side] = sums
        if missing:
            m = missing[0]
            found = []
            for symbol in sorted((s for s in sums if sums[s] != 0), key=str.encode) or [None]:
                q = Posting()
                q.__dict__.update(m.__dict__)
                value = -sums[symbol] if symbol is not None else Fraction(0)
                q.amount = Amount(symbol or "", value, needed_places(value), FOUND)
                q.filled = True
                found.append(q)
            at = next(i for i, p in enumerate(result) if p is m)
            result[at:at + 1] = found
            sums_of[side] = {}
    txn.postings = result
    real = {s: x for s, x in sums_of["real"].items() if not is_zero(s, x)}
    if no_cost_or_missing and len(real) == 2 and real[list(real)[0]] * real[list(real)[1]] < 0:
        first = next(p for p in txn.postings if p.side == "real" and p.amount.symbol in real).amount.symbol
        other = [s for s in real if s != first][0]
        having = [p for p in txn.postings if p.side == "real" and p.amount.symbol == first]
        if len(having) == 1:
            x = abs(real[other])
            having[0].cost, having[0].costed = ("@@", Amount(other, x, needed_places(x), FOUND)), True
        real = {}
    for side, sums in (("real", real), ("balanced", sums_of["balanced"])):
        bad = sorted((s for s in sums if not is_zero(s, sums[s])), key=str.encode)
        if bad:
            places = max(places_at_cost(p) for p in txn.postings if p.side == side and p.amount and at_cost(p)[0] == bad[0])
            text = print_number(sums[bad[0]], places, ".", None, 3, 3)
            raise Refused("error: line %d: unbalanced %s %s" % (txn.line, text, bad[0]), 1)

def refuse_missing(txn):
    for side in ("real", "balanced"):
        if sum(p.side == side and p.amount is None and p.want is None for p in txn.postings) > 1:
            raise Refused("error: line %d: two missing amounts" % txn.line, 1)
    if any(p.amount is None and p.want for p in txn.postings) and any(name == "date" for p in txn.postings for name, _ in p.tags):
        raise Refused("error: line %d: not allowed" % txn.line, 1)

def in_places(txn):
    """A transaction's postings as they count on a day: beside an amount that is assigned those that were missing come last."""
    assigns = any(p.want and (p.amount is None or p.filled) for p in txn.postings)
    return sorted(txn.postings, key=lambda p: assigns and p.want is None and (p.amount is None or p.filled))

def held(counted, p):
    """The amounts that an assertion's account holds, each symbol with the most decimals among its postings."""
    below = p.want[2]
    sums, places = {}, {}
    for q in counted:
        if q.account == p.account or (below and q.account.startswith(p.account + ":")):
            symbol = q.amount.symbol
            sums[symbol] = sums.get(symbol, 0) + q.amount.value
            places[symbol] = max(places.get(symbol, 0), q.amount.places)
    return sums, places

def assign(txn, counted):
    """Amounts that make assertions true at their places."""
    before = list(counted)
    for p in in_places(txn):
        if p.amount is None and p.want:
            amount = p.want[0]
            sums, places = held(before, p)
            value = amount.value - sums.get(amount.symbol, 0)
            p.amount, p.filled = Amount(amount.symbol, value, max(amount.places, places.get(amount.symbol, 0)), FOUND), True
        if p.amount is not None:
            before.append(p)

def refuse_assertion(p, counted):
    amount, alone, _ = p.want
    sums, places = held(counted, p)
    wrong = [amount.symbol] if sums.get(amount.symbol, 0) != amount.value else []
    if alone and not wrong:
        wrong = sorted((s for s, v in sums.items() if s != amount.symbol and v != 0), key=str.encode)
    if wrong:
        plain = lambda value, n, symbol: print_number(value, n, ".", None, 3, 3) + " " + symbol
        raise Refused("error: line %d: assertion: wanted %s, found %s" % (p.line, plain(amount.value, amount.places, amount.symbol),
                      plain(sums.get(wrong[0], Fraction(0)), places.get(wrong[0], 0), wrong[0])), 1)

def judge(txns):
    """Finds what isn't written, and refuses the first fault: by day, on one day in the order of the transactions, of which each
    balances on the first of its days, and then by the places of assertions."""
    days = {t.number: sorted({p.day for p in t.postings} or {t.day}) for t in txns}
    counted = []
    for day, t in sorted(((d, t) for t in txns for d in days[t.number]), key=lambda group: (group[0], group[1].number)):
        if day == days[t.number][0]:
            refuse_missing(t)
            assign(t, counted)
            balance_txn(t)
        for p in in_places(t):
            if p.day == day:
                counted.append(p)
                if p.want:
                    refuse_assertion(p, counted)

def load(text):
    journal = Journal()
    for item in items_of(text):
        if item[0][1][0].isdigit():
            journal.txns.append(read_entry(item, journal, len(journal.txns)))
        else:
            read_directive(item, journal)
    judge(journal.txns)
    return journal

# ---------------------------------------------------------------- styles

class Style:
    def __init__(self, shape, places):
        self.shape, self.places = shape, places

def style_of(journal, symbol):
    if symbol in journal.commodities:
        a = journal.commodities[symbol]
        return Style(a.shape, a.places)
    if symbol in journal.defaults:
        a = journal.defaults[symbol]
        return Style(a.shape, a.places)
    for table in (journal.written, journal.others):
        if symbol in table:
            return Style(table[symbol][0].shape, max(a.places for a in table[symbol]))
    return Style(FOUND, 2)

def with_symbol(shape, symbol, number):
    if symbol == "":
        return number
    if not re.fullmatch(SYMBOL, symbol):
        symbol = '"' + symbol + '"'
    space = " " if shape.spaced else ""
    return symbol + space + number if shape.left else number + space + symbol

def print_amount(journal, symbol, value):
    style = style_of(journal, symbol)
    s = style.shape
    return with_symbol(s, symbol, print_number(value, style.places, s.mark, s.group, s.first, s.rest))

# ---------------------------------------------------------------- sums: maps from symbols to values that aren't zero

def mixed(pairs):
    out = {}
    for symbol, value in pairs:
        out[symbol] = out.get(symbol, 0) + value
    return {s: out[s] for s in sorted(out, key=str.encode) if out[s] != 0}

def sum_of(cells):
    return mixed((s, v) for cell in cells for s, v in cell.items())

def less(a, b):
    return mixed(list(a.items()) + [(s, -v) for s, v in b.items()])

def turned(cell):
    return {s: -v for s, v in cell.items()}

def amounts_text(journal, cell):
    return [print_amount(journal, s, v) for s, v in cell.items()] or ["0"]

# ---------------------------------------------------------------- periods

UNITS = ["day", "week", "month", "quarter", "year"]

def unit_start(unit, index):
    """The first day of a unit, counted from year 1."""
    if unit == "day":
        return index + 1
    if unit == "week":
        return index * 7 + 1           # 0001-01-01 is a Monday
    months = index * {"month": 1, "quarter": 3, "year": 12}[unit]
    if months // 12 + 1 > 9999:
        return date(9999, 12, 31).toordinal() + 1
    return date(months // 12 + 1, months % 12 + 1, 1).toordinal()

def unit_of(unit, day):
    if unit == "day":
        return day - 1
    if unit == "week":
        return (day - 1) // 7
    d = date.fromordinal(day)
    return ((d.year - 1) * 12 + d.month - 1) // {"month": 1, "quarter": 3, "year": 12}[unit]

def whole(unit, index):
    return unit_start(unit, index), unit_start(unit, index + 1)

def written_moment(word):
    m = re.fullmatch(r"(\d{4})", word)
    if m and int(m[1]) > 0:
        return whole("year", int(m[1]) - 1)
    m = re.fullmatch(r"(\d{4})q([1-4])", word)
    if m and int(m[1]) > 0:
        return whole("quarter", (int(m[1]) - 1) * 4 + int(m[2]) - 1)
    m = re.fullmatch(r"(\d{4})[-/.](\d{1,2})", word)
    if m and int(m[1]) > 0 and 1 <= int(m[2]) <= 12:
        return whole("month", (int(m[1]) - 1) * 12 + int(m[2]) - 1)
    if re.match(r"\d{4}", word):
        day = read_date(word)
        if day:
            return day, day + 1
    return None

def moment(words, today):
    """The span of a moment at the front of words, and the words behind it; None where there is none."""
    if not words:
        return None
    w = words[0]
    if w in ("yesterday", "today", "tomorrow"):
        day = today + {"yesterday": -1, "today": 0, "tomorrow": 1}[w]
        return (day, day + 1), words[1:]
    if w in ("last", "this", "next"):
        if len(words) < 2 or words[1] not in UNITS:
            return None
        index = unit_of(words[1], today) + {"last": -1, "this": 0, "next": 1}[w]
        return whole(words[1], index), words[2:]
    span = written_moment(w)
    return (span, words[1:]) if span else None

def read_interval(words):
    """An interval at the front of words, and the words behind it."""
    plain = {"daily": ("day", 1), "weekly": ("week", 1), "biweekly": ("week", 2), "monthly": ("month", 1),
             "bimonthly": ("month", 2), "quarterly": ("quarter", 1), "yearly": ("year", 1)}
    if words and words[0] in plain:
        return plain[words[0]], words[1:]
    if words and words[0] == "every":
        if len(words) > 1 and words[1] in UNITS:
            return (words[1], 1), words[2:]
        if len(words) > 2 and re.fullmatch(r"\d{1,3}", words[1]) and int(words[1]) > 0 and words[2] in [u + "s" for u in UNITS]:
            return (words[2][:-1], int(words[1])), words[3:]
        return "bad", words
    return None, words

def read_period(text, today):
    """(from, end, interval), or None."""
    words = [w for w in re.split(r"[ \t\r]+|(\.\.)", text.lower()) if w]
    if not words:
        return None
    interval, words = read_interval(words)
    if interval == "bad":
        return None
    if not words:
        return (None, None, interval) if interval else None
    w = words[0]
    if w == "in":
        m = moment(words[1:], today)
        return (m[0][0], m[0][1], interval) if m and not m[1] else None
    if w == "since":
        m = moment(words[1:], today)
        return (m[0][0], None, interval) if m and not m[1] else None
    if w in ("to", "until", ".."):
        m = moment(words[1:], today)
        return (None, m[0][0], interval) if m and not m[1] else None
    has_from = w == "from"
    m = moment(words[1:] if has_from else words, today)
    if not m:
        return None
    (start, stop), rest = m
    if not rest:
        return (start, None, interval) if has_from else (start, stop, interval)
    if rest == [".."] and not has_from:
        return (start, None, interval)
    if rest[0] == "to" or (rest[0] == ".." and not has_from):
        m = moment(rest[1:], today)
        return (start, m[0][0], interval) if m and not m[1] else None
    return None

def split(start, end, interval):
    unit, n = interval
    index = unit_of(unit, start)
    columns = []
    last = date(9999, 12, 31).toordinal() + 1
    at = unit_start(unit, index)
    while at < end:
        index += n
        stop = min(unit_start(unit, index), last) if not (unit == "day" and index >= last) else last
        columns.append((at, stop))
        at = stop
    return columns

def column_name(start, end):
    if end <= start + 1:
        return shown_day(start)
    for unit in ("year", "quarter", "month"):
        if whole(unit, unit_of(unit, start)) == (start, end):
            d = date.fromordinal(start)
            return {"year": "%04d" % d.year, "quarter": "%04dQ%d" % (d.year, (d.month + 2) // 3),
                    "month": "%04d-%02d" % (d.year, d.month)}[unit]
    return shown_day(start) + ".." + shown_day(end - 1)

# ---------------------------------------------------------------- queries

SPECIAL = set("\\.+*?()|[]{}^$")

def fold(text):
    return "".join(c.casefold() if len(c.casefold()) == 1 else c for c in text)

def finder(pattern, word):
    if not set(pattern) & SPECIAL:
        folded = fold(pattern)
        return lambda text: folded in fold(text)
    try:
        built = re.compile(pattern, re.IGNORECASE)
    except re.error:
        raise Refused("error: pattern: " + word, 1)
    return lambda text: built.search(text) is not None

def symbol_finder(pattern, word):
    if not set(pattern) & SPECIAL:
        folded = fold(pattern)
        return lambda text: folded == fold(text)
    try:
        built = re.compile("^(?:" + pattern + ")$", re.IGNORECASE)
    except re.error:
        raise Refused("error: pattern: " + word, 1)
    return lambda text: built.search(text) is not None

KINDS = ["acct", "desc", "payee", "note", "code", "cur", "amt", "date", "depth", "real", "status", "tag", "type"]

def payee_of(txn):
    return txn.description.partition("|")[0].strip() if "|" in txn.description else txn.description

def note_of(txn):
    return txn.description.partition("|")[2].strip() if "|" in txn.description else txn.description

# The texts of a transaction that terms look at.
TEXTS = {"desc": lambda txn: txn.description, "payee": payee_of, "note": note_of, "code": lambda txn: txn.code}


class Term:
    def __init__(self, kind, nots, value):
        self.kind, self.nots, self.value = kind, nots, value

def read_term(word, today):
    def bad():
        raise Refused("error: term: " + word, 1)
    nots, text = 0, word
    while text.startswith("not:"):
        nots, text = nots + 1, text[4:]
    kind, colon, rest = text.partition(":")
    if not colon or kind not in KINDS:
        kind, rest = "acct", text
    if kind in ("acct", "desc", "payee", "note", "code"):
        return Term(kind, nots, rest)
    if kind == "cur":
        return Term(kind, nots, rest)
    if kind == "amt":
        m = re.fullmatch(r"(<=|>=|<|>|)([+-]?)(.*)", rest, re.S)
        n = read_number(m[3])
        if n is None:
            bad()
        return Term(kind, nots, (m[1], m[2] != "" or n.value == 0, -n.value if m[2] == "-" else n.value))
    if kind == "date":
        p = read_period(rest, today)
        if p is None or p[2] is not None:
            bad()
        return Term(kind, nots, p)
    if kind == "depth":
        if not re.fullmatch(r"[1-9][0-9]*", rest):
            bad()
        return Term(kind, nots, int(rest))
    if kind == "real":
        if rest not in ("0", "1"):
            bad()
        return Term(kind, nots, rest == "1")
    if kind == "status":
        if rest not in ("*", "!", ""):
            bad()
        return Term(kind, nots, rest)
    if kind == "tag":
        return Term(kind, nots, rest)
    if not re.fullmatch(r"[ALERXCValerxcv]+", rest):
        bad()
    return Term(kind, nots, rest.upper())

def build(term, word):
    """The patterns of a term, once all words are terms."""
    if term.kind in ("acct", "desc", "payee", "note", "code"):
        term.value = finder(term.value, word)
    elif term.kind == "cur":
        term.value = symbol_finder(term.value, word)
    elif term.kind == "tag":
        name, equals, value = term.value.partition("=")
        term.value = (finder(name, word), finder(value, word) if equals else lambda text: True)

def type_of(journal, account):
    """The letter of an account, or None."""
    names = account.split(":")
    for n in range(len(names), 0, -1):
        letter = journal.types.get(":".join(names[:n]))
        if letter:
            return letter
    low = [n.lower() if n.isascii() else n for n in names]
    if low[0] == "equity" and len(low) > 1 and low[1] in ("trade", "trades", "conversion", "conversions"):
        return "V"
    for letter, words in (("A", ("asset", "assets")), ("L", ("liability", "liabilities", "debt", "debts")), ("E", ("equity",)),
                          ("R", ("income", "incomes", "revenue", "revenues")), ("X", ("expense", "expenses"))):
        if low[0] in words:
            return letter
    return None

def compare(order, a, b):
    return {"": a == b, "<": a < b, "<=": a <= b, ">": a > b, ">=": a >= b}[order]

class Query:
    def __init__(self, words, today, journal, flags):
        """flags: status marks, real, depth of the options."""
        self.journal = journal
        self.terms = [read_term(w, today) for w in words]
        for t, w in zip(self.terms, words):
            build(t, w)
        marks, real, depth = flags
        self.terms += [Term("status", 0, m) for m in marks]
        if real:
            self.terms.append(Term("real", 0, True))
        if depth is not None:
            self.terms.append(Term("depth", 0, depth))

    def depth(self):
        return min([t.value for t in self.terms if t.kind == "depth" and t.nots == 0], default=None)

    def dates(self):
        those = [t.value for t in self.terms if t.kind == "date" and t.nots == 0]
        return (max([p[0] for p in those if p[0] is not None], default=None),
                min([p[1] for p in those if p[1] is not None], default=None))

    def holds(self, term, p):
        """Whether the term's kind holds of a posting, before `not:`."""
        k, v, txn = term.kind, term.value, p.txn
        if k == "acct":
            return v(p.account)
        if k in TEXTS:
            return v(TEXTS[k](txn))
        if k == "cur":
            return v(p.amount.symbol)
        if k == "amt":
            order, signed, number = v
            return compare(order, p.amount.value if signed else abs(p.amount.value), number)
        if k == "date":
            return (v[0] is None or v[0] <= p.day) and (v[1] is None or p.day < v[1])
        if k == "depth":
            return True
        if k == "real":
            return (p.side == "real") == v
        if k == "status":
            return (p.mark or txn.mark) == v
        if k == "tag":
            return any(v[0](n) and v[1](x) for n, x in p.tags + txn.tags)
        letter = type_of(self.journal, p.account)
        return letter is not None and (letter in v or (letter == "C" and "A" in v) or (letter == "V" and "E" in v))

    def with_nots(self, answer, nots):
        return answer if nots % 2 == 0 else not answer

    def joined(self, terms, holds):
        groups = {"desc": ("desc", "payee", "note"), "acct": ("acct",), "status": ("status",)}
        for kinds in groups.values():
            those = [t for t in terms if t.nots == 0 and t.kind in kinds]
            if those and not any(holds(t) for t in those):
                return False
        grouped = [k for kinds in groups.values() for k in kinds]
        return all(holds(t) for t in terms if t.nots > 0 or t.kind not in grouped)

    def posting(self, p, terms=None):
        return self.joined(self.terms if terms is None else terms, lambda t: self.with_nots(self.holds(t, p), t.nots))

    def undated(self, p):
        return self.posting(p, [t for t in self.terms if t.kind != "date"])

    def boundless(self, p):
        return self.posting(p, [t for t in self.terms if t.kind != "date" or t.nots > 0])

    def txn(self, txn):
        def own(t):
            k, v = t.kind, t.value
            if k in TEXTS:
                return v(TEXTS[k](txn))
            if k == "status":
                return txn.mark == v
            if k == "date":
                return (v[0] is None or v[0] <= txn.day) and (v[1] is None or txn.day < v[1])
            if k == "depth":
                return True
            if k == "tag" and any(v[0](n) and v[1](x) for n, x in txn.tags):
                return True
            return any(self.holds(t, p) for p in txn.postings)
        def holds(t):
            if t.nots == 0:
                return own(t)
            return not any(self.with_nots(self.holds(t, p), t.nots - 1) for p in txn.postings)
        return self.joined(self.terms, holds)

# ---------------------------------------------------------------- options

COLUMNS = ("balance", "incomestatement", "balancesheet")
REPORTS = COLUMNS + ("print", "register", "accounts")
DEPTHS = COLUMNS + ("register", "accounts")
VALUES = COLUMNS + ("register",)
OPTIONS = {}
for names, commands, takes in [
        ("-b --begin", REPORTS, True), ("-e --end", REPORTS, True), ("-p --period", REPORTS, True),
        ("-D --daily", COLUMNS, False), ("-W --weekly", COLUMNS, False), ("-M --monthly", COLUMNS, False),
        ("-Q --quarterly", COLUMNS, False), ("-Y --yearly", COLUMNS, False),
        ("-U --unmarked", REPORTS, False), ("-P --pending", REPORTS, False), ("-C --cleared", REPORTS, False),
        ("-R --real", REPORTS, False), ("-E --empty", COLUMNS, False), ("--depth", DEPTHS, True),
        ("-B --cost", VALUES, False), ("-V --market", VALUES, False), ("-X --exchange", VALUES, True), ("--value", VALUES, True),
        ("-H --historical", ("balance", "register"), False), ("--cumulative", ("balance",), False), ("--change", ("balance",), False),
        ("-l --flat", COLUMNS, False), ("-t --tree", COLUMNS, False), ("-A --average", COLUMNS, False),
        ("-T --row-total", COLUMNS, False), ("-N --no-total", COLUMNS, False), ("-S --sort-amount", COLUMNS, False),
        ("--auto", REPORTS, False), ("--forecast", REPORTS, None), ("--budget", ("balance",), False),
        ("-x --explicit", ("print",), False)]:
    for name in names.split():
        OPTIONS[name] = (names.split()[-1][2:], commands, takes)

INTERVALS = {"daily": "day", "weekly": "week", "monthly": "month", "quarterly": "quarter", "yearly": "year"}
RIVALS = [set(INTERVALS), {"historical", "cumulative", "change"}, {"flat", "tree"}, {"market", "exchange", "value"}]
EXCLUDED = {("row-total", "historical"), ("row-total", "cumulative"), ("row-total", "sheet"), ("average", "historical"),
            ("average", "cumulative"), ("average", "sheet"), ("sort-amount", "tree"), ("budget", "historical"),
            ("budget", "cumulative"), ("budget", "tree")}

def clash(a, b):
    return a != b and any(a in s and b in s for s in RIVALS) or (a, b) in EXCLUDED or (b, a) in EXCLUDED

def read_value(name, text, today):
    """The value of an option, or None where it doesn't read."""
    if name in ("begin", "end"):
        p = read_period(("since " if name == "begin" else "until ") + text, today)
        return p and (p[0] if name == "begin" else p[1],)
    if name in ("period", "forecast"):
        return read_period(text, today)
    if name == "depth":
        return int(text) if re.fullmatch(r"[1-9][0-9]*", text) else None
    if name == "exchange":
        return ("end", text)
    when, _, symbol = text.partition(",")
    if when not in ("cost", "then", "end", "now"):
        day = read_date(when)
        if day is None:
            return None
        when = day
    return (when, symbol or None)

class Options:
    pass

def read_options(command, words, today):
    items, query, at = [], [], 0
    while at < len(words):
        w = words[at]
        at += 1
        if w == "--":
            query += words[at:]
            break
        if not w.startswith("-"):
            query.append(w)
            continue
        name, equals, text = w.partition("=") if w.startswith("--") else (w, "", "")
        if name not in OPTIONS or command not in OPTIONS[name][1]:
            raise Refused("error: usage: " + w, 2)
        long, _, takes = OPTIONS[name]
        holder, value = w, True
        if takes is None and not equals:
            value = (None, None, None)
        elif takes is not False:
            if not equals:
                if at == len(words):
                    raise Refused("error: usage: " + w, 2)
                holder = text = words[at]
                at += 1
            value = read_value(long, text, today)
            if value is None:
                raise Refused("error: usage: " + holder, 2)
        elif equals:
            raise Refused("error: usage: " + w, 2)
        items.append((long, w, value))
    judged = items + ([("sheet", "bs", True)] if command == "balancesheet" else [])
    for i, later in enumerate(judged):
        for earlier in judged[:i]:
            if clash(earlier[0], later[0]):
                raise Refused("error: usage: %s with %s" % (earlier[1], later[1]), 2)
    has = lambda name: any(i[0] == name for i in items)
    last = lambda *names: next((i for i in reversed(items) if i[0] in names), None)
    o = Options()
    o.command = command
    period = last("period")
    period = period[2] if period else (None, None, None)
    begin, end = last("begin"), last("end")
    o.start = begin[2][0] if begin else period[0]
    o.end = end[2][0] if end else period[1]
    # the interval is that of the last of -p and the interval options that gives one; an earlier -p gives none
    o.interval = None
    if command in COLUMNS:
        last_p = last("period")
        for i in items:
            if i[0] in INTERVALS:
                o.interval = (INTERVALS[i[0]], 1)
            elif i is last_p and i[2][2] is not None:
                o.interval = i[2][2]
    o.marks = [m for n, m in (("unmarked", ""), ("pending", "!"), ("cleared", "*")) if has(n)]
    o.real = has("real")
    o.depth = last("depth")[2] if has("depth") else None
    o.cost = has("cost")
    o.value = None
    v = last("market", "exchange", "value")
    if v:
        o.value = ("end", None) if v[0] == "market" else v[2]
    if o.value and o.value[0] == "cost":
        o.cost = True
        o.value = ("end", o.value[1]) if o.value[1] is not None else None
    o.mode = "historical" if has("historical") or command == "balancesheet" else "cumulative" if has("cumulative") else "change"
    o.empty, o.tree, o.average, o.row_total = has("empty"), has("tree"), has("average"), has("row-total")
    o.no_total, o.sort, o.explicit = has("no-total"), has("sort-amount"), has("explicit")
    o.auto, o.budget, o.forecast = has("auto"), has("budget"), last("forecast")[2] if has("forecast") else None
    return o, query

# ---------------------------------------------------------------- prices

def latest_price(journal, a, b, day):
    best = None
    for d, symbol, amount in journal.prices:
        if symbol == a and amount.symbol == b and a != b and d <= day and (best is None or d >= best[0]):
            best = (d, amount.value)
    return best and best[1]

def default_target(journal, symbol, day):
    best = None
    for d, s, amount in journal.prices:
        if s == symbol and d <= day and (best is None or d >= best[0]):
            best = (d, amount.symbol)
    return best and best[1]

def chain_of(journal, a, b, day, reverse):
    """The shortest chain, least by bytes; None past 16 steps."""
    symbols = {s for _, s, _ in journal.prices} | {x.symbol for _, _, x in journal.prices}
    def step(x, y):
        p = latest_price(journal, x, y, day)
        if p is not None:
            return p
        q = latest_price(journal, y, x, day) if reverse else None
        return 1 / q if q else None
    chains = [[a]]
    for _ in range(16):
        longer = [c + [s] for c in chains for s in symbols if s not in c and step(c[-1], s) is not None]
        ends = [c for c in longer if c[-1] == b]
        if ends:
            c = min(ends, key=lambda c: [s.encode() for s in c])
            rate = Fraction(1)
            for x, y in zip(c, c[1:]):
                rate *= step(x, y)
            return rate
        chains = longer
    return None

def rate_of(journal, a, b, day):
    if a == b:
        return Fraction(1)
    p = latest_price(journal, a, b, day)
    if p is not None:
        return p
    p = latest_price(journal, b, a, day)
    if p:
        return 1 / p
    rate = chain_of(journal, a, b, day, False)
    return rate if rate is not None else chain_of(journal, a, b, day, True)

def valued(journal, symbol, value, target, day):
    if target is None:
        target = default_target(journal, symbol, day)
    rate = rate_of(journal, symbol, target, day) if target is not None else None
    if rate is None:
        return symbol, value
    return target, half_even(value * rate, min(18, style_of(journal, target).places))

# ---------------------------------------------------------------- span and takings

def given_bounds(options, query):
    dates = query.dates()
    starts = [d for d in (options.start, dates[0]) if d is not None]
    ends = [d for d in (options.end, dates[1]) if d is not None]
    return max(starts, default=None), min(ends, default=None)

class Job:
    def __init__(self, journal, options, query, today):
        self.journal, self.options, self.query, self.today = journal, options, query, today
        self.postings = [p for t in journal.txns for p in t.postings]
        self.given_start, self.given_end = given_bounds(options, query)
        days = [p.day for p in self.postings if query.undated(p)]
        self.start = self.given_start if self.given_start is not None else min(days, default=today)
        self.end = self.given_end if self.given_end is not None else (max(days) + 1 if days else today)
        self.is_empty = self.end <= self.start
        self.columns = split(self.start, self.end, options.interval) if options.interval and not self.is_empty else [(self.start, self.end)]
        self.first, self.stop = self.columns[0][0], self.columns[-1][1]
        self.goals = None
        if options.budget:
            self.goals = self.of_goals(rules.goals_of(journal, (self.first, self.stop)))
        if len(self.columns) > 1200:
            raise Refused("error: limit: %d of 1200" % len(self.columns), 7)

    def of_goals(self, made):
        """The same over goals, with the days of the columns as bounds."""
        goals = Job.__new__(Job)
        goals.__dict__.update(self.__dict__)
        goals.journal = Journal.__new__(Journal)
        goals.journal.__dict__.update(self.journal.__dict__)
        goals.journal.txns = made
        goals.postings = [p for t in made for p in t.postings]
        goals.given_start, goals.given_end = self.first, self.stop
        return goals

    def last_day(self, column):
        return column[0] if column[1] <= column[0] else column[1] - 1

    def value_day(self, column):
        when = self.options.value[0]
        if when == "now":
            return self.today
        if when != "end":
            return when
        if self.options.interval is None and self.given_end is None:
            return max([t.day for t in self.journal.txns] + [d for d, _, _ in self.journal.prices], default=self.today)
        return self.last_day(column)

    def taken(self):
        o, q = self.options, self.query
        inside = [p for p in self.postings if self.first <= p.day < self.stop and q.posting(p)]
        earlier = [p for p in self.postings if p.day < self.first and q.boundless(p)]
        if o.mode == "historical" and TAKEN["dates"] != "columns":
            bound = min(self.start, self.stop) if TAKEN["dates"] == "span" else self.stop
            earlier = [p for p in self.postings if p.day < bound and q.boundless(p)]
            inside = [p for p in inside if not any(p is e for e in earlier)]
        if self.is_empty and TAKEN["no days"] == "nothing":
            earlier = []
        return inside, earlier

    def name(self, p):
        depth = self.query.depth()
        return ":".join(p.account.split(":")[:depth]) if depth else p.account

    def brought(self, p):
        """What a posting brings: at cost, and valued on its day with `then`."""
        s, v = at_cost(p) if self.options.cost else (p.amount.symbol, p.amount.value)
        if self.options.value and self.options.value[0] == "then":
            return valued(self.journal, s, v, self.options.value[1], p.day)
        return s, v

    def cell(self, postings, column):
        sums = mixed(self.brought(p) for p in postings)
        value = self.options.value
        if value is None or value[0] == "then":
            return sums
        day = self.value_day(column)
        return mixed(valued(self.journal, s, v, value[1], day) for s, v in sums.items())

    def cells(self, letters=None):
        """Rows by account: a map from account to cells; with letters, of the postings whose own account has one of them."""
        inside, earlier = self.taken()
        if letters is not None:
            inside, earlier = [[p for p in ps if (type_of(self.journal, p.account) or "-") in letters] for ps in (inside, earlier)]
        historical = self.options.mode == "historical"
        counted = inside + earlier if historical else inside
        rows = {}
        for account in in_order(self.name(p) for p in (inside + earlier if TAKEN["empty"] == "earlier" else counted)):
            own = [p for p in counted if self.name(p) == account]
            cells = []
            for column in self.columns:
                if self.options.mode == "change":
                    these = [p for p in own if column[0] <= p.day < column[1]]
                else:
                    these = [p for p in own if p.day < column[1]]
                cells.append(self.cell(these, column))
            rows[account] = cells
        return rows

# ---------------------------------------------------------------- layouts of balance reports

def by_amount(a, b):
    """Whether sum a comes before sum b: -1, 0 or 1."""
    for s in sorted(set(a) | set(b), key=str.encode):
        x, y = a.get(s, 0), b.get(s, 0)
        if x != y:
            return -1 if x > y else 1
    return 0

class Row:
    def __init__(self, account, name, cells, level=0):
        self.account, self.name, self.cells, self.level = account, name, cells, level

def rows_of(job, rows):
    """The rows that are shown, flat or as a tree, and the totals."""
    import functools
    o, n = job.options, len(job.columns)
    totals = [sum_of(cells[i] for cells in rows.values()) for i in range(n)]
    if o.tree:
        names = set()
        for account in rows:
            ps = account.split(":")
            names |= {":".join(ps[:i]) for i in range(1, len(ps) + 1)}
        out = []
        for account in in_order(names):
            below = [c for a, c in rows.items() if a == account or a.startswith(account + ":")]
            cells = [sum_of(c[i] for c in below) for i in range(n)]
            level = account.count(":")
            out.append(Row(account, "  " * level + account.split(":")[-1], cells, level))
        if not o.empty:
            kept = {r.account for r in out if any(r.cells)}
            out = [r for r in out if any(k == r.account or k.startswith(r.account + ":") for k in kept)]
        return out, totals
    out = [Row(a, a, cells) for a, cells in rows.items() if o.empty or any(cells)]
    if o.sort:
        def key(r):
            return sum_of(r.cells) if o.mode == "change" else r.cells[-1]
        out.sort(key=functools.cmp_to_key(lambda a, b: by_amount(key(a), key(b)) or (parts(a.account) > parts(b.account)) - (parts(a.account) < parts(b.account))))
    return out, totals

def list_text(job, rows):
    shown, totals = rows_of(job, rows)
    j, o = job.journal, job.options
    texts = [(amounts_text(j, r.cells[0]), r.name) for r in shown]
    total = amounts_text(j, totals[0])
    w = max([20] + [width(a) for amounts, _ in texts for a in amounts] + ([] if o.no_total and TAKEN["width"] == "shown" else [width(a) for a in total]))
    out = []
    def put(amounts, name):
        for a in amounts[:-1]:
            out.append(right(a, w))
        out.append(right(amounts[-1], w) + "  " + name)
    for amounts, name in texts:
        put(amounts, name)
    if not o.no_total:
        out.append("-" * w)
        put(total, "")
    return "".join(line + "\n" for line in out)

def widened(job, cells):
    """The cells with those of -T and -A behind them."""
    o, j = job.options, job.journal
    total = sum_of(cells)
    more = []
    if o.row_total:
        more.append(total)
    if o.average:
        more.append(mixed((s, half_even(v / len(job.columns), style_of(j, s).places)) for s, v in total.items()))
    return cells + more

def heads_of(job):
    heads = [column_name(*c) if job.options.mode == "change" else shown_day(job.last_day(c)) for c in job.columns]
    return heads + (["Total"] if job.options.row_total else []) + (["Average"] if job.options.average else [])

def span_title(job):
    return shown_day(job.first) + ".." + shown_day(job.last_day((job.first, job.stop)))

def table(job, title, heads, lines):
    """Lines are (name, texts) or a mark of a rule."""
    w = max([0] + [width(l[0]) for l in lines if isinstance(l, tuple)])
    ws = [max([width(h)] + [width(l[1][i]) for l in lines if isinstance(l, tuple)]) for i, h in enumerate(heads)]
    out = [title, ""]
    for l in [("", heads)] + lines:
        if isinstance(l, tuple):
            out.append(" " + left(l[0], w) + " || " + "  ".join(right(t, n) for t, n in zip(l[1], ws)) + " ")
        else:
            out.append(l * (w + 2) + "++" + l * (sum(ws) + 2 * len(ws)))
    return "".join(line + "\n" for line in out)

def cell_line(job, name, cells):
    return (name, [", ".join(amounts_text(job.journal, c)) for c in widened(job, cells)])

def balance_report(job):
    if job.options.budget:
        return rules.budget_report(job)
    rows = job.cells()
    if job.options.interval is None:
        return list_text(job, rows)
    shown, totals = rows_of(job, rows)
    title = {"change": "Balance changes in ", "historical": "Ending balances (historical) in ",
             "cumulative": "Ending balances (cumulative) in "}[job.options.mode] + span_title(job) + ":"
    lines = ["="] + [cell_line(job, r.name, r.cells) for r in shown]
    if not job.options.no_total:
        lines += ["-", cell_line(job, "", totals)]
    return table(job, title, heads_of(job), lines)

def statement(job):
    o = job.options
    rows = job.cells()
    is_income = o.command == "incomestatement"
    sections = [("Revenues", "R", True), ("Expenses", "X", False)] if is_income else [("Assets", "AC", False), ("Liabilities", "L", True)]
    heads = heads_of(job)
    lines, sums = [], []
    for name, letters, turns in sections:
        own = {a: cells for a, cells in rows.items() if (type_of(job.journal, a) or "-") in letters} if TAKEN["section"] == "cut" else job.cells(letters)
        own = {a: ([turned(c) for c in cells] if turns else cells) for a, cells in own.items()}
        shown, totals = rows_of(job, own)
        sums.append([c for c in totals])
        lines += ["=", (name, [""] * len(heads)), "-"] + [cell_line(job, r.name, r.cells) for r in shown]
        if not o.no_total:
            lines += ["-", cell_line(job, "", totals)]
    if not o.no_total:
        net = widened(job, [less(a, b) for a, b in zip(*sums)])
        lines += ["=", ("Net:", [", ".join(amounts_text(job.journal, c)) for c in net])]
    title = ("Income Statement " if is_income else "Balance Sheet ") + span_title(job)
    return table(job, title, heads, lines)

# ---------------------------------------------------------------- register, print, accounts

def register_report(job):
    j, o = job.journal, job.options
    inside = sorted((p for p in job.postings if job.start <= p.day < job.end and job.query.posting(p)),
                    key=lambda p: (p.day, p.txn.number))
    earlier = [p for p in job.postings if p.day < job.start and job.query.boundless(p)] if o.mode == "historical" else []
    def worth(p):
        s, v = job.brought(p)
        if o.value and o.value[0] != "then":
            s, v = valued(j, s, v, o.value[1], job.value_day((job.start, job.end)))
        return mixed([(s, v)])
    total = sum_of(worth(p) for p in earlier)
    out, before = [], None
    for p in inside:
        amount = worth(p)
        total = sum_of([total, amount])
        if before is not None and before.txn is p.txn and before.day == p.day:
            front = " " * 31
        else:
            front = shown_day(p.day) + " " + left(cut_to(p.txn.description, 20), 20)
        fits = (lambda t: cut_to(t, 11)) if TAKEN["wide"] == "cut" else (lambda t: t)
        totals = [fits(t) for t in amounts_text(j, total)]
        out.append(front + "  " + left(cut_to(job.name(p), 21), 21) + "  " + right(fits(amounts_text(j, amount)[0]), 11) + "  " + right(totals[0], 11))
        out += [" " * 67 + "  " + right(t, 11) for t in totals[1:]]
        before = p
    return "".join(line + "\n" for line in out)

def print_own(journal, amount, found):
    s = style_of(journal, amount.symbol).shape
    places = needed_places(amount.value) if found else amount.places
    return with_symbol(s, amount.symbol, print_number(amount.value, places, s.mark, s.group, s.first, s.rest, True))

def print_report(job):
    o, j = job.options, job.journal
    out = []
    for t in sorted(j.txns, key=lambda t: (t.day, t.number)):
        if not job.query.txn(t):
            continue
        start, end = (job.start, job.end) if TAKEN["print"] == "letter" else (job.given_start, job.given_end)
        if (start is not None and t.day < start) or (end is not None and t.day >= end):
            continue
        def comment(text):
            first, *more = text.split("\n")
            return ("  ; " + first if first else "") + "".join("\n    ; " + m for m in more) + "\n"
        out.append(shown_day(t.day) + (" " + t.mark if t.mark else "") + (" (%s)" % t.code if t.code else "")
                   + (" " + t.description if t.description else "") + comment(t.comment))
        fields, before = [], None
        for p in t.postings:
            if not o.explicit and p.filled and before is not None and before.filled and before.line == p.line:
                continue
            before = p
            brackets = {"real": "%s", "free": "(%s)", "balanced": "[%s]"}[p.side]
            account = (p.mark + " " if p.mark else "") + brackets % p.account
            amount = print_own(j, p.amount, p.filled) if o.explicit or not p.filled else None
            cost = ""
            if p.cost and (o.explicit or not p.costed):
                cost = " %s %s" % (p.cost[0], print_own(j, p.cost[1], p.costed))
            if p.want:
                cost += " %s%s %s" % ("==" if p.want[1] else "=", "*" if p.want[2] else "", print_own(j, p.want[0], False))
            fields.append((account, amount, cost, p.comment))
        wa = max([width(f[0]) for f in fields], default=0)
        wn = max([width(f[1]) for f in fields if f[1] is not None], default=0)
        for account, amount, cost, c in fields:
            line = account if amount is None and not cost else left(account, wa) + "  " + right(amount or "", wn) + cost
            out.append("    " + line + comment(c))
        out.append("\n")
    return "".join(out)

def accounts_report(job):
    names = in_order(job.name(p) for p in job.postings if job.start <= p.day < job.end and job.query.posting(p))
    return "".join(n + "\n" for n in names)

# ---------------------------------------------------------------- the whole

ALIASES = {"bal": "balance", "reg": "register", "is": "incomestatement", "bs": "balancesheet"}
COMMANDS = REPORTS + ("check",)

def reckon(text, words, today):
    """The output, the error line and the status."""
    try:
        if not words:
            raise Refused("error: usage", 2)
        command = ALIASES.get(words[0], words[0])
        if command not in COMMANDS:
            raise Refused("error: usage: " + words[0], 2)
        options, query_words = read_options(command, words[1:], today)
        journal = load(text)
        query = Query(query_words, today, journal, (options.marks, options.real, options.depth))
        if command == "check":
            return "", "", 0
        if options.forecast is not None:
            rules.with_forecast(journal, options.forecast, *given_bounds(options, query), today)
        if options.auto:
            rules.with_rules(journal, today)
        job = Job(journal, options, query, today)
        report = {"balance": balance_report, "register": register_report, "incomestatement": statement, "balancesheet": statement,
                  "print": print_report, "accounts": accounts_report}[command]
        return report(job), "", 0
    except Refused as r:
        return "", r.line, r.status

def main(args):
    today = date(2024, 7, 15).toordinal()
    if args and args[0].startswith("--today="):
        today = read_date(args.pop(0)[8:])
    try:
        out, err, status = reckon(open(args[0], encoding="utf-8").read(), args[1:], today)
    except NotRead as n:
        out, err, status = "", "not read: %s" % n, 99
    sys.stdout.write(out)
    if err:
        sys.stderr.write(err + "\n")
    return status

import rules          # stands last, since it reads names of this file

if __name__ == "__main__":
    import reckon       # under its own name, which rules.py imports
    sys.exit(reckon.main(sys.argv[1:]))
