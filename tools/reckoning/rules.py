"""What rules make, reckoned straight from the rules of the manual's page on plans: postings of automated rules, transactions of
periodic ones, goals, and the budget. It shares nothing with the program."""
import calendar, functools, re
from datetime import date
from fractions import Fraction
import reckon
from reckon import Amount, FOUND, Posting, Refused, Shape, Txn, needed_places

MOST_TXNS, MOST_POSTINGS = 100_000, 1_000_000

# ---------------------------------------------------------------- reading

class AutoRule:
    def __init__(self, line, words, postings):
        self.line, self.words, self.postings = line, words, postings

class PeriodicRule:
    def __init__(self, line, period, description, postings):
        self.line, self.period, self.description, self.postings = line, period, description, postings

def query_words(text):
    return [w.replace('"', "") for w in re.findall(r'(?:[^\s"]|"[^"]*")+', text)]

def read_rule(lines, journal):
    at, first = lines[0]
    kind, said = first[0], first[1:].partition(";")[0].strip()
    class Apart:                    # amounts of rules are of the second class of written amounts
        commodities, default, written, others = journal.commodities, journal.default, journal.others, journal.others
    postings = []
    for line, text in lines[1:]:
        text = text.strip()
        if text.startswith(";"):
            if postings:
                postings[-1].comment += "\n" + text[1:].strip()
            continue
        postings.append(reckon.read_posting(text, Apart, None, line))
        if postings[-1].want:
            raise reckon.NotRead("line %d: an assertion of a rule" % line)
    for p in postings:
        p.tags = reckon.read_tags(p.comment)
    if kind == "=":
        journal.autos.append(AutoRule(at, query_words(said), postings))
        return
    words, _, description = re.sub(r"\t", "  ", said).partition("  ")
    period = reckon.read_period(words, 1)
    if period is None or re.search(r"this|last|next|today|yesterday|tomorrow", words.lower()):
        raise Refused("error: line %d: date" % at, 1)
    journal.periodics.append(PeriodicRule(at, period, description.strip(), postings))

# ---------------------------------------------------------------- the days of a periodic rule

def occurrence(start, interval, k):
    unit, n = interval
    if unit in ("day", "week"):
        return start + n * k * {"day": 1, "week": 7}[unit]
    d = date.fromordinal(start)
    months = (d.year * 12 + d.month - 1) + n * k * {"month": 1, "quarter": 3, "year": 12}[unit]
    year, month = months // 12, months % 12 + 1
    if year > 9999:
        return None
    return date(year, month, min(d.day, calendar.monthrange(year, month)[1])).toordinal()

def days_of(period, window):
    start, end, interval = period
    begin = max([window[0]] + [d for d in (start,) if d is not None])
    stop = min([window[1]] + [d for d in (end,) if d is not None])
    if interval is None:
        return [start] if start is not None and begin <= start < stop else []
    unit = interval[0]
    if start is None:
        index = reckon.unit_of(unit, begin)
        try:
            start = begin if reckon.unit_start(unit, index) == begin else reckon.unit_start(unit, index + 1)
        except ValueError:          # the calendar ends
            return []
        if start >= stop:
            return []
    days, k = [], 0
    while True:
        day = occurrence(start, interval, k)
        if day is None or day >= stop:
            return days
        if day >= begin:
            days.append(day)
        k += 1

# ---------------------------------------------------------------- what rules make

def copy_of(p, txn):
    q = Posting()
    q.__dict__.update(p.__dict__)
    q.txn = txn
    return q

def made_txns(journal, window):
    """The transactions of the periodic rules within a window, by day and then in the order of the rules."""
    made = []
    for rule in journal.periodics:
        for day in days_of(rule.period, window):
            t = Txn()
            t.day, t.line, t.description = day, rule.line, rule.description
            t.postings = [copy_of(p, t) for p in rule.postings]
            made.append(t)
    refuse_many(len(made), sum(len(t.postings) for t in made))
    return sorted(made, key=lambda t: t.day)

def refuse_many(txns, postings):
    if txns > MOST_TXNS:
        raise Refused("error: limit: %d of %d" % (txns, MOST_TXNS), 7)
    if postings > MOST_POSTINGS:
        raise Refused("error: limit: %d of %d" % (postings, MOST_POSTINGS), 7)

def window_of(asked, given_start, given_end, journal, today):
    last = max([t.day for t in journal.txns], default=None)
    starts = [d for d in (given_start, last + 1 if last is not None else None) if d is not None]
    start = asked[0] if asked[0] is not None else max(starts, default=today)
    end = asked[1] if asked[1] is not None else given_end if given_end is not None else min(3652060, today + 180)
    return start, end

def numbered(txns, first):
    for n, t in enumerate(txns):
        t.number = first + n
    return txns

def with_forecast(journal, asked, given_start, given_end, today):
    made = made_txns(journal, window_of(asked, given_start, given_end, journal, today))
    journal.txns = journal.txns + numbered(made, len(journal.txns))
    reckon.judge(journal.txns)

def goals_of(journal, span):
    made = numbered(made_txns(journal, span), 0)
    reckon.judge(made)
    return made

def made_beside(matched, written):
    p = copy_of(written, matched.txn)
    p.account = p.account.replace("%account", matched.account)
    p.own_day, p.factor = matched.own_day, None
    if written.factor is not None:
        n, symbol = written.factor
        value = matched.amount.value * n
        p.amount = Amount(matched.amount.symbol if symbol is None else symbol, value, needed_places(value), FOUND)
        if symbol is None:          # the cost of a unit stays, and that of all is multiplied
            p.cost, p.costed = matched.cost, matched.costed
            if p.cost is not None and p.cost[0] == "@@":
                value = p.cost[1].value * abs(n)
                p.cost = ("@@", Amount(p.cost[1].symbol, value, needed_places(value), FOUND))
    return p

def with_rules(journal, today):
    """Each posting of the book is asked by each rule; what rules add is asked by none."""
    queries = []
    for rule in journal.autos:
        try:
            queries.append(reckon.Query(rule.words, today, journal, ([], False, None)))
        except Refused as r:
            kind = "rule pattern line" if r.line.startswith("error: pattern") else "rule line"
            raise Refused("error: %s %d" % (kind, rule.line), 1)
    added = {}
    for t in journal.txns:
        for p in t.postings:
            added[id(p)] = [made_beside(p, r) for q, rule in zip(queries, journal.autos) if q.posting(p) for r in rule.postings]
    refuse_many(0, sum(map(len, added.values())))
    for t in journal.txns:
        t.postings = [q for p in t.postings for q in [p] + added[id(p)]]
    reckon.judge(journal.txns)

# ---------------------------------------------------------------- budgets

def beside_goal(journal, amounts, goal):
    text = ", ".join(reckon.amounts_text(journal, amounts))
    if not goal:
        return text
    shown = ", ".join(reckon.amounts_text(journal, goal))
    if len(goal) == 1 and set(amounts) <= set(goal):
        (symbol, g), = goal.items()
        return "%s [%d%% of %s]" % (text, round(100 * amounts.get(symbol, Fraction(0)) / g), shown)
    return "%s [%s]" % (text, shown)

def budget_report(job):
    o, journal, n = job.options, job.journal, len(job.columns)
    goals = job.goals.cells()
    groups = {a: [{} for _ in range(n)] for a in goals}
    rest = [{} for _ in range(n)]
    actual = job.cells()
    for account, cells in actual.items():
        names = account.split(":")
        over = [":".join(names[:k]) for k in range(len(names), 0, -1) if ":".join(names[:k]) in goals]
        if over:
            groups[over[0]] = [reckon.sum_of(pair) for pair in zip(groups[over[0]], cells)]
        else:
            rest = [reckon.sum_of(pair) for pair in zip(rest, cells)]
    names = reckon.in_order(groups)
    if o.sort:
        names.sort(key=functools.cmp_to_key(lambda a, b: reckon.by_amount(reckon.sum_of(groups[a]), reckon.sum_of(groups[b]))
                   or (reckon.parts(a) > reckon.parts(b)) - (reckon.parts(a) < reckon.parts(b))))
    def line(name, cells, goal):
        shown, aims = reckon.widened(job, cells), reckon.widened(job, goal)
        return (name, [beside_goal(journal, c, g) for c, g in zip(shown, aims)])
    nothing = [{} for _ in range(n)]
    lines = ["="] + [line(a, groups[a], goals[a]) for a in names]
    if any(rest):
        lines.append(line("<unbudgeted>", rest, nothing))
    if not o.no_total:
        total = lambda rows: [reckon.sum_of(cells[k] for cells in rows.values()) for k in range(n)]
        lines += ["-", line("", total(actual), total(goals))]
    return reckon.table(job, "Budget performance in " + reckon.span_title(job) + ":", reckon.heads_of(job), lines)
