"""Random journals and command lines in forms that reckon.py and hledger 1.25 both read alike."""
import random
from datetime import date, timedelta

ACCOUNTS = ["assets:bank", "assets:bank:trip", "assets:purse", "assets", "liabilities:card", "liabilities:loan:car", "income:pay",
            "income", "expenses:food", "expenses:food:café", "expenses:食:魚", "expenses:rent", "equity:start", "plan:a", "plan"]
WORDS = ["bread", "shop | weekly", "市場", "pay day", "Öl", "a long description that has to be cut somewhere"]
MARKS = 0.2     # how often a mark of an option is asked for
SYMBOLS = ["EUR", "$", "ACME"]

def day(rng):
    return date(2024, 1, 1) + timedelta(days=rng.randrange(0, 150))

def written(n, symbol):
    """n hundredths of a symbol, or n pieces."""
    sign, size = ("-" if n < 0 else ""), abs(n)
    if symbol == "EUR":
        return "%s%d.%02d EUR" % (sign, size // 100, size % 100)
    if symbol == "$":
        return "$%s%d.%02d" % (sign, size // 100, size % 100)
    return "%d ACME" % n

def number(rng):
    return 0 if rng.random() < 0.05 else rng.choice([1, -1]) * rng.randrange(1, 3000) * 2

def amount(rng, symbol):
    return written(number(rng), symbol)

def journal(rng):
    lines = ["commodity 1,000.00 EUR", "commodity $1000.00", "commodity 1. ACME", "P 2024-01-01 $ 0.50 EUR"]
    for _ in range(rng.randrange(0, 4)):
        lines.append("P %s %s" % (day(rng), rng.choice(["$ 1.50 EUR", "$ 2.00 EUR", "ACME 10.50 EUR", "ACME 12.00 EUR", "ACME 9.00 EUR"])))
    if rng.random() < 0.3:
        lines.append("account plan  ; type:%s" % rng.choice("ALXR"))
    lines.append("")
    for _ in range(rng.randrange(3, 14)):
        d = day(rng)
        mark = rng.choice(["", "", "* ", "! "])
        code = rng.choice(["", "", "(c%d) " % rng.randrange(9)])
        comment = rng.choice(["", "", "  ; trip:rome, x:y", "  ; kind:%s" % rng.choice("ab")])
        lines.append("%s %s%s%s%s" % (d, mark, code, rng.choice(WORDS), comment))
        symbols = rng.sample(SYMBOLS, rng.choice([1, 1, 1, 2]))
        kind = rng.random()
        if kind < 0.12:
            lines.append("    %s  %d ACME @ $%d.00" % (rng.choice(ACCOUNTS), rng.randrange(1, 9), rng.randrange(5, 20)))
        elif kind < 0.2:
            lines.append("    %s  %d ACME @@ %d.00 EUR" % (rng.choice(ACCOUNTS), rng.choice([1, -1]) * rng.randrange(1, 9), rng.randrange(5, 20)))
        else:
            for s in symbols:
                total = 0
                for _ in range(rng.randrange(1, 3)):
                    n = number(rng)
                    own = "  ; date:%s" % (d + timedelta(days=rng.randrange(-20, 40))) if rng.random() < 0.15 else rng.choice(["", "", "  ; kind:c"])
                    lines.append("    %s%s  %s%s" % (rng.choice(["", "", "", "! ", "* "]), rng.choice(ACCOUNTS), written(n, s), own))
                    total += n
                # one symbol alone is left to the missing amount: hledger keeps one posting for all of them
                if s != symbols[-1]:
                    lines.append("    %s  %s" % (rng.choice(ACCOUNTS), written(-total, s)))
        lines.append("    %s" % rng.choice(ACCOUNTS))
        if rng.random() < 0.15:
            lines.append("    (%s)  %s" % (rng.choice(ACCOUNTS), amount(rng, rng.choice(SYMBOLS))))
        if rng.random() < 0.1:
            lines.append("    [%s]  %s" % (rng.choice(ACCOUNTS), amount(rng, "EUR")))
            lines.append("    [%s]" % rng.choice(ACCOUNTS))
        lines.append("")
    return "\n".join(lines)

def bounds(rng):
    a, b = sorted([day(rng), day(rng)])
    b = b + timedelta(days=1)
    return rng.choice([[], [], ["-b", str(a)], ["-e", str(b)], ["-b", str(a), "-e", str(b)], ["-p", "2024-%02d" % rng.randrange(1, 6)],
                       ["-p", "from %s to %s" % (a, b)]])

def terms(rng):
    one = lambda: rng.choice(["food", "bank", "^assets", "income", "expenses:", "a$", "not:card", "not:food", "desc:bread", "desc:市", "note:weekly",
                              "code:c3", "cur:EUR", "cur:\\$", "cur:ACME", "amt:>20", "amt:<0", "amt:>=+10", "real:1", "real:0", "status:*",
                              "status:!", "status:", "not:desc:day", "tag:trip", "tag:kind=a", "tag:kind", "type:A", "type:LX", "type:R",
                              "depth:1", "depth:2", "not:tag:trip", "not:cur:EUR"])
    return [one() for _ in range(rng.choice([0, 0, 1, 1, 2]))]

def words(rng):
    command = rng.choice(["balance", "balance", "balance", "is", "bs", "register", "register", "accounts", "print"])
    out = bounds(rng)
    columns = command in ("balance", "is", "bs")
    maybe = lambda p, *options: out.extend(rng.choice(options)) if rng.random() < p else None
    if columns:
        maybe(0.55, ["-M"], ["-Q"], ["-W"], ["-D"], ["-Y"], ["-p", "every 2 months"] if "-p" not in out else ["-M"])
        maybe(0.25, ["-t"], ["-l"], ["--tree"])
        maybe(0.15, ["-N"]); maybe(0.2, ["-E"])
        maybe(0.0 if {"-t", "--tree"} & set(out) else 0.15, ["-S"])
    ending = command == "bs"
    if command == "balance":
        if rng.random() < 0.4:
            out += rng.choice([["-H"], ["--cumulative"], ["--change"]])
            ending = out[-1] != "--change"
    if columns and not ending:
        maybe(0.3, ["-T"], ["-A"], ["-T", "-A"])
    if command == "register":
        maybe(0.4, ["-H"])
    if command in ("balance", "is", "bs", "register"):
        maybe(0.45, ["-B"], ["-V"], ["-X", "EUR"], ["--value=cost"], ["--value=then,EUR"], ["--value=end"], ["--value=now"], ["--value=2024-03-01"],
              ["--value=2024-03-01,EUR"], ["-B", "-X", "EUR"], ["--value=then"])
    if command != "print":
        maybe(0.2, ["--depth=1"], ["--depth=2"])
    maybe(MARKS, ["-U"], ["-P"], ["-C"], ["-R"], ["-C", "-P"])
    query = terms(rng)
    # what hledger is known to mean otherwise (docs/hledger.md): marks of both kinds, amounts beside a value, depth and real:0 of print
    if {"-U", "-P", "-C"} & set(out):
        query = [t for t in query if not t.startswith("status:")]
    if {"-V", "-X"} & set(out) or any(w.startswith("--value") for w in out):
        query = [t for t in query if "cur:" not in t and not t.startswith("amt:")]
    if command == "print":
        query = [t for t in query if not t.startswith(("depth:", "real:0"))]
    return [command] + out + query
