#!/usr/bin/env python3
"""The second computation of the program `calls`: the same cases, worked out from document 01 and 02's 3/13, 5/13, 6/13 and
8/13.

Nothing here is taken from the product's definitions or code but the order of a state's fields, in which the digest reads them,
the letters on a line, and three points that document 01 leaves free: a refused set-up hands back the table's fresh state (of an
unknown kind with b = 0), a refused admission gives 0 everywhere, and slots that are not in use keep what they held.

usage: expected.py > crates/calls/stdout      (expected.py runs: the cases of runs.rt.txt)
"""
import copy
import sys

LIMIT = 60_000
WAITING = 24  # 6/13; the 64 of document 01 is among the cases
LAST_CLOCK = 4_000_000_000
LAST_NR = 4_000_060_000
TOP = 4_294_967_295


# ---- the states that the cases start from: fields in the order of the structs
def base(kind):
    rows = [[1, 10, 3, 8] for _ in range(16)]
    rows[1] = [0, 20, 4, 20]
    server = [0, 2, 0, 0] if kind == 0 else [kind, 1, 10, 4]
    left = [0] * 16
    left[:3] = [2, 4, 60001]
    requests = [[6, 5, 50] for _ in range(WAITING)]
    requests[:3] = [[7, 2, 90], [8, 60000, 100], [7, 1, 95]]
    stretches = [[99, 9] for _ in range(32)]
    stretches[:2] = [[92, 2], [96, 1]]
    return dict(rows=rows, n=2, server=server, left=left, b={0: 0, 4: 1}.get(kind, 3), held=2, stretches=stretches, tr=90, begin=95, nr=0,
                served=0, late=0, above=0, busy=1, clock=100, waiting=3, figure=60003, requests=requests)


LETTERS = dict(phase="f", period="p", exec="e", deadline="D", rows="n", kind="k", place="s", P="P", B="B", left="l", b="b", tr="t",
               begin="g", nr="r", clock="c", id="i", work="w", arrival="a", waiting="q", figure="F", start="S", length="L", held="h")


def label(field, value):
    name, *at = field.split()
    return f" {LETTERS[name]} {at[0] if at else 0} = {value}"


def put(s, field, value):
    name, *at = field.split()
    columns = dict(phase=0, period=1, exec=2, deadline=3)
    places = dict(kind=0, place=1, P=2, B=3)
    parts = dict(id=0, work=1, arrival=2)
    ends = dict(start=0, length=1)
    if name in columns:
        s["rows"][int(at[0])][columns[name]] = value
    elif name in places:
        s["server"][places[name]] = value
    elif name in parts:
        s["requests"][int(at[0])][parts[name]] = value
    elif name in ends:
        s["stretches"][int(at[0])][ends[name]] = value
    elif name == "left":
        s["left"][int(at[0])] = value
    else:
        s[dict(rows="n").get(name, name)] = value
    if name in ("waiting", "work"):
        s["figure"] = work_waiting(s)


def work_waiting(s):
    return sum(work for _, work, _ in s["requests"][:s["waiting"]])


def digest(numbers):
    h = 0
    for x in numbers:
        h = (h * 31 + x) % 1000003
    return h


def of(s):
    flat = [x for row in s["rows"] for x in row] + [s["n"]] + s["server"] + s["left"]
    flat += [s[k] for k in ("b", "tr", "begin", "nr", "served", "late", "above", "busy", "clock")]
    flat += [s["waiting"], s["figure"]] + [x for r in s["requests"] for x in r]
    flat += [s["held"]] + [x for u in s["stretches"] for x in u]
    return digest(flat)


# ---- the refusals
def table_refusal(s):
    n = s["n"]
    if n == 0 or n > 16:
        return 1, None
    for i in range(n):
        f, p, e, d = s["rows"][i]
        if not (1 <= e <= d <= p <= LIMIT and f <= LIMIT):
            return 2, i
    kind, place, period, budget = s["server"]
    if kind in (1, 2, 3, 4):
        good = place <= n and 1 <= budget <= period <= LIMIT
    elif kind == 0:
        good = place == n and period == 0 and budget == 0
    else:
        good = False
    return (0, None) if good else (3, None)


def returns_unfit(s):
    """3/13, of kind 4: the held ticks as a list, looked at one by one."""
    if s["held"] > 32:
        return True
    inside = range(s["clock"] - s["server"][2], s["clock"])
    last, count = None, 0
    for start, length in s["stretches"][:s["held"]]:
        if length == 0 or start not in inside or start + length - 1 not in inside:
            return True
        if last is not None and start <= last + 1:
            return True
        last, count = start + length - 1, count + length
    return count + s["b"] != s["server"][3]


def unfit(s):
    if table_refusal(s)[0]:
        return True
    if s["server"][0] == 4 and returns_unfit(s):
        return True
    if any(s["left"][i] > s["rows"][i][2] for i in range(s["n"])):
        return True
    if s["waiting"] > WAITING:
        return True
    queue = s["requests"][:s["waiting"]]
    if any(not 1 <= work <= LIMIT for _, work, _ in queue):
        return True
    if s["figure"] != work_waiting(s):                    # 8/13
        return True
    if s["b"] > s["server"][3] or s["clock"] > LAST_CLOCK:
        return True
    if any(arrival > s["clock"] for _, _, arrival in queue):
        return True
    return s["tr"] > s["clock"] or s["begin"] > s["clock"] or s["nr"] > LAST_NR


# ---- set-up and admission
def fresh(s):
    f = copy.deepcopy(s)
    f["left"] = [0] * 16
    f["b"] = s["server"][3] if s["server"][0] in (1, 2, 3, 4) else 0
    for k in ("tr", "begin", "nr", "served", "late", "above", "busy", "clock", "waiting", "figure", "held"):
        f[k] = 0
    f["requests"] = [[0, 0, 0] for _ in range(WAITING)]
    f["stretches"] = [[0, 0] for _ in range(32)]
    return f


def ceil(a, b):
    return -(-a // b)


def least(demand, limit):
    for length in range(1, limit + 1):
        if demand(length) <= length:
            return length
    return 0


def admission(s):
    if table_refusal(s)[0]:
        return 0, 0, [0] * 16
    kind, place, period, budget = s["server"]
    rows = s["rows"][:s["n"]]

    def before(i, length):
        return sum(ceil(length, p) * e for _, p, e, _ in rows[:i])

    def of_server(length):
        if kind == 0:
            return 0
        if kind == 2:
            return budget + ceil(max(length - budget, 0), period) * budget
        return ceil(length, period) * budget

    bounds = []
    for i, (_, _, e, d) in enumerate(rows):
        below = i >= place
        bounds.append(least(lambda length: e + before(i, length) + (of_server(length) if below else 0), d))
    own = least(lambda length: budget + before(place, length), period) if kind else 0
    admitted = all(bounds) and (kind == 0 or own > 0)
    return int(admitted), own, bounds + [0] * (16 - len(bounds))


# ---- kind 4's held ticks: the first `held` slots are in use; one that falls free keeps what it held
def came_back(s, tick):
    """1, with the tick gone, if the oldest held tick is this one; else 0."""
    first = s["stretches"][0]
    if s["held"] == 0 or first[0] != tick:
        return 0
    if first[1] > 1:
        s["stretches"][0] = [tick + 1, first[1] - 1]
    else:
        count = s["held"]
        s["stretches"][:count - 1] = copy.deepcopy(s["stretches"][1:count])
        s["held"] = count - 1
    return 1


def goes_on(s, t):
    return s["held"] > 0 and sum(s["stretches"][s["held"] - 1]) == t


def may_hold(s, t):
    return s["held"] < 32 or goes_on(s, t)


def hold(s, t):
    if goes_on(s, t):
        s["stretches"][s["held"] - 1][1] += 1
    else:
        s["stretches"][s["held"]] = [t, 1]
        s["held"] += 1


# ---- one tick, steps 1 to 6
def tick(s):
    """None and a refusal's number, or the answer, with the state after it."""
    if unfit(s):
        return 11, None, s
    if s["clock"] + 1 > LAST_CLOCK:
        return 6, None, s
    s = copy.deepcopy(s)
    t, n, left = s["clock"], s["n"], s["left"]
    kind, place, period, budget = s["server"]
    drops = 0
    for i in range(n):                                    # step 1
        f, p, e, d = s["rows"][i]
        if left[i] > 0 and t >= f + d and (t - d - f) % p == 0:
            left[i] = 0
            drops += 1
    for i in range(n):                                    # step 2
        f, p, e, d = s["rows"][i]
        if t >= f and (t - f) % p == 0:
            left[i] = e
    above = any(left[i] for i in range(place))
    busy = any(left[i] for i in range(n))
    if kind in (1, 2):                                    # step 3
        if t % period == 0:
            s["b"] = budget
    elif kind == 3:
        if above and not s["above"]:
            s["begin"] = t
        if (s["served"] and s["nr"] == t and not s["late"]) or (s["late"] and s["b"] == 0) or (busy and t > 0 and not s["busy"]):
            s["b"], s["tr"] = budget, t
            s["served"] = s["nr"] = s["late"] = 0
    elif kind == 4:
        s["b"] += came_back(s, t - period)
    waiting = s["waiting"] > 0                            # step 4
    row = next((i for i in range(n) if left[i]), None)
    if row is not None and row < place:
        who = "row"
    elif waiting and s["b"] > 0 and (kind != 4 or may_hold(s, t)):
        who = "budget"
    elif row is not None:
        who = "row"
    elif waiting:                                         # 5/13: no service, whatever the kind
        who = "spare"
    else:
        who = "idle"
    finished = None                                       # step 5
    if who == "row":
        left[row] -= 1
        occupant = f"row {row}"
    elif who == "idle":
        occupant = "idle"
    else:
        head = s["requests"][0]
        occupant = f"request {head[0]}"
        head[1] -= 1
        s["figure"] -= 1
        if head[1] == 0:
            finished = (head[0], t + 1 - head[2])
            count = s["waiting"]
            s["requests"][:count - 1] = copy.deepcopy(s["requests"][1:count])
            s["waiting"] = count - 1
            # the slot that falls free keeps the request that it held; a lone head stays there as it came
            if count == 1:
                head[1] += 1
    if kind in (1, 2, 4) and who == "budget":
        s["b"] -= 1
    if kind == 4 and who == "budget":
        hold(s, t)
    if kind == 1:
        if not above and not waiting:
            s["b"] = 0
        if who == "budget" and s["waiting"] == 0:
            s["b"] = 0
    if kind == 3:
        if who == "budget":
            if not s["served"]:
                te = max(s["tr"], s["begin"]) if s["above"] else t
                if te + period == t:
                    s["tr"] = te = t
                s["nr"] = te + period
                s["late"] = int(s["nr"] < t)
                s["served"] = 1
            s["b"] -= 1
        elif not above and s["served"] and s["b"] > 0:
            s["b"] -= 1
        s["above"], s["busy"] = int(above), int(busy)
    s["clock"] = t + 1                                    # step 6
    return 0, (occupant, drops, finished), s


def request(s, ident, work):
    if unfit(s):
        return 11, s
    if work < 1 or work > LIMIT:
        return 4, s
    if s["waiting"] >= WAITING:
        return 5, s
    s = copy.deepcopy(s)
    s["requests"][s["waiting"]] = [ident, work, s["clock"]]
    s["waiting"] += 1
    s["figure"] += work
    return 0, s


def waiting(s):
    return (11, 0) if unfit(s) else (0, s["figure"])


def run(s, k, entries):
    if unfit(s):
        return 11, s, entries
    if s["clock"] + k > LAST_CLOCK:
        return 6, s, entries
    if len(entries) < k:
        return 10, s, entries
    written = []
    for _ in range(k):
        _, (occupant, drops, _), s = tick(s)
        kind, *which = occupant.split()
        written.append([dict(idle=0, row=1, request=2)[kind], int(which[0]) if which else 0, drops])
    return 0, s, written + entries[k:]


# ---- a line for a case
def answer(number, index):
    return f"{number} at {index}" if number == 2 else f"{number}"


def state_calls(s):
    number, ran, after = tick(s)
    text = f" fit {int(not unfit(s))} state {of(s)}; tick {number}"
    if ran:
        occupant, drops, finished = ran
        text += f" {occupant} drops {drops}"
        if finished:
            text += f" finished {finished[0]} response {finished[1]}"
    text += f" state {of(after)}"
    number, after = request(s, 5, 1)
    text += f"; request {number} state {of(after)}"
    for k in (0, 32, 33):
        number, after, entries = run(s, k, [[0, 0, 0]] * 32)
        text += f"; run {number} state {of(after)} entries {digest([x for entry in entries for x in entry])}"
    number, work = waiting(s)
    return text + f"; waiting {number} work {work}"


def table_calls(s):
    check = answer(*table_refusal(s))
    admitted, own, bounds = admission(s)
    return (f"; check {check}; set-up {check} state {of(fresh(s))}"
            f"; admission {check} admitted {admitted} server {own} bounds {digest(bounds)}")


def case(kind, edits, with_table):
    s = base(kind)
    head = f"server {kind}"
    for field, value in edits:
        put(s, field, value)
        head += label(field, value)
    print(head + ":" + state_calls(s) + (table_calls(s) if with_table else ""))


TABLE = [
    ("phase 0", [0, 60000, 60001, TOP]), ("period 0", [0, 7, 8, 60000, 60001]), ("exec 0", [0, 1, 2, 8, 9]),
    ("deadline 0", [0, 2, 3, 10, 11]),
    ("phase 1", [60000, 60001]), ("exec 1", [0, 4, 20, 21]), ("deadline 1", [3, 4, 20, 21]), ("exec 2", [0, 9]),
    ("rows", [0, 1, 2, 3, 16, 17, TOP]), ("kind", [0, 1, 2, 3, 4, 5, TOP]), ("place", [0, 1, 2, 3]),
    ("P", [0, 3, 4, 60000, 60001]), ("B", [0, 1, 2, 3, 10, 11]),
]
TABLE_ORDERS = [
    (("rows", 0), ("exec 0", 0)), (("rows", 17), ("kind", 5)), (("exec 1", 0), ("kind", 5)),
    (("exec 1", 0), ("phase 0", 60001)), (("rows", 3), ("exec 2", 0)), (("rows", 16), ("exec 15", 9)),
]
STATE = [
    ("left 0", [0, 3, 4]), ("left 1", [0, 4, 5, TOP]), ("left 2", [0, TOP]),
    ("clock", [99, 100, 3999999999, 4000000000]), ("clock", [4000000001, TOP]),
    ("b", [0, 1, 4, 5]), ("tr", [0, 100, 101]), ("begin", [0, 100, 101]), ("nr", [100, 4000060000, 4000060001]),
    ("waiting", [0, 1, 23, 24, 25, 64, TOP]), ("work 0", [0, 1, 60000, 60001]), ("work 2", [0, 60000, 60001]),
    ("work 3", [0, 60001]),
    ("arrival 0", [0, 100, 101]), ("arrival 2", [100, 101]), ("arrival 3", [101]), ("id 0", [0, TOP]),
]
FIGURES = [0, 1, 60002, 60003, 60004, 60108, 125539, 2147543651, TOP]
FIGURE_ORDERS = [
    (("waiting", 0), ("figure", 1)), (("waiting", 2), ("figure", 60003)), (("waiting", 4), ("figure", 60003)),
    (("work 0", 3), ("figure", 60003)), (("work 3", 6), ("figure", 60003)),
]
RETURNS = [
    ("held", [0, 1, 3, 32, 33, TOP]), ("start 0", [89, 90, 93, 94, 95, 97]), ("start 1", [94, 95, 99, 100, TOP]),
    ("length 0", [0, 1, 3]), ("length 1", [0, 2, TOP]), ("length 2", [0]),
]
RETURNS_ORDERS = [
    (("b", 0), ("length 0", 3)), (("b", 2), ("length 1", 0)), (("b", 2), ("held", 1)), (("b", 4), ("held", 0)),
    (("clock", 97), ("P", 5)), (("clock", 97), ("P", 4)),
]
STATE_ORDERS = [
    (("clock", 4000000000), ("left 0", 4)), (("clock", 4000000000), ("waiting", 24)),
    (("clock", 4000000000), ("tr", 4000000000)), (("clock", 4000000000), ("tr", 4000000001)),
    (("clock", 3999999999), ("b", 0)),
]
REQUESTS = [(0, [0, 1, 60000, 60001, TOP]), (23, [0, 1, 60000, 60001]), (24, [0, 1, 60000, 60001]), (25, [0, 1]), (64, [0, 1])]


def main():
    for kind in range(5):
        for field, values in TABLE:
            for value in values:
                case(kind, [(field, value)], True)
        for pair in TABLE_ORDERS:
            case(kind, pair, True)
        for field, values in STATE:
            for value in values:
                case(kind, [(field, value)], False)
        for value in FIGURES:
            case(kind, [("figure", value)], False)
        for pair in FIGURE_ORDERS:
            case(kind, pair, True)
        for field, values in RETURNS:
            for value in values:
                case(kind, [(field, value)], False)
        for pair in RETURNS_ORDERS + STATE_ORDERS:
            case(kind, pair, True)
        for count, works in REQUESTS:
            for work in works:
                s = base(kind)
                put(s, "waiting", count)
                number, after = request(s, TOP, work)
                print(f"server {kind}{label('waiting', count)} work {work}: request {number} state {of(after)}")


RUNS = [
    ("clock", 100, 0, 0), ("clock", 100, 0, 3), ("clock", 100, 1, 0), ("clock", 100, 3, 3), ("clock", 100, 3, 8),
    ("clock", 100, 4, 3), ("clock", 100, 8, 8), ("clock", 100, 3999999900, 8), ("clock", 100, 3999999901, 8),
    ("clock", 100, TOP, 8),
    ("clock", 3999999997, 3, 3), ("clock", 3999999997, 4, 4), ("clock", 3999999997, 4, 3),
    ("clock", 4000000000, 0, 0), ("clock", 4000000000, 1, 1), ("clock", 4000000001, 0, 0),
    ("left 0", 4, 0, 0), ("left 0", 4, 4, 3), ("waiting", 25, TOP, 0),
    ("waiting", 24, 8, 8), ("waiting", 0, 8, 8), ("work 0", 1, 8, 8),
]


def runs():
    for kind in range(5):
        for field, value, k, lent in RUNS:
            s = base(kind)
            put(s, field, value)
            number, after, entries = run(s, k, [[9, 9, 9]] * lent)
            shown = "".join(f" {a},{b},{c}" for a, b, c in entries + [[9, 9, 9]] * (8 - lent))
            print(f"server {kind}{label(field, value)} k {k} lent {lent}: run {number} state {of(after)};{shown}")


runs() if sys.argv[1:] == ["runs"] else main()
