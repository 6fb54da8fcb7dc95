"""Reads a plan by the rules of documents 01 and 02, and tells in words why one is refused.

    plan.read(data)      a Plan, or raises Refused: the two numbers of `schedule`'s Z line, and words that name line, field and limit

The checks come in document 01's order: 7, then line by line 8, 9, 4, then 1, 2, 3. The words write figures as a plan does, without commas.
"""
import re
from typing import NamedTuple

MOST_BYTES = 65_536
MOST_TASKS = 16
MOST = 60_000  # of a phase, period, execution, deadline, budget or work
MOST_TICKS = 1_000_000
MOST_DIGITS = 10
MOST_NUMBER = 4_294_967_295
KINDS = ["background", "polling", "deferrable", "sporadic", "returning"]

PADDED = re.compile(rb",0+(?=[0-9])")  # a comma and leading zeros
SHOWN = 40  # characters of a plan's text that the words show


class Task(NamedTuple):
    phase: int
    period: int
    execution: int
    deadline: int


class Server(NamedTuple):
    kind: int
    place: int
    period: int
    budget: int


class Arrival(NamedTuple):
    tick: int
    id: int
    work: int


class Run(NamedTuple):
    ticks: int


class Plan(NamedTuple):
    tasks: list
    server: Server
    arrivals: list
    ticks: int


class Line(NamedTuple):
    number: int
    text: bytes
    letter: str
    values: tuple


class Refused(Exception):
    """A plan is refused: the Z line's number and line, and why."""

    def __init__(self, number, line, words):
        super().__init__(words)
        self.number, self.line, self.words = number, line, words


# Each letter with its fields.
FORMS = {"T": Task, "S": Server, "A": Arrival, "R": Run}
ORDER = "a plan has T lines, then one S line, then A lines if any, then one R line"

# Where 8 has a lower limit than MOST_NUMBER.
LARGEST = {"ticks": MOST_TICKS}

# Field, least, most. A limit is a number, or the name of the field or count that gives it.
TASKS = "number of rows"
TASK_LIMITS = [("phase", 0, MOST), ("period", 1, MOST), ("execution", 1, "deadline"), ("deadline", 1, "period")]
ARRIVAL_LIMITS = [("work", 1, MOST)]
KIND_LIMITS = [("kind", 0, len(KINDS) - 1)]
BACKGROUND_LIMITS = [("place", TASKS, TASKS), ("period", 0, 0), ("budget", 0, 0)]
BUDGET_LIMITS = [("place", 0, TASKS), ("period", 1, MOST), ("budget", 1, "period")]

HEADING = re.compile(rb"[A-Za-z]{3,}")

# What a file that is no plain text starts with, and what to do.
STARTS = {
    b"\xef\xbb\xbf": "the plan starts with a byte order mark (UTF-8); save it as plain ASCII text without one",
    b"\xff\xfe": "the plan starts with a byte order mark (UTF-16); save it as plain ASCII text",
    b"\xfe\xff": "the plan starts with a byte order mark (UTF-16); save it as plain ASCII text",
    b"PK\x03\x04": "this is a spreadsheet's own file; save the sheet as text with commas (CSV)",
}

# What gets into plans and belongs in none: name, and what to do. The column told is that of the group.
BLANK = "take it out, or put a comma in its place if it parts two fields"
QUOTE = "take it out, since nothing is quoted"
ODD = [(re.compile(pattern), name, advice) for pattern, name, advice in [
    (rb"(\r)(?=[TSAR],)", "a carriage return", "lines end in a line feed: put one in the place of each carriage return"),
    (rb"(\r)", "a carriage return", "lines end in a line feed alone, so save the plan with Unix line ends, not with those of Windows"),
    (rb"(#)(?:REF|N/A|VALUE|DIV|NAME|NUM|NULL)", "a spreadsheet's error", "mend the cell that it comes from"),
    (rb"[ \t]*(#)", "a comment", "take it out, since a plan has no comments"),
    (rb"( )", "a blank", BLANK),
    (rb"(\t)", "a tab", BLANK),
    (rb"(\xc2?\xa0)", "a no-break blank", BLANK),
    (rb"(;)", "a semicolon", "fields are parted by commas"),
    (rb"([\"'])", "a quote", QUOTE),
    (rb"(\+)", "a sign", "take it out, since numbers are digits alone"),
    (rb"(-)", "a sign", "numbers are 0 or above, and digits alone"),
    (rb"(\.)", "a decimal point", "numbers are whole, without thousands separators"),
    (rb"(\0)", "a NUL byte", "the plan looks like UTF-16, so save it as plain ASCII text"),
    (rb"(\x1a)", "an end-of-file mark (Ctrl-Z)", "take it out"),
]]


def show(text):
    """A plan's bytes in quotes and on one line: odd ones escaped, and cut if they are many."""
    shown = [chr(byte).encode("unicode_escape").decode().replace('"', '\\"') for byte in text[:SHOWN]]
    while sum(map(len, shown)) > SHOWN:
        shown.pop()
    return f'"{"".join(shown)}"' + ("..." if len(shown) < len(text) else "")


def odd(text, at):
    """What stands there with its column, and what to do about it, if that is known."""
    for pattern, name, advice in ODD:
        if found := pattern.match(text, at):
            return f"{name} at column {found.start(1) + 1}", advice
    return f"{show(text[at:at + 1])} at column {at + 1}", None


# ---- What is wrong with a line's form (8), in words; None if nothing is.
def bad_line(number, text):
    return bad_letter(number, text) or bad_fields(text)


def bad_letter(number, text):
    """The line's letter, up to the comma after it."""
    for start, fault in STARTS.items():
        if number == 1 and text.startswith(start):
            return fault
    if not text:
        return "the line is empty; take it out"
    if found := HEADING.match(text):
        return f"the line starts with the word {show(found[0])}, as a heading does; take it out"
    letter = chr(text[0])
    if letter in FORMS:
        return bad_comma(letter, text)
    if letter.upper() in FORMS:
        return f"the letter {letter} is a small one; write {letter.upper()}"
    wanted = f"a line starts with one of the letters {', '.join(FORMS)}"
    if letter == ",":
        return f"no letter stands before the first comma; {wanted}"
    found, advice = odd(text, 0)
    return f"the line starts with {found}; {advice or wanted}"


def bad_comma(letter, text):
    if text[1:2] in (b"", b","):
        return None
    found, advice = odd(text, 1)
    return f"after the letter {letter} stands {found}, where a comma must stand" + (f"; {advice}" if advice else "")


def bad_fields(text):
    letter, *fields = text.split(b",")
    names = FORMS[letter.decode()]._fields
    return bad_character(text, names) or bad_count(text, fields, names) or next(filter(None, map(bad_number, names, fields)), None)


def bad_character(text, names):
    """The first character after the letter that is neither a digit nor a comma."""
    match = re.search(rb"[^0-9,]", text[1:])
    if not match:
        return None
    at = match.start() + 1
    field = text[:at].count(b",")
    name = names[field - 1] if field <= len(names) else f"field {field}"
    found, advice = odd(text, at)
    return f"{name} has {found}; {advice or 'numbers are digits alone'}"


def bad_count(text, fields, names):
    if len(fields) == len(names):
        return None
    side, hint = ("few", "") if len(fields) < len(names) else ("many", ", with no comma within a number or at the end")
    return f"too {side} fields, {len(fields)} instead of {len(names)}; the form is {chr(text[0])},{','.join(names)}{hint}"


def bad_number(name, field):
    most = LARGEST.get(name, MOST_NUMBER)
    if not field:
        return f"{name} is empty; write a number there"
    if len(field) > MOST_DIGITS:
        zeros = ", leading zeros included," if field.startswith(b"0") else ","
        return f"{name} {show(field)} has {len(field)} digits{zeros} and a number has at most {MOST_DIGITS}"
    if int(field) > most:
        return f"{name} {int(field)} is above {most}, the largest allowed"
    return None


# ---- What is wrong with a line of good form, in words; None if nothing is.
def misplaced(line, lines):
    """Its place after the lines before it, which are given by letter (9)."""
    letter, server, end = line.letter, lines["S"], lines["R"]
    if end:
        return f"it stands after the R line (line {end[0].number}), which must be the last; move it up or take it out"
    if server and letter == "S":
        return f"a second S line (the first is line {server[0].number}); {ORDER}"
    if server and letter == "T":
        return f"a T line after the S line (line {server[0].number}); {ORDER}"
    if not server and letter in "AR":
        return f"an {letter} line before the S line; {ORDER}"
    return falling(line.values.tick, lines["A"][-1]) if letter == "A" and lines["A"] else None


def falling(tick, before):
    if tick >= before.values.tick:
        return None
    return f"tick {tick} is below tick {before.values.tick} of line {before.number}; put the A lines in the order of their ticks"


def broken(values, limits, owner):
    """The first of the limits that the values break (4, 2, 3)."""
    def size(limit):
        return values.get(limit, limit)

    def name(limit):
        return f"the {limit} {values[limit]}" if limit in values else limit

    for field, least, most in limits:
        value = values[field]
        if not size(least) <= value <= size(most):
            side, limit = ("below", least) if value < size(least) else ("above", most)
            rule = f"{field} = {most}" if least == most else f"{least} <= {field} <= {most}"
            unit = ", in ticks of 10 ms" if limit == MOST else ""
            return f"{field} {value} is {side} {name(limit)}; {owner} has {rule}{unit}"
    return None


def bad_work(line):
    return broken(line.values._asdict(), ARRIVAL_LIMITS, "a request") if line.letter == "A" else None


def bad_task(task):
    return broken(task._asdict(), TASK_LIMITS, "a row")


def bad_server(server, tasks):
    values = {**server._asdict(), TASKS: tasks}
    fault = broken(values, KIND_LIMITS, "a server")
    if fault:
        return f"{fault} ({', '.join(f'{kind} {name}' for kind, name in enumerate(KINDS))})"
    return broken(values, BUDGET_LIMITS if server.kind else BACKGROUND_LIMITS, f"{KINDS[server.kind]} service")


# ---- The plan, line by line and then as a whole.
def read_line(number, text):
    fault = bad_line(number, text)
    if fault:
        raise refused_line(8, number, text, fault)
    letter, *fields = text.decode().split(",")
    return Line(number, text, letter, FORMS[letter](*map(int, fields)))


def refused_line(number, line, text, fault):
    return Refused(number, line, f"line {line}, {show(text)}: {fault}")


def read_lines(data):
    """The plan's lines by letter."""
    lines = {letter: [] for letter in FORMS}
    *closed, rest = data.split(b"\n")
    for number, text in enumerate(closed, 1):
        add(read_line(number, text), lines)
    if rest:
        read_line(len(closed) + 1, rest)
        raise refused_line(8, len(closed) + 1, rest, "the last line is not closed by a line feed; press Enter at its end")
    if not lines["R"]:
        found = f"the plan ends after line {len(closed)} without an R line" if closed else "the plan is empty"
        raise Refused(9, len(closed) + 1, f"{found}; {ORDER}")
    return lines


def add(line, lines):
    for number, fault in (9, misplaced(line, lines)), (4, bad_work(line)):
        if fault:
            raise refused_line(number, line.number, line.text, fault)
    lines[line.letter].append(line)


def check_table(tasks, server):
    if not 1 <= len(tasks) <= MOST_TASKS:
        raise Refused(1, 0, f"the plan has {len(tasks) or 'no'} T lines; 1 to {MOST_TASKS} are allowed")
    parts = [(2, f"row {index}", line, bad_task(line.values)) for index, line in enumerate(tasks)]
    parts.append((3, "the server", server, bad_server(server.values, len(tasks))))
    for number, name, line, fault in parts:
        if fault:
            raise Refused(number, 0, f"{name} (line {line.number}, {show(line.text)}): {fault}")


def read(data):
    """The plan that these bytes hold."""
    if len(data) > MOST_BYTES:
        what = "leading zeros" if PADDED.search(data) else "A lines"
        raise Refused(7, 0, f"the plan has more than {MOST_BYTES} bytes; leave {what} out, or make two plans of it")
    lines = read_lines(data)
    [server], [run] = lines["S"], lines["R"]
    check_table(lines["T"], server)
    return Plan([line.values for line in lines["T"]], server.values, [line.values for line in lines["A"]], run.values.ticks)
