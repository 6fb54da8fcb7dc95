"""Which ticks a request has by the server's budget, by the rules of documents 01 and 02.

    budget.ticks(server, seen)      of each tick from 0 on, whether a request has it by the budget

server is that of a plan (plan.Server). seen has four marks of each tick, in this order: a row above the server is open, a row below it is
open, a request waits at step 4, one waits after the tick. A request that has another tick has it because the tick would be idle: "Such a
tick takes no budget, doesn't count as service and sets no sporadic or kind 4 mark" (5/13).
"""
from collections import deque

MOST_STRETCHES = 32

# A run begins with "a fresh state of kinds 1 to 3 has b = B, of kind 0 it has b = 0; its clock, times and marks are 0" (01), and under kind 4
# "b starts at B" (3/13). Kinds 1 to 4 share a sentence of step 4: "the first open row above; else the head request if the queue isn't empty
# and b > 0".


def background(_, seen):
    return (False for _ in seen)


def polling(server, seen):
    P, B = server.period, server.budget
    b = B
    for t, (above, _, waits, stays) in enumerate(seen):
        if t % P == 0:  # "if P divides t, the budget b becomes B"
            b = B
        by_budget = waits and not above and b > 0
        if by_budget:  # "b falls by 1 for a served tick", and "becomes 0 .. also if a served tick leaves the queue empty"
            b = b - 1 if stays else 0
        elif not above and not waits:  # "b becomes 0 if no row above is open in the tick and the queue was empty at step 4"
            b = 0
        yield by_budget


def deferrable(server, seen):
    P, B = server.period, server.budget
    b = B
    for t, (above, _, waits, _) in enumerate(seen):
        if t % P == 0:  # "if P divides t, the budget b becomes B"
            b = B
        by_budget = waits and not above and b > 0
        if by_budget:  # "b falls by 1 for a served tick"
            b -= 1
        yield by_budget


def sporadic(server, seen):
    P, B = server.period, server.budget
    b, tr, begin, served, nr, late = B, 0, 0, False, 0, False
    above_before = open_before = False  # "whether a row above, and any row, was open in the last tick"
    for t, (above, below, waits, _) in enumerate(seen):
        if above and not above_before:  # "begin becomes t if some row above is open and the mark says that none was"
            begin = t
        # "replenish if served and nr = t and not late; or if late and b = 0; or if some row is open now and t > 0 and no row at all was
        # open in tick t−1"
        if (served and nr == t and not late) or (late and b == 0) or ((above or below) and t > 0 and not open_before):
            b, tr, served, nr, late = B, t, False, 0, False  # "sets b = B, tr = t and clears served, nr and late to 0"
        by_budget = waits and not above and b > 0
        if by_budget and not served:  # "First service after tr, in tick t"
            te = max(tr, begin) if above_before else t  # "te = max(tr, begin) if a row above was open in tick t−1, else te = t"
            if te + P == t:  # "If te + P = t, then tr = te = t."
                tr = te = t
            nr = te + P  # "Then nr = te + P, and late holds if nr < t."
            served, late = True, nr < t
        # "b falls by 1 for a served tick"; "b also falls by 1, if above 0, in a tick in which no row above is open, the server doesn't run,
        # and it has served since tr"
        if by_budget or (b > 0 and not above and served):
            b -= 1
        above_before, open_before = above, above or below
        yield by_budget


def returning(server, seen):
    P, b = server.period, server.budget
    held = deque()  # "Returns are held as unbroken stretches of served ticks": the first tick, the one after the last
    for t, (above, _, waits, _) in enumerate(seen):
        if held and held[0][0] + P == t:  # "each served tick u gives one budget tick back at step 3 of tick u + P"
            b += 1
            held[0][0] += 1
            if held[0][0] == held[0][1]:
                held.popleft()
        goes_on = held and held[-1][1] == t
        # "With 32 held after step 3, the server isn't eligible for a tick that would open another."
        by_budget = waits and not above and b > 0 and (goes_on or len(held) < MOST_STRETCHES)
        if by_budget:  # b "falls only by service"
            b -= 1
            if goes_on:
                held[-1][1] += 1
            else:
                held.append([t, t + 1])
        yield by_budget


KINDS = [background, polling, deferrable, sporadic, returning]


def ticks(server, seen):
    return KINDS[server.kind](server, seen)
