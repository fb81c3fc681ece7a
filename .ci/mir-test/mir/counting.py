"""Counting off: a number that a loop lowers or raises by another one, again and again."""
from .functions import Function, Term, each, items

# What lies beyond any pointer, as one of the spots between which numbers move.
MEMORY = -1
# From which spot a number moves, to which, and how it counts off on the way, if it does.
Move = tuple[int, int, str]


def spot(term: Term) -> int | None:
    """The local of an operand or of a place, or the memory; nothing for a constant."""
    if term[0] == "copy":
        term = term[1]
    if term[0] != "place":
        return None
    return MEMORY if any(step[0] == "deref" for step in items(term[2])) else int(term[1])


def changed(part: Term) -> set[int]:
    """The spots that a part of a body writes otherwise than by copies of what stays the same in it."""
    copies, found = [], {spot(call[3]) for call in each(part, "call")} | {MEMORY}
    for _, target, source in each(part, "assign"):
        if source[0] == "rvOpd":
            copies.append((spot(source[1]), spot(target)))
        else:
            found.add(spot(target))
    for _ in copies:
        found |= {to for start, to in copies if start in found}
    return found


def moves_in(part: Term) -> list[Move]:
    """How numbers move in a part of a body. A struct moves with each field, and an answer with all that is handed."""
    found, changing = [], changed(part)
    for _, target, source in each(part, "assign"):
        match source:
            case ["rvOpd", one] | ["op1", ["cast", *_], one]:
                found.append((spot(one), spot(target), ""))
            case ["aggregate", fields]:
                found += [(spot(one), spot(target), "") for one in items(fields)]
            case ["op2", ["sub", *_], one, by]:
                found.append((spot(one), spot(target), "" if spot(by) is None else "takes a number away"))
            case ["op2", ["add", *_], one, other]:
                for number, by in (one, other), (other, one):
                    same = spot(by) is not None and spot(by) not in changing
                    found.append((spot(number), spot(target), "adds the same number" if same else ""))
    for _, _, handed, target in each(part, "call"):
        found += [(spot(one), spot(target), "") for one in items(handed)]
    return [move for move in found if move[0] is not None]


def reaches(moves: list[Move], start: int, end: int) -> bool:
    """Can a number move from one spot to another?"""
    seen, waiting = {start}, [start]
    while waiting:
        at = waiting.pop()
        more = {to for origin, to, _ in moves if origin == at} - seen
        seen |= more
        waiting.extend(more)
    return end in seen


def counted_off(function: Function) -> set[str]:
    """Each way in which a loop changes a number again and again. A function that calls itself is a loop as a whole."""
    own = [items(call[2]) for call in each(function.body, "call") if call[1][1][1] == function.name]
    loops = [moves_in(loop) for loop in each(function.body, "loop")]
    if own:
        again = [(spot(one), n, "") for handed in own for n, one in enumerate(handed, 1)]
        loops.append(moves_in(function.body) + again)
    steps = {how for moves in loops for start, to, how in moves if how and reaches(moves, to, start)}
    return {f"{function.name}: {how} again and again" for how in steps}
