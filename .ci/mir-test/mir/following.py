"""From which parameters of a function a number can come, followed through its body and through what it calls."""
from .functions import PROGRAMS, Breach, Function, Term, items

Value = frozenset[int]
State = dict[int, Value] | None

# In a value, what comes from no parameter, and the slice that has no number.
OTHER, EMPTY = 0, -1
UNKNOWN: Value = frozenset({OTHER})


def join(*states: State) -> State:
    """What holds where one of the states does."""
    reached = [state for state in states if state is not None]
    if not reached:
        return None
    return {n: frozenset().union(*(state.get(n, ()) for state in reached)) for n in set().union(*reached)}


class Trace:
    """Follows the parameters of a function through its body. A value is the set of those that it can come from: a
    number that is the parameter or is read from its slice, a part of the slice, or a pointer into it."""

    def __init__(self, program: "Program", function: Function) -> None:
        self.program, self.function = program, function
        self.calls: dict[int, tuple[str, list[Value]]] = {}
        self.pairs: dict[int, tuple[Value, Value]] = {}
        self.answer: Value = frozenset()
        self.exits: list[list[State]] = []
        given = {n: frozenset({n if function.gives(n) else OTHER}) for n in range(1, function.count + 1)}
        self.run(function.body, given)

    def run(self, term: Term, state: State) -> State:
        """The state after a statement, or nothing where it goes elsewhere."""
        if state is None:
            return None
        match term:
            case "skip":
                return state
            case "return":
                self.answer |= state.get(0, frozenset())
                return None
            case ["seq", first, rest]:
                return self.run(rest, self.run(first, state))
            case ["assign", target, source]:
                return self.store(target, self.source(source, int(target[1]), state), state)
            case ["call", ["direct", ["fnRef", name]], handed, target]:
                values = [self.operand(one, state) for one in items(handed)]
                return self.store(target, self.call(term, name, values), state)
            case ["if", _, yes, no]:
                return join(self.run(yes, state), self.run(no, state))
            case ["switch", _, ["arm", _, arm, rest]]:
                return join(self.run(arm, state), self.run(["switch", "", rest], state))
            case ["switch", _, ["default", arm]]:
                return self.run(arm, state)
            case ["switch", _, "noDefault"]:
                return None
            case ["exit", depth]:
                self.exits[-1 - int(depth)].append(state)
                return None
            case ["block", body]:
                self.exits.append([])
                return join(self.run(body, state), *self.exits.pop())
            case ["loop", body]:
                return self.loop(body, state)
        raise Breach(f"{self.function.name}: has a statement that cannot be followed, {term[0]}")

    def loop(self, body: Term, state: State) -> State:
        """Runs the body until nothing is added. What leaves it may as well begin it again."""
        while True:
            self.exits.append([])
            after = self.run(body, state)
            left = self.exits.pop()
            again = join(state, after, *left)
            if again == state:
                return join(*left)
            state = again

    def store(self, target: Term, value: Value, state: State) -> State:
        """A part of a local that is written leaves nothing known of it. What lies beyond a pointer is no local."""
        parts = items(target[2])
        if any(part[0] == "deref" for part in parts):
            return state
        return {**state, int(target[1]): UNKNOWN if parts else value}

    def source(self, term: Term, target: int, state: State) -> Value:
        match term:
            case ["rvOpd", operand] | ["op1", ["cast", *_], operand] | ["op2", "offset", operand, _]:
                return self.operand(operand, state)
            case ["aggregate", parts] if self.function.is_slice(target):
                pointer, length = items(parts)
                return frozenset({EMPTY}) if length == ["int", "64", "0"] else self.operand(pointer, state)
            case ["addrOf", ["place", number, steps]] if items(steps) and items(steps)[-1][0] == "deref":
                return self.place(int(number), items(steps)[:-1], state)
            case ["op2", _, one, other]:
                self.pairs[id(term)] = self.operand(one, state), self.operand(other, state)
        return UNKNOWN

    def operand(self, term: Term, state: State) -> Value:
        match term:
            case ["copy", ["place", number, steps]]:
                return self.place(int(number), items(steps), state)
        return UNKNOWN

    def place(self, number: int, steps: list[Term], state: State) -> Value:
        """A local, the pointer of a slice, or a number that one points to. A local that has an address is unknown."""
        if self.function.is_slice(number) and steps[:1] == [["field", "0"]]:
            steps = steps[1:]
        followed = not steps or [step[0] for step in steps] == ["deref"] and steps[0][1][0] == "tyInt"
        without_address = self.function.locals[number][2] == "valueLocal"
        return state.get(number, frozenset()) if followed and without_address else UNKNOWN

    def call(self, term: Term, name: str, values: list[Value]) -> Value:
        """Notes what a call is handed. Its answer comes from what is handed for those that the callee's comes from."""
        if name not in self.program.functions and self.function.crate not in PROGRAMS:
            raise Breach(f"{self.function.name}: calls {name}, which is not in the sources")
        _, before = self.calls.get(id(term), (name, [frozenset()] * len(values)))
        self.calls[id(term)] = name, [a | b for a, b in zip(before, values, strict=True)]
        given = dict(enumerate(values, 1))
        return frozenset().union(*(given.get(n, {n}) for n in self.program.answer(name)))


class Program:
    """The functions of the sources."""

    def __init__(self, functions: dict[str, Function]) -> None:
        self.functions = functions
        self.traces: dict[str, Trace | None] = {}

    def trace(self, name: str) -> Trace | None:
        """The trace of a function, or nothing while it is at work on it."""
        if name not in self.traces:
            self.traces[name] = None
            self.traces[name] = Trace(self, self.functions[name])
        return self.traces[name]

    def answer(self, name: str) -> Value:
        trace = self.trace(name) if name in self.functions else None
        return trace.answer if trace else UNKNOWN
