"""Follows the addresses in a module: what depends on where memory is. They may be moved by a number, loaded and stored
at, passed on and compared for equality; what else is done with one is listed, and has to be in the table below.

A value is a set of pairs: what an address begins at (a frame of a function, the constants, or a pointer that is passed
to an export) and how far from it, if that is known; and the number of a constant. The values that frames hold are
followed. All ways through a function are, and all functions, until nothing changes."""
import re

from module import (
    BLOCK, BR, BR_IF, BR_TABLE, CALL, END, F32_CONST, F64_CONST, GLOBAL_GET, GLOBAL_SET, I32_CONST, I64_CONST, LOADS,
    LOCAL_GET, LOCAL_SET, LOCAL_TEE, LOOP, MEMORY_COPY, MEMORY_FILL, OPERATORS, RETURN, SELECT, STORES, need,
)  # fmt: skip

ADD, SUBTRACT, OR, EQUAL, UNEQUAL, IS_ZERO = 0x7C, 0x7D, 0x84, 0x51, 0x52, 0x50
I64_LOAD, I64_STORE = 0x29, 0x37
MASK = (1 << 64) - 1
NOTHING = frozenset()
# How many places at one beginning are distinguished.
MOST = 12

# What is done with addresses besides, and why it doesn't matter where memory is.
ALLOWED = {
    (SUBTRACT, "frame", "pointer"): "the distance of two arrays, which a loop over many samples looks at first",
    (SUBTRACT, "frame", "constants"): "the same",
    (SUBTRACT, "frame", "frame/pointer"): "the same",
    (IS_ZERO, "pointer"): "no address is 0, here as in the module",
    (OR, "frame"): "a frame is at a multiple of 16, and the number is less: it is the sum",
}


def joined(one, other):
    """What either may be."""
    both = one | other
    for begin in {begin for begin, _ in both}:
        if (begin, None) in both or sum(begin == another for another, _ in both) > MOST:
            both = frozenset(pair for pair in both if pair[0] != begin) | {(begin, None)}
    return both


def moved(value, by):
    return frozenset((begin, None if place is None or by is None else (place + by) & MASK) for begin, place in value)


class Addresses:
    def __init__(self, module, header):
        self.module, self.frames, self.has_changed = module, {}, True
        self.parameters = {function.number: [NOTHING] * len(function.parameters) for function in module.functions}
        self.results = {function.number: NOTHING for function in module.functions}
        for name, parameters in re.findall(r"(?m)^(?:int\d+_t|void) (hound_\w+)\((.*?)\)(?: HOUND_NONNULL)?;", header):
            pointers = enumerate("*" in parameter for parameter in parameters.split(", "))
            passed = [
                frozenset([(("pointer", name, place), 0)]) if is_pointer else NOTHING for place, is_pointer in pointers
            ]
            self.parameters[module.exports[name].number] = passed
        while self.has_changed:
            self.has_changed, self.found = False, set()
            for function in module.functions:
                Ways(self, function).follow()

    def use(self, what, *values):
        """Notes what is done with addresses: an operator, or in words what never may be."""
        self.found.add((what, *("/".join(sorted({begin[0] for begin, _ in value})) for value in values)))

    def must(self, holds, what):
        if not holds:
            self.use(what)

    def join_into(self, table, key, value):
        new = joined(table.get(key, NOTHING) if isinstance(table, dict) else table[key], value)
        if new != (table.get(key, NOTHING) if isinstance(table, dict) else table[key]):
            table[key], self.has_changed = new, True

    def held_at(self, address, offset):
        """What a frame holds there."""
        held = NOTHING
        for begin, place in moved(address, offset):
            for (other, at), value in self.frames.items():
                if other == begin and (place is None or at is None or at == place):
                    held = joined(held, value)
        return held

    def copy(self, to, source, count):
        for begin, place in source:
            for (other, at), value in list(self.frames.items()):
                is_known = place is not None and at is not None and count is not None
                if other == begin and not (is_known and (at - place) & MASK >= count):
                    for target, start in to:
                        is_at = is_known and start is not None
                        self.join_into(self.frames, (target, (start + at - place) & MASK if is_at else None), value)


class Ways:
    """All ways through a function: its locals, the stack of values, each with its number if it is one, and the open
    blocks."""

    def __init__(self, whole, function):
        self.whole, self.function, self.heads, self.is_done = whole, function, {}, False

    def follow(self):
        while not self.is_done:
            self.is_done = True
            self.once()

    def once(self):
        whole, function = self.whole, self.function
        others = len(function.locals) - len(function.parameters)
        self.locals, self.values, self.blocks = [*whole.parameters[function.number], *[NOTHING] * others], [], []
        unreached = 0
        for at, (code, *immediate) in enumerate(function.code):
            if unreached:
                unreached += (code in (BLOCK, LOOP)) - (code == END)
                if unreached == 0:
                    unreached = 0 if self.close(False) else 1
            elif code == END:
                self.close(True)
            elif code in (BLOCK, LOOP):
                self.open(at if code == LOOP else None)
            elif code == BR_IF:
                self.values.pop()
                self.go(immediate[0])
            elif code in (BR, BR_TABLE):
                if code == BR_TABLE:
                    self.values.pop()
                for label in immediate:
                    self.go(label)
                unreached = 1
            elif code in (RETURN, 0):
                if code == RETURN:
                    self.leave()
                unreached = 1
            else:
                self.step(code, *immediate)
        if not unreached:
            self.leave()

    def open(self, head):
        self.blocks.append((head, len(self.values), []))
        if head is not None:
            self.heads[head] = [joined(*pair) for pair in zip(self.heads.get(head, self.locals), self.locals)]
            self.locals = self.heads[head][:]

    def close(self, is_reached):
        """Ends a block, and returns whether what follows it is reached."""
        _, height, ways = self.blocks.pop()
        del self.values[height:]
        if is_reached:
            ways = [self.locals, *ways]
        for number, other in enumerate(ways):
            self.locals = other if number == 0 else [joined(*pair) for pair in zip(self.locals, other)]
        return bool(ways)

    def go(self, label):
        if label == len(self.blocks):
            return self.leave()
        head, _, ways = self.blocks[-1 - label]
        if head is None:
            ways.append(self.locals[:])
            return
        new = [joined(*pair) for pair in zip(self.heads[head], self.locals)]
        if new != self.heads[head]:
            self.heads[head], self.is_done = new, False

    def leave(self):
        if self.function.result and self.values:
            self.whole.join_into(self.whole.results, self.function.number, self.values[-1][0])

    def step(self, code, *immediate):
        whole, values = self.whole, self.values
        if code in OPERATORS:
            operands = [values.pop() for _ in OPERATORS[code][0]][::-1]
            values.append((self.computed(code, operands), None))
        elif code in (I32_CONST, I64_CONST, F32_CONST, F64_CONST):
            is_in_data = code == I64_CONST and whole.module.is_in_data(immediate[0])
            place = frozenset([(("constants",), immediate[0] - whole.module.data_start)]) if is_in_data else NOTHING
            values.append((place, immediate[0]))
        elif code == LOCAL_GET:
            values.append((self.locals[immediate[0]], None))
        elif code in (LOCAL_SET, LOCAL_TEE):
            self.locals[immediate[0]] = values.pop()[0] if code == LOCAL_SET else values[-1][0]
        elif code == GLOBAL_GET:
            values.append((frozenset([(("frame", self.function.number), 0)]) if immediate[0] == 0 else NOTHING, None))
        elif code == GLOBAL_SET:
            values.pop()
        elif code in LOADS:
            self.load(code, values.pop(), immediate[0])
        elif code in STORES:
            value, base = values.pop(), values.pop()
            self.store(code, base[0], value[0], immediate[0])
        elif code in (MEMORY_COPY, MEMORY_FILL):
            count, source, to = values.pop(), values.pop(), values.pop()
            whole.must(to[0] and (code == MEMORY_FILL or source[0]), "a copy where no address is")
            if code == MEMORY_COPY:
                whole.copy(to[0], source[0], count[1])
        elif code == SELECT:
            _, other, first = values.pop(), values.pop(), values.pop()
            values.append((joined(first[0], other[0]), first[1] if first[1] == other[1] else None))
        else:
            need(code == CALL, "each instruction is followed")
            callee = whole.module.functions[immediate[0]]
            for place in reversed(range(len(callee.parameters))):
                whole.join_into(whole.parameters[callee.number], place, values.pop()[0])
            if callee.result:
                values.append((whole.results[callee.number], None))

    def computed(self, code, operands):
        """What of addresses the result of an operator is."""
        marked = [value for value, _ in operands if value]
        if not marked or code in (EQUAL, UNEQUAL) and len(marked) == 2:
            return NOTHING
        (first, _), (_, number) = operands[0], operands[-1]
        if code == ADD and len(marked) == 1:
            return moved(marked[0], number if first else operands[0][1])
        if code == SUBTRACT and len(marked) == 1 and first:
            return moved(first, None if number is None else -number)
        self.whole.use(code, *marked)
        if code == OR:
            fits = number is not None and number < 16
            is_sum = fits and all(place is not None and place & 15 & number == 0 for _, place in first)
            self.whole.must(is_sum, "an or that is no sum")
            return moved(first, number)
        return NOTHING

    def load(self, code, base, offset):
        self.whole.must(base[0] or self.whole.module.is_in_data(offset), "a load where no address is")
        self.values.append((self.whole.held_at(base[0], offset) if code == I64_LOAD else NOTHING, None))

    def store(self, code, base, value, offset):
        self.whole.must(base, "a store where no address is")
        if value:
            is_in_frame = code == I64_STORE and all(begin[0] == "frame" for begin, _ in base)
            self.whole.must(is_in_frame, "an address that is stored outside of a frame")
            for begin, place in moved(base, offset):
                self.whole.join_into(self.whole.frames, (begin, place), value)


def check(module, header):
    """Rejects a module that does with addresses what isn't allowed."""
    for what, *kinds in Addresses(module, header).found:
        shown = what if isinstance(what, str) else f"{what:#x} of {' and '.join(kinds)}"
        need((what, *kinds) in ALLOWED, f"nothing else is done with addresses than the table allows: {shown}")
