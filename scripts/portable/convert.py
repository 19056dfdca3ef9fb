#!/usr/bin/env python3
"""Translates hound_c.wasm, the proved module for a memory of 64 bits, into one file of C99, and of C++11, that has the
functions of hound.h, for computers that bindings/lib has no library for. It is trusted: a mistake here is one in that
file. So it only knows what that module has, and rejects everything else; module.py reads the module, and addresses.py
looks that nothing in it depends on where memory is.

usage: convert.py hound_c.wasm hound.h > hound_c.c     (prelude.c, beside it, begins the file)

An address of the module is an address of the process. Of the module's own memory three things are left:
- The constants. Each i64.const and each offset that points into them becomes an address in an array.
- The stack. A function takes a frame of a fixed size, and none calls itself, so the greatest depth is known. Each
  function of hound.h has an array of that size, and its end, `sp`, is passed to the functions that take a frame. The
  module's tests for an overflow of its stack are left out, since there is room for the greatest depth.
- A flag, by which the module rejects calls after a trap. Here a trap ends the process.

A value that is computed becomes a part of an expression, where it is used; one that reads a local or the memory is
stored in a variable before that changes. A block becomes a label, and a branch a goto."""
import hashlib
import math
import os
import re
import struct
import sys

import addresses

from module import (
    BLOCK, BR, BR_IF, BR_TABLE, CALL, END, F32_CONST, F64_CONST, GLOBAL_GET, GLOBAL_SET, I32_CONST, I32_EQZ, I64_ADD,
    I64_CONST, I64_GT_S, I64_LT_S, I64_SUB, LOADS, LOCAL_GET, LOCAL_SET, LOCAL_TEE, LOOP, MEMORY_COPY, MEMORY_FILL,
    OPERATORS, RETURN, SELECT, SHIFTS, STORES, UNREACHABLE, Module, need,
)  # fmt: skip

C_TYPES = {"i": "uint32_t", "l": "uint64_t", "f": "float", "d": "double", "": "void"}
# The globals: the end of the stack that is free, and the flag. The functions that a guarded call calls.
GET_SP, SET_SP, GET_FLAG, SET_FLAG = (GLOBAL_GET, 0), (GLOBAL_SET, 0), (GLOBAL_GET, 1), (GLOBAL_SET, 1)
ENTER, LEAVE, TRAP = (CALL, 0), (CALL, 1), (CALL, 2)


def take_guards_out(module):
    """Takes the flag out of the exports: each of them is a guarded call of another function."""
    enter, leave, trap = (function.code for function in module.functions[:3])
    entering = [GET_FLAG, (LOCAL_SET, 0), (I32_CONST, 1), SET_FLAG, (LOCAL_GET, 0), (I32_CONST, 0), (0x47,)]
    need(enter == entering, "enter sets the flag")
    need(leave == [(I32_CONST, 0), SET_FLAG] and trap == [(UNREACHABLE,)], "leave clears it, and trap ends the process")
    guard = [(BLOCK,), ENTER, I32_EQZ, (BR_IF, 0), TRAP, (UNREACHABLE,), (END,)]
    for function in module.exports.values():
        need(function.code[: len(guard)] == guard and function.code.count(LEAVE) == 1, "an export is guarded")
        function.code = [one for one in function.code[len(guard) :] if one != LEAVE]
    for function in module.functions[3:]:
        need(not function.has(ENTER, LEAVE, TRAP, GET_FLAG, SET_FLAG), "the flag is in guards alone")


def take_frame_out(function):
    """Notes how much of the stack a function takes, and takes the test for an overflow and the end out, where the frame
    is given back. After that the frame of a function begins at `sp` less its size, and those that it calls get that as
    `sp`."""
    code = function.code
    if GET_SP not in code:
        return
    at = code.index(GET_SP)
    after = code[at + 1 :]
    if after[:3] == [(I64_CONST, 15), I64_GT_S, (BR_IF, 0)]:  # A test alone: on if sp > 15, and else a trap.
        need(code[:at] == [(BLOCK,)] and after[3:5] == [(UNREACHABLE,), (END,)], "a test is a block with a trap")
        del code[: at + 6]
    elif after[:2] == [(I64_CONST, 16), I64_LT_S]:  # A test alone: a trap if sp < 16.
        need(after[2][0] == BR_IF, "a test branches to a trap")
        del code[at : at + 4]
    elif after[0][0] == LOCAL_TEE and after[1:3] == [(I64_CONST, 16), I64_LT_S]:
        # The same, and `sp` is set to what it was.
        need(after[3][0] == BR_IF, "a test branches to a trap")
        take_sets_out(code, after[0][1])
        del code[at : at + 5]
    else:
        take_frame(function, at)
    need(code.count(GET_SP) == (function.frame > 0) and code.count(SET_SP) <= 1, "the stack has no other use")


def take_sets_out(code, local):
    """Without what sets `sp` to a local that keeps it."""
    while SET_SP in code:
        place = code.index(SET_SP)
        need(code[place - 1] == (LOCAL_GET, local), "sp is set to what it was")
        del code[place - 1 : place + 1]
    uses = [one for one in code if one[0] in (LOCAL_GET, LOCAL_SET, LOCAL_TEE) and one[1] == local]
    need(uses == [(LOCAL_TEE, local)], "what keeps sp has no other use")


def take_frame(function, at):
    """The same of a function that takes a frame, whose size is subtracted from `sp` after this place."""
    code = function.code
    (kind, function.frame), minus, (tee, local) = code[at + 1 : at + 4]
    is_taken = code[at + 4] == SET_SP
    is_size = kind == I64_CONST and function.frame % 16 == 0
    need(is_size and minus == I64_SUB and tee == LOCAL_TEE, "a frame is below sp")
    test = at + 3
    if is_taken:
        test = next(place for place in range(at + 5, len(code)) if code[place] != (BLOCK,)) + 1
        need(code[test - 1] == (LOCAL_GET, local) and code[test][0] == LOCAL_TEE, "the frame that is taken is tested")
        local = code[test][1]
    else:
        need(not any(one[0] == CALL for one in code), "a function that leaves sp as it is calls nothing")
    is_test = code[test + 1 : test + 3] == [(I64_CONST, 16), I64_LT_S] and code[test + 3][0] == BR_IF
    need(is_test, "a test branches to a trap")
    code[test : test + 4] = [(LOCAL_SET, local)]
    is_set = any(one in ((LOCAL_SET, local), (LOCAL_TEE, local)) for one in code[test + 1 :])
    need(not (is_taken and is_set), "the address of a frame stays until it is given back")
    ends = [place for place in range(test, len(code)) if code[place] == SET_SP]
    need(len(ends) == is_taken, "a frame is given back in one place")
    for end in ends:
        last = [one[0] for one in code[end + 1 :]]
        whole = [(LOCAL_GET, local), (I64_CONST, function.frame), I64_ADD]
        need(code[end - 3 : end] == whole, "all of a frame is given back")
        is_end = last in ([], [LOCAL_GET], [RETURN, END, UNREACHABLE], [LOCAL_GET, RETURN, END, UNREACHABLE])
        need(is_end and code.count((RETURN,)) == last.count(RETURN), "it is given back at the end")
        del code[end - 3 : end + 1]


def depth_of(module, function, above=()):
    """How many bytes of stack a call takes."""
    need(function not in above, "no function calls itself")
    if function.depth is None:
        take_frame_out(function)
        called = (depth_of(module, one, (*above, function)) for one in module.called_by(function))
        function.depth = function.frame + max(called, default=0)
    return function.depth


class Value:
    """An expression in C: its type, what it reads (locals, "sp", "memory", "call"), and its number if it is a
    constant."""

    def __init__(self, kind, text, reads=(), number=None):
        self.kind, self.text, self.reads, self.number = kind, text, frozenset(reads), number
        self.type = "i" if kind == "b" else kind

    @property
    def alone(self):
        """As it stands alone: a comparison is an int in C."""
        return f"(uint32_t)({self.text})" if self.kind == "b" else self.text

    @property
    def condition(self):
        return self.text if self.kind == "b" else f"{self} != 0"

    def __str__(self):
        """As an operand."""
        is_one = self.kind == "b" or re.fullmatch(r"\w+|\w+\([^()]*\)|\(-[^()]*\)", self.text)
        return self.alone if is_one else f"({self.text})"


class Translator:
    """Translates a function: its lines of C, the values on the stack of the module's machine, and the open blocks, each
    with its label, whether it is a loop, and the values below it."""

    def __init__(self, module, function):
        self.module, self.function = module, function
        self.lines, self.values, self.blocks = [], [], []
        self.labels, self.variables = 0, []  # The types of the variables that values are stored in.

    def write(self, line):
        self.lines.append("    " + line)

    def push(self, kind, text, *operands, reads=(), number=None):
        self.values.append(Value(kind, text, frozenset(reads).union(*(one.reads for one in operands)), number))

    def pop(self, kind):
        value = self.values.pop()
        need(value.type == kind, "operands have their types")
        return value

    def pop_all(self, kinds):
        return [self.pop(kind) for kind in reversed(kinds)][::-1]

    def store_readers_of(self, what=None):
        """Stores the values that read this in variables, before it changes; without it, all but constants."""
        for place, value in enumerate(self.values):
            if what in value.reads or what is None and value.number is None and not re.fullmatch(r"t\d+", value.text):
                self.variables.append(value.type)
                name = f"t{len(self.variables)}"
                self.write(f"{name} = {value.alone};")
                self.values[place] = Value(value.type, name)

    def constant(self, code, number):
        is_in_data = self.module.is_in_data(number)
        if code == I64_CONST and is_in_data:
            self.push("l", f"DATA({number - self.module.data_start})")
        elif code in (I32_CONST, I64_CONST):
            is_address = is_in_data or self.module.is_in_data(-number % (1 << 64))
            need(not is_address, "only an i64.const is the address of a constant")
            digits, suffix = str(number) if number < 1 << 16 else hex(number), "u" if code == I32_CONST else "ull"
            self.push("i" if code == I32_CONST else "l", digits + suffix, number=number)
        elif number != number or abs(number) == math.inf:
            kind, text, form = PATTERNS[code]
            (bits,) = struct.unpack("<" + form[1], struct.pack("<" + form[0], number))
            need(number == number or bits == NANS[code], "a NaN is the usual one")
            self.push(kind, text.format(bits), number=number)
        else:
            text = f"{number!r}{'f' if code == F32_CONST else ''}"
            self.push("f" if code == F32_CONST else "d", f"({text})" if text.startswith("-") else text, number=number)

    def address(self, base, offset):
        if self.module.is_in_data(offset):
            return f"DATA({offset - self.module.data_start})" + (f" + {base}" if base.number != 0 else "")
        need(offset < 4096, "an offset is small, or in the constants")
        return f"{base} + {offset}" if offset else base.alone

    def operator(self, code):
        kinds, result, meaning = OPERATORS[code]
        values = self.pop_all(kinds)
        last = values[-1]
        if (code,) == I32_EQZ and last.kind == "b":
            meaning = "!({0.text})"
        elif code in SHIFTS:
            mask = SHIFTS[code]
            values[1] = Value("i", f"({last} & {mask})" if last.number is None else str(last.number & mask), last.reads)
        elif code in (0x6A, 0x7C) and last.number is not None:  # The sum with a negative number is a difference.
            width, suffix = (32, "u") if code == 0x6A else (64, "ull")
            if last.number >> (width - 1):
                meaning, values[1] = "{0} - {1}", Value("i", f"{-last.number % (1 << width)}{suffix}")
        self.push(result, meaning.format(*values), *values)

    def call(self, function):
        values = self.pop_all(function.parameters)
        self.store_readers_of("memory")
        text = f"{function.name_in_c}({', '.join(['sp'] * (function.depth > 0) + [value.alone for value in values])})"
        if function.result:
            self.push(function.result, text, reads=["call"])
            self.store_readers_of("call")
        else:
            self.write(text + ";")

    def leave(self):
        return f"return {self.values[-1].alone};" if self.function.result else "return;"

    def branch(self, label):
        if label < len(self.blocks):
            return f"goto {self.blocks[-1 - label][0]};"
        need(not self.function.frame, "a function with a frame doesn't branch to its end")
        return self.leave()

    def open_block(self, is_loop):
        self.store_readers_of()
        self.labels += 1
        self.blocks.append((f"L{self.labels}", is_loop, list(self.values)))
        if is_loop:
            self.lines.append(f"L{self.labels}:;")

    def close_block(self):
        label, is_loop, self.values = self.blocks.pop()
        if not is_loop:
            self.lines.append(f"{label}:;")

    def table(self, *labels):
        self.write(f"switch ({self.pop('i').alone}) {{")
        *places, default = map(self.branch, labels)
        for place in dict.fromkeys(places):
            if place != default:
                self.write("".join(f"case {number}: " for number, other in enumerate(places) if other == place) + place)
        self.write(f"default: {default}")
        self.write("}")

    def step(self, code, *immediate):
        """Translates an instruction, and returns whether what follows it is reached."""
        if code in OPERATORS:
            self.operator(code)
        elif code in (I32_CONST, I64_CONST, F32_CONST, F64_CONST):
            self.constant(code, *immediate)
        elif code == LOCAL_GET:
            name = f"l{immediate[0]}"
            self.push(self.function.locals[immediate[0]], name, reads=[name])
        elif code in (LOCAL_SET, LOCAL_TEE):
            kind, name = self.function.locals[immediate[0]], f"l{immediate[0]}"
            value = self.pop(kind)
            self.store_readers_of(name)
            if value.text != name:
                self.write(f"{name} = {value.alone};")
            if code == LOCAL_TEE:
                self.push(kind, name, reads=[name])
        elif code == GLOBAL_GET:
            self.push("l", "sp", reads=["sp"])
        elif code == GLOBAL_SET:
            value = self.pop("l")
            self.store_readers_of("sp")
            self.write(f"sp = {value.alone};")
        elif code in LOADS:
            kind, meaning = LOADS[code]
            base = self.pop("l")
            self.push(kind, meaning.format(self.address(base, *immediate)), base, reads=["memory"])
        elif code in STORES:
            kind, meaning = STORES[code]
            base, value = self.pop_all(["l", kind])
            self.store_readers_of("memory")
            self.write(meaning.format(self.address(base, *immediate), value.alone) + ";")
        elif code in (MEMORY_COPY, MEMORY_FILL):
            to, value, count = self.pop_all("lll" if code == MEMORY_COPY else "lil")
            self.store_readers_of("memory")
            self.write(f"{'MOVE' if code == MEMORY_COPY else 'FILL'}({to.alone}, {value.alone}, {count.alone});")
        elif code == SELECT:
            test, other = self.pop("i"), self.values.pop()
            first = self.pop(other.type)
            self.push(first.type, f"{test.condition} ? {first} : {other}", test, first, other)
        elif code == CALL:
            self.call(self.module.functions[immediate[0]])
        elif code in (BLOCK, LOOP):
            self.open_block(code == LOOP)
        elif code == END:
            self.close_block()
        elif code == BR_IF:
            test = self.pop("i")
            self.write(f"if ({test.condition}) {self.branch(*immediate)}")
        elif code == BR_TABLE:
            self.table(*immediate)
        elif code == BR:
            self.write(self.branch(*immediate))
        else:
            self.write({RETURN: self.leave, UNREACHABLE: lambda: "TRAP();"}[code]())
        return code not in (BR, BR_TABLE, RETURN, UNREACHABLE)

    def translated(self):
        """The function in C."""
        function, unreached = self.function, 0  # how many open blocks there are since the code isn't reached
        for code, *immediate in function.code:
            if unreached:
                unreached += (code in (BLOCK, LOOP)) - (code == END)
            if not unreached:
                unreached = 0 if self.step(code, *immediate) else 1
        if not unreached and function.result:
            self.write(self.leave())
        text = "\n".join(self.lines)

        def reached(label):
            return label[0] if f"goto {label[1]};" in text else ""

        text = re.sub(r"(?m)^(L\d+):;\n?", reached, text).rstrip("\n")
        text = THREE_STORES.sub(joined, text)
        declared = []
        for kind in "ilfd":
            own = range(len(function.parameters), len(function.locals))
            own = [number for number in own if function.locals[number] == kind]
            names = [f"l{number} = 0" for number in own if re.search(rf"\bl{number}\b", text)]
            # In C++ no goto may pass a declaration with a value, so these are all before the first one.
            names += [f"t{number}" for number, other in enumerate(self.variables, 1) if other == kind]
            declared += [f"    {C_TYPES[kind]} {', '.join(names)};"] if names else []
        return "\n".join([f"/* {function.name} */", signature(function) + " {", *declared, text, "}", ""])


# Three stores of a value's bytes: the first one, a higher one, and the second one.
# How a float is in C whose number can't be written, by its bits: its type, and how struct packs it and its bits.
PATTERNS = {F32_CONST: ("f", "f32_of({:#x}u)", "fI"), F64_CONST: ("d", "f64_of({:#x}ull)", "dQ")}
# The bits of the usual NaN of each type.
NANS = {F32_CONST: 0x7FC00000, F64_CONST: 0x7FF8000000000000}
THREE_STORES = re.compile(
    r"store8\((\w+)(?: \+ (\d+)ull)?, (\w+)\);\n    (store8\(\1 \+ (\d+)ull, \3 >> \d+\);)\n"
    r"    store8\(\1 \+ (\d+)ull, \3 >> 8\);"
)


def joined(found):
    """The same by two stores, since compilers don't join the first and the last of the three."""
    base, first, value, higher, third, second = found.groups()
    if int(second) != int(first or 0) + 1 or int(third) <= int(second):
        return found[0]
    return f"store16({f'{base} + {first}ull' if first else base}, {value});\n    {higher}"


def signature(function):
    parameters = ["uint64_t sp"] * (function.depth > 0)
    parameters += [f"{C_TYPES[kind]} l{number}" for number, kind in enumerate(function.parameters)]
    return f"static {C_TYPES[function.result]} {function.name_in_c}({', '.join(parameters) or 'void'})"


def exported(module, name, declaration):
    """The function of hound.h with this name: it calls what the export of this name calls."""
    export, (called,) = module.exports[name], module.called_by(module.exports[name])
    returned, parameters = re.match(r"(\w+) \w+\((.*)\)", declaration).groups()
    arguments = []
    for parameter in [] if parameters == "void" else parameters.split(", "):
        word = re.search(r"\w+$", parameter)[0]
        is_narrow = re.search(r"int(16|32)_t ", parameter) and "*" not in parameter
        if "*" in parameter:
            arguments.append(f"(uint64_t)(uintptr_t){word}")
        else:
            arguments.append(f"(uint32_t){word}" if is_narrow else word)
    kinds = "".join("i" if argument.startswith("(uint32_t)") else "l" for argument in arguments)
    need(kinds == export.parameters, "arguments have the types of hound.h")
    need(returned == {"i": "int32_t", "l": "int64_t", "": "void"}[export.result], "results have the types of hound.h")
    count = len(called.parameters)
    passed = [(LOCAL_GET, number) for number in range(count)]
    need(export.code[:count] == passed and export.code[count][0] == CALL, "arguments are passed on")
    rest = export.code[count + 1 :]
    result = f"{called.name_in_c}({', '.join(['sp'] * (called.depth > 0) + arguments[:count])})"
    if not export.result:
        need(not rest and not called.result, "nothing is returned")
    elif called.result:
        is_result = [code for code, _ in rest] == [LOCAL_SET, LOCAL_GET] and rest[0][1] == rest[1][1]
        need(is_result, "the result is returned")
    else:
        is_constant = len(rest) == 1 and rest[0][0] == I32_CONST
        need((rest == [(LOCAL_GET, 0)] or is_constant) and not called.code, "or the first argument, or a number")
        result = str(rest[0][1]) if is_constant else arguments[0]
    stack = [f"    STACK({called.depth});"] * (called.depth > 0)
    last = f"    return s{returned[3:5]}({result});" if export.result else f"    {result};"
    return "\n".join([f"{returned} {name}({parameters}) {{", *stack, last, "}", ""])


def in_one_line(declaration):
    return re.sub(r"\n +", " ", declaration[0])


def converted(wasm, header):
    """The C file of a module that exports the functions of hound.h."""
    module = Module(wasm)
    header = re.sub(r"(?m)^(int32_t|int64_t|void) hound_\w+\([^;]*;$", in_one_line, header)
    form = r"(?m)^(int32_t|int64_t|void) (hound_\w+)\(.*;$"
    declarations = {found[2]: found[0] for found in re.finditer(form, header)}
    need(set(declarations) == set(module.exports), "the exports are the functions of hound.h")
    take_guards_out(module)
    greatest = max(depth_of(module, function) for function in module.exports.values())
    need(greatest + 16 <= module.stack_top, "the stack doesn't overflow")
    addresses.check(module, header)
    reached = [function for export in module.exports.values() for function in module.called_by(export)]
    for function in reached:
        reached += [one for one in module.called_by(function) if one not in reached]
    reached = sorted((function for function in set(reached) if function.code), key=lambda function: function.number)
    with open(os.path.join(os.path.dirname(os.path.abspath(__file__)), "prelude.c")) as file:
        text = file.read()
    rows = [", ".join(map(str, module.data[first : first + 32])) for first in range(0, len(module.data), 32)]
    declared = re.sub(r"(?s) */\*.*?\*/|^static inline .*?^}$", "", header, flags=re.M)
    declared = re.sub(r"\n\s*\n", "\n", declared).strip()
    for word, value in (
        ("HEADER", declared),
        ("MODULE", hashlib.sha256(wasm).hexdigest()),
        ("GREATEST", greatest),
        ("LENGTH", len(module.data)),
        ("BYTES", ",\n    ".join(rows)),
    ):
        text = text.replace(f"@{word}@", str(value))
    signatures = [signature(function) + ";" for function in reached]
    bodies = [Translator(module, function).translated() for function in reached]
    exports = [exported(module, name, declarations[name]) for name in declarations]
    return "\n".join([text, *signatures, "", *bodies, *exports])


if __name__ == "__main__":
    if len(sys.argv) != 3:
        sys.exit("usage: convert.py hound_c.wasm hound.h > hound_c.c")
    with open(sys.argv[1], "rb") as wasm, open(sys.argv[2]) as header:
        sys.stdout.write(converted(wasm.read(), header.read()))
