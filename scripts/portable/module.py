"""Reads a WebAssembly module as hound_c.wasm is one: its functions, exports, globals and constants (WebAssembly 2.0
with memories of 64 bits, "Binary Format"). What that module doesn't have is rejected."""
import re
import struct
import sys


def need(holds, what):
    """Ends the program unless this holds of the module."""
    if not holds:
        sys.exit(f"portable: not so: {what}")


# The types: i is i32, l is i64, f is f32, d is f64. A b is an i32 that a comparison gave, 0 or 1.
TYPES = {0x7F: "i", 0x7E: "l", 0x7D: "f", 0x7C: "d"}

# Instructions that compute a value: code, name, the types of their operands and of the result, and their meaning in C.
OPERATORS = {
    code: (operands, result, meaning)
    for code, name, operands, result, meaning in [
        (0x45, "i32.eqz", "i", "b", "{0} == 0"),
        (0x46, "i32.eq", "ii", "b", "{0} == {1}"),
        (0x47, "i32.ne", "ii", "b", "{0} != {1}"),
        (0x48, "i32.lt_s", "ii", "b", "s32({0}) < s32({1})"),
        (0x49, "i32.lt_u", "ii", "b", "{0} < {1}"),
        (0x4B, "i32.gt_u", "ii", "b", "{0} > {1}"),
        (0x4D, "i32.le_u", "ii", "b", "{0} <= {1}"),
        (0x4F, "i32.ge_u", "ii", "b", "{0} >= {1}"),
        (0x50, "i64.eqz", "l", "b", "{0} == 0"),
        (0x51, "i64.eq", "ll", "b", "{0} == {1}"),
        (0x52, "i64.ne", "ll", "b", "{0} != {1}"),
        (0x53, "i64.lt_s", "ll", "b", "s64({0}) < s64({1})"),
        (0x54, "i64.lt_u", "ll", "b", "{0} < {1}"),
        (0x55, "i64.gt_s", "ll", "b", "s64({0}) > s64({1})"),
        (0x56, "i64.gt_u", "ll", "b", "{0} > {1}"),
        (0x58, "i64.le_u", "ll", "b", "{0} <= {1}"),
        (0x59, "i64.ge_s", "ll", "b", "s64({0}) >= s64({1})"),
        (0x5A, "i64.ge_u", "ll", "b", "{0} >= {1}"),
        (0x5C, "f32.ne", "ff", "b", "{0} != {1}"),
        (0x61, "f64.eq", "dd", "b", "{0} == {1}"),
        (0x62, "f64.ne", "dd", "b", "{0} != {1}"),
        (0x63, "f64.lt", "dd", "b", "{0} < {1}"),
        (0x65, "f64.le", "dd", "b", "{0} <= {1}"),
        (0x6A, "i32.add", "ii", "i", "{0} + {1}"),
        (0x6B, "i32.sub", "ii", "i", "{0} - {1}"),
        (0x6C, "i32.mul", "ii", "i", "{0} * {1}"),
        (0x6E, "i32.div_u", "ii", "i", "div32({0}, {1})"),
        (0x70, "i32.rem_u", "ii", "i", "rem32({0}, {1})"),
        (0x71, "i32.and", "ii", "i", "{0} & {1}"),
        (0x72, "i32.or", "ii", "i", "{0} | {1}"),
        (0x73, "i32.xor", "ii", "i", "{0} ^ {1}"),
        (0x74, "i32.shl", "ii", "i", "{0} << {1}"),
        (0x75, "i32.shr_s", "ii", "i", "shr_s32({0}, {1})"),
        (0x76, "i32.shr_u", "ii", "i", "{0} >> {1}"),
        (0x79, "i64.clz", "l", "l", "clz64({0})"),
        (0x7C, "i64.add", "ll", "l", "{0} + {1}"),
        (0x7D, "i64.sub", "ll", "l", "{0} - {1}"),
        (0x7E, "i64.mul", "ll", "l", "{0} * {1}"),
        (0x80, "i64.div_u", "ll", "l", "div64({0}, {1})"),
        (0x82, "i64.rem_u", "ll", "l", "rem64({0}, {1})"),
        (0x83, "i64.and", "ll", "l", "{0} & {1}"),
        (0x84, "i64.or", "ll", "l", "{0} | {1}"),
        (0x85, "i64.xor", "ll", "l", "{0} ^ {1}"),
        (0x86, "i64.shl", "ll", "l", "{0} << {1}"),
        (0x88, "i64.shr_u", "ll", "l", "{0} >> {1}"),
        (0x8C, "f32.neg", "f", "f", "neg_f32({0})"),
        (0x92, "f32.add", "ff", "f", "{0} + {1}"),
        (0x93, "f32.sub", "ff", "f", "{0} - {1}"),
        (0x94, "f32.mul", "ff", "f", "{0} * {1}"),
        (0x95, "f32.div", "ff", "f", "{0} / {1}"),
        (0x9A, "f64.neg", "d", "d", "neg_f64({0})"),
        (0xA0, "f64.add", "dd", "d", "{0} + {1}"),
        (0xA1, "f64.sub", "dd", "d", "{0} - {1}"),
        (0xA2, "f64.mul", "dd", "d", "{0} * {1}"),
        (0xA3, "f64.div", "dd", "d", "{0} / {1}"),
        (0xA7, "i32.wrap_i64", "l", "i", "(uint32_t){0}"),
        (0xAD, "i64.extend_i32_u", "i", "l", "(uint64_t){0}"),
        (0xB2, "f32.convert_i32_s", "i", "f", "(float)s32({0})"),
        (0xB3, "f32.convert_i32_u", "i", "f", "(float){0}"),
        (0xB7, "f64.convert_i32_s", "i", "d", "(double)s32({0})"),
        (0xB8, "f64.convert_i32_u", "i", "d", "(double){0}"),
        (0xB9, "f64.convert_i64_s", "l", "d", "(double)s64({0})"),
        (0xBA, "f64.convert_i64_u", "l", "d", "(double){0}"),
        (0xBB, "f64.promote_f32", "f", "d", "(double){0}"),
        (0xBD, "i64.reinterpret_f64", "d", "l", "bits_of({0})"),
        (0xBE, "f32.reinterpret_i32", "i", "f", "f32_of({0})"),
        (0xBF, "f64.reinterpret_i64", "l", "d", "f64_of({0})"),
        (0xC0, "i32.extend8_s", "i", "i", "extend8({0})"),
        (0xC1, "i32.extend16_s", "i", "i", "extend16({0})"),
        (0xFC06, "i64.trunc_sat_f64_s", "d", "l", "trunc64({0})"),
    ]
}
# The operators whose last operand is a count of bits, which is taken modulo the width.
SHIFTS = {0x74: 31, 0x75: 31, 0x76: 31, 0x86: 63, 0x88: 63}
# Instructions that load a value: its type, and how in C.
LOADS = {
    0x28: ("i", "load32({})"),  # i32.load
    0x29: ("l", "load64({})"),  # i64.load
    0x2A: ("f", "load_f32({})"),  # f32.load
    0x2B: ("d", "load_f64({})"),  # f64.load
    0x2C: ("i", "extend8(load8({}))"),  # i32.load8_s
    0x2D: ("i", "load8({})"),  # i32.load8_u
    0x2E: ("i", "extend16(load16({}))"),  # i32.load16_s
    0x2F: ("i", "load16({})"),  # i32.load16_u
    0x31: ("l", "(uint64_t)load8({})"),  # i64.load8_u
    0x33: ("l", "(uint64_t)load16({})"),  # i64.load16_u
    0x35: ("l", "(uint64_t)load32({})"),  # i64.load32_u
}
# Instructions that store a value: its type, and how in C.
STORES = {
    0x36: ("i", "store32({}, {})"),  # i32.store
    0x37: ("l", "store64({}, {})"),  # i64.store
    0x38: ("f", "store_f32({}, {})"),  # f32.store
    0x39: ("d", "store_f64({}, {})"),  # f64.store
    0x3A: ("i", "store8({}, {})"),  # i32.store8
    0x3B: ("i", "store16({}, {})"),  # i32.store16
    0x3C: ("l", "store8({}, (uint32_t)({}))"),  # i64.store8
    0x3D: ("l", "store16({}, (uint32_t)({}))"),  # i64.store16
    0x3E: ("l", "store32({}, (uint32_t)({}))"),  # i64.store32
}
UNREACHABLE, BLOCK, LOOP, END, BR, BR_IF, BR_TABLE = 0x00, 0x02, 0x03, 0x0B, 0x0C, 0x0D, 0x0E
RETURN, CALL, SELECT = 0x0F, 0x10, 0x1B
LOCAL_GET, LOCAL_SET, LOCAL_TEE, GLOBAL_GET, GLOBAL_SET = 0x20, 0x21, 0x22, 0x23, 0x24
I32_CONST, I64_CONST, F32_CONST, F64_CONST, MEMORY_COPY, MEMORY_FILL = 0x41, 0x42, 0x43, 0x44, 0xFC0A, 0xFC0B
I32_EQZ, I64_LT_S, I64_GT_S, I64_ADD, I64_SUB = (0x45,), (0x53,), (0x55,), (0x7C,), (0x7D,)


class Reader:
    """Bytes, read from the first one on."""

    def __init__(self, data):
        self.data, self.place = data, 0

    def has_more(self):
        return self.place < len(self.data)

    def take(self, count):
        self.place += count
        need(self.place <= len(self.data), "the module has all its bytes")
        return self.data[self.place - count : self.place]

    def byte(self):
        return self.take(1)[0]

    def number(self, is_signed=False):
        """A number in LEB128."""
        value = shift = 0
        while True:
            byte = self.byte()
            value |= (byte & 127) << shift
            shift += 7
            if byte < 128:
                return value - (1 << shift) if is_signed and byte & 64 else value

    def list_of(self, read):
        return [read() for _ in range(self.number())]

    def part(self):
        return self.take(self.number())

    def initial_value(self):
        code, value, end = self.byte(), self.number(is_signed=True), self.byte()
        need(code in (I32_CONST, I64_CONST) and end == END, "an initial value is an integer")
        return value

    def instruction(self):
        """An instruction: a tuple of its code and what follows that."""
        code = self.byte()
        if code == 0xFC:
            code = code << 8 | self.number()
        if code in (BR, BR_IF, CALL, LOCAL_GET, LOCAL_SET, LOCAL_TEE, GLOBAL_GET, GLOBAL_SET):
            return code, self.number()
        if code == BR_TABLE:
            return code, *self.list_of(self.number), self.number()
        if code in LOADS or code in STORES:
            self.number()  # The alignment is a hint.
            return code, self.number()
        if code in (I32_CONST, I64_CONST):
            return code, self.number(is_signed=True) % (1 << (32 if code == I32_CONST else 64))
        if code == F32_CONST:
            return code, struct.unpack("<f", self.take(4))[0]
        if code == F64_CONST:
            return code, struct.unpack("<d", self.take(8))[0]
        if code in (BLOCK, LOOP):
            need(self.byte() == 0x40, "a block has no result")
        elif code in (MEMORY_COPY, MEMORY_FILL):
            need(not any(self.take(2 if code == MEMORY_COPY else 1)), "there is one memory")
        else:
            need(code in OPERATORS or code in (UNREACHABLE, END, RETURN, SELECT), f"instruction {code:#x} is known")
        return (code,)


class Function:
    """A function: the types of its parameters, of its result and of its locals, and its instructions."""

    def __init__(self, number, parameters, result):
        self.number, self.parameters, self.result = number, parameters, result
        self.frame, self.depth = 0, None  # bytes of the stack that it takes, and that it takes with those that it calls

    def read(self, data):
        reader = Reader(data)
        self.locals = self.parameters
        for count, kind in reader.list_of(lambda: (reader.number(), reader.byte())):
            self.locals += count * TYPES[kind]
        self.code = []
        while reader.has_more():
            self.code.append(reader.instruction())
        need(self.code.pop() == (END,), "a function ends")

    def give_name(self, name):
        last = re.sub(r"::<.*", "", name).split("::")[-1].split(" ")[-1]
        self.name, self.name_in_c = name, f"f{self.number}_{re.sub('[^a-z0-9_]', '', last)}"

    def has(self, *instructions):
        return any(one in instructions for one in self.code)


class Module:
    def __init__(self, data):
        reader = Reader(data)
        need(reader.take(8) == b"\0asm\1\0\0\0", "this is a module")
        sections = {
            0: self.names,
            1: self.signatures,
            3: self.declarations,
            5: self.memory,
            6: self.variables,
            7: self.public,
            10: self.bodies,
            11: self.contents,
        }
        while reader.has_more():
            kind, section = reader.byte(), Reader(reader.part())
            if kind != 12:  # how many constants there are
                need(kind in sections, "there are no imports, tables, elements, and no start function")
                sections[kind](section)
        kinds = [one[:2] for one in self.globals]
        is_known = kinds == [(0x7E, 1), (0x7F, 1), (0x7E, 0)] and self.globals[1][2] == 0
        need(is_known, "the globals are those known")
        self.stack_top = self.globals[0][2]

    def called_by(self, function):
        return [self.functions[one[1]] for one in function.code if one[0] == CALL]

    def names(self, reader):
        is_names = reader.part() == b"name"
        while is_names and reader.has_more():
            kind, part = reader.byte(), Reader(reader.part())
            for number, name in part.list_of(lambda: (part.number(), part.part())) if kind == 1 else []:
                self.functions[number].give_name(name.decode())

    def signatures(self, reader):
        def letters():
            return "".join(TYPES[kind] for kind in reader.list_of(reader.byte))

        def type_of():
            need(reader.byte() == 0x60, "types are of functions")
            return letters(), letters()

        self.types = reader.list_of(type_of)

    def declarations(self, reader):
        kinds = enumerate(reader.list_of(reader.number))
        self.functions = [Function(number, *self.types[kind]) for number, kind in kinds]

    def memory(self, reader):
        need(reader.take(2) == b"\1\4", "there is one memory, with addresses of 64 bits")

    def variables(self, reader):
        self.globals = reader.list_of(lambda: (reader.byte(), reader.byte(), reader.initial_value()))

    def public(self, reader):
        exports = reader.list_of(lambda: (reader.part().decode(), reader.byte(), reader.number()))
        self.exports = {name: self.functions[number] for name, kind, number in exports if kind == 0}

    def bodies(self, reader):
        for function, code in zip(self.functions, reader.list_of(reader.part)):
            function.read(code)

    def contents(self, reader):
        need(reader.take(2) == b"\1\0", "there is one data segment")
        self.data_start, self.data = reader.initial_value(), reader.part()

    def is_in_data(self, number):
        return 0 <= number - self.data_start <= len(self.data)
