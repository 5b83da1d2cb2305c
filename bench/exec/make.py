#!/usr/bin/env python3
"""Writes valid fragment modules that run for long: loops over a variable and over phis, a straight line, nested selections, and
loads and stores by variable indices.

usage: make.py FOLDER
"""
import struct
import sys

WORDS = 16_000
TURNS = 4_095
(CAPABILITY, MEMORY_MODEL, ENTRY_POINT, EXECUTION_MODE, DECORATE, MEMBER_DECORATE) = (17, 14, 15, 16, 71, 72)
(TYPE_VOID, TYPE_BOOL, TYPE_INT, TYPE_ARRAY, TYPE_STRUCT, TYPE_POINTER, TYPE_FUNCTION) = (19, 20, 21, 28, 30, 32, 33)
(CONSTANT, FUNCTION, FUNCTION_END, VARIABLE, LOAD, STORE, ACCESS_CHAIN) = (43, 54, 56, 59, 61, 62, 65)
(I_ADD, U_LESS_THAN, BITWISE_AND, PHI) = (128, 176, 199, 245)
(LOOP_MERGE, SELECTION_MERGE, LABEL, BRANCH, BRANCH_CONDITIONAL, RETURN) = (246, 247, 248, 249, 250, 253)
(VOID, FUNCTION_TYPE, INT, BOOL, ARRAY, BLOCK, OUTPUT_POINTER, OUTPUT, LOCAL_POINTER, LOCAL, ARRAY_POINTER, TABLE, BLOCK_POINTER, UNIFORM,
 UNIFORM_WORD, ZERO, ONE, LIMIT, COUNT, MASK, MAIN, START, FIRST) = range(1, 24)


class Module:
    def __init__(self):
        self.words = []
        self.next = FIRST

    def id(self):
        self.next += 1
        return self.next - 1

    def put(self, opcode, *operands):
        self.words += [(len(operands) + 1) << 16 | opcode, *operands]

    def result(self, opcode, kind, *operands):
        own = self.id()
        self.put(opcode, kind, own, *operands)
        return own

    def frame(self, limit):
        self.put(CAPABILITY, 1)
        self.put(MEMORY_MODEL, 0, 1)
        self.put(ENTRY_POINT, 4, MAIN, 0x6E69616D, 0, OUTPUT)
        self.put(EXECUTION_MODE, MAIN, 7)
        self.put(DECORATE, OUTPUT, 30, 0)
        self.put(DECORATE, ARRAY, 6, 4)
        self.put(DECORATE, BLOCK, 2)
        self.put(MEMBER_DECORATE, BLOCK, 0, 35, 0)
        self.put(DECORATE, UNIFORM, 33, 0)
        self.put(DECORATE, UNIFORM, 34, 0)
        self.put(TYPE_VOID, VOID)
        self.put(TYPE_FUNCTION, FUNCTION_TYPE, VOID)
        self.put(TYPE_INT, INT, 32, 0)
        self.put(TYPE_BOOL, BOOL)
        for name, value in ((ZERO, 0), (ONE, 1), (LIMIT, limit), (COUNT, 64), (MASK, 63)):
            self.put(CONSTANT, INT, name, value)
        self.put(TYPE_ARRAY, ARRAY, INT, COUNT)
        self.put(TYPE_STRUCT, BLOCK, ARRAY)
        self.put(TYPE_POINTER, OUTPUT_POINTER, 3, INT)
        self.put(VARIABLE, OUTPUT_POINTER, OUTPUT, 3)
        self.put(TYPE_POINTER, LOCAL_POINTER, 7, INT)
        self.put(TYPE_POINTER, ARRAY_POINTER, 7, ARRAY)
        self.put(TYPE_POINTER, BLOCK_POINTER, 2, BLOCK)
        self.put(VARIABLE, BLOCK_POINTER, UNIFORM, 2)
        self.put(TYPE_POINTER, UNIFORM_WORD, 2, INT)
        self.put(FUNCTION, VOID, MAIN, 0, FUNCTION_TYPE)
        self.put(LABEL, START)
        self.put(VARIABLE, LOCAL_POINTER, LOCAL, 7)
        self.put(VARIABLE, ARRAY_POINTER, TABLE, 7)

    def written(self, value):
        self.put(STORE, OUTPUT, value)
        self.put(RETURN)
        self.put(FUNCTION_END)
        header = [0x07230203, 0x00010000, 0, self.next, 0]
        return struct.pack(f"<{len(header) + len(self.words)}I", *header, *self.words)


def straight():
    module = Module()
    module.frame(0)
    value = ONE
    while len(module.words) < WORDS:
        value = module.result(I_ADD, INT, value, ONE)
    return module.written(value)


def variable_loop():
    """Counts in a variable."""
    module = Module()
    module.frame(TURNS)
    header, test, body, step, merge = (module.id() for _ in range(5))
    module.put(BRANCH, header)
    module.put(LABEL, header)
    module.put(LOOP_MERGE, merge, step, 0)
    module.put(BRANCH, test)
    module.put(LABEL, test)
    value = module.result(LOAD, INT, LOCAL)
    condition = module.result(U_LESS_THAN, BOOL, value, LIMIT)
    module.put(BRANCH_CONDITIONAL, condition, body, merge)
    module.put(LABEL, body)
    module.put(BRANCH, step)
    module.put(LABEL, step)
    value = module.result(LOAD, INT, LOCAL)
    more = module.result(I_ADD, INT, value, ONE)
    module.put(STORE, LOCAL, more)
    module.put(BRANCH, header)
    module.put(LABEL, merge)
    return module.written(module.result(LOAD, INT, LOCAL))


def phi_loop(swaps):
    """Counts in a phi, and adds in another one; or two phis take each other's values, too."""
    module = Module()
    module.frame(TURNS)
    header, test, body, step, merge, counter, total, more, added, left, right = (module.id() for _ in range(11))
    module.put(BRANCH, header)
    module.put(LABEL, header)
    module.put(PHI, INT, counter, ZERO, START, more, step)
    module.put(PHI, INT, total, ZERO, START, added, step)
    if swaps:
        module.put(PHI, INT, left, ONE, START, right, step)
        module.put(PHI, INT, right, LIMIT, START, left, step)
    module.put(LOOP_MERGE, merge, step, 0)
    module.put(BRANCH, test)
    module.put(LABEL, test)
    condition = module.result(U_LESS_THAN, BOOL, counter, LIMIT)
    module.put(BRANCH_CONDITIONAL, condition, body, merge)
    module.put(LABEL, body)
    module.put(BRANCH, step)
    module.put(LABEL, step)
    module.put(I_ADD, INT, more, counter, ONE)
    module.put(I_ADD, INT, added, total, left if swaps else counter)
    module.put(BRANCH, header)
    module.put(LABEL, merge)
    return module.written(total)


def looped(inside):
    """A loop with a counter, whose body is what `inside` puts."""
    module = Module()
    module.frame(1_000)
    header, test, body, step, merge, counter, more = (module.id() for _ in range(7))
    module.put(BRANCH, header)
    module.put(LABEL, header)
    module.put(PHI, INT, counter, ZERO, START, more, step)
    module.put(LOOP_MERGE, merge, step, 0)
    module.put(BRANCH, test)
    module.put(LABEL, test)
    condition = module.result(U_LESS_THAN, BOOL, counter, LIMIT)
    module.put(BRANCH_CONDITIONAL, condition, body, merge)
    module.put(LABEL, body)
    inside(module, counter)
    module.put(BRANCH, step)
    module.put(LABEL, step)
    module.put(I_ADD, INT, more, counter, ONE)
    module.put(BRANCH, header)
    module.put(LABEL, merge)
    return module.written(module.result(LOAD, INT, LOCAL))


def nested(module, counter, depth=40):
    """Selections in each other, whose first arms are taken but in the innermost ones."""
    condition = module.result(U_LESS_THAN, BOOL, counter, LIMIT)
    arm, other, merge = (module.id() for _ in range(3))
    module.put(SELECTION_MERGE, merge, 0)
    module.put(BRANCH_CONDITIONAL, condition, arm, other)
    module.put(LABEL, arm)
    if depth > 1:
        nested(module, counter, depth - 1)
    else:
        module.put(STORE, LOCAL, counter)
    module.put(BRANCH, merge)
    module.put(LABEL, other)
    module.put(BRANCH, merge)
    module.put(LABEL, merge)


def traffic(module, counter):
    """A word of a uniform block goes through an array of a variable, both by the counter."""
    for _ in range(8):
        index = module.result(BITWISE_AND, INT, counter, MASK)
        source = module.result(ACCESS_CHAIN, UNIFORM_WORD, UNIFORM, ZERO, index)
        word = module.result(LOAD, INT, source)
        target = module.result(ACCESS_CHAIN, LOCAL_POINTER, TABLE, index)
        module.put(STORE, target, word)
        again = module.result(LOAD, INT, target)
        old = module.result(LOAD, INT, LOCAL)
        module.put(STORE, LOCAL, module.result(I_ADD, INT, old, again))


def main():
    modules = {
        "variable_loop": variable_loop(),
        "phi_loop": phi_loop(False),
        "swapping_phis": phi_loop(True),
        "straight": straight(),
        "nested_selections": looped(nested),
        "traffic": looped(traffic),
    }
    for name, written in modules.items():
        with open(f"{sys.argv[1]}/{name}.spv", "wb") as file:
            file.write(written)


main()
