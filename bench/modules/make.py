#!/usr/bin/env python3
"""Writes valid vertex modules of about 16,000 words: one straight line, many selections, many loops; and loops of 4,000 words.

usage: make.py FOLDER
"""
import struct
import sys

WORDS = 16_000
(CAPABILITY, MEMORY_MODEL, ENTRY_POINT, DECORATE, TYPE_VOID, TYPE_BOOL, TYPE_INT, TYPE_POINTER, TYPE_FUNCTION) = (
    17, 14, 15, 71, 19, 20, 21, 32, 33)
(CONSTANT, FUNCTION, FUNCTION_END, VARIABLE, LOAD, STORE, I_ADD, U_LESS_THAN) = (43, 54, 56, 59, 61, 62, 128, 176)
(LOOP_MERGE, SELECTION_MERGE, LABEL, BRANCH, BRANCH_CONDITIONAL, RETURN) = (246, 247, 248, 249, 250, 253)
(VOID, FUNCTION_TYPE, INT, BOOL, POINTER, INPUT, OUTPUT_POINTER, OUTPUT, LOCAL_POINTER, LOCAL, ONE, MAIN, FIRST) = range(1, 14)


class Module:
    def __init__(self):
        self.words = []
        self.next = FIRST

    def id(self):
        self.next += 1
        return self.next - 1

    def put(self, opcode, *operands):
        self.words += [(len(operands) + 1) << 16 | opcode, *operands]

    def frame(self):
        self.put(CAPABILITY, 1)
        self.put(MEMORY_MODEL, 0, 1)
        self.put(ENTRY_POINT, 0, MAIN, 0x6E69616D, 0, INPUT, OUTPUT)
        self.put(DECORATE, INPUT, 30, 0)
        self.put(DECORATE, OUTPUT, 30, 0)
        self.put(TYPE_VOID, VOID)
        self.put(TYPE_FUNCTION, FUNCTION_TYPE, VOID)
        self.put(TYPE_INT, INT, 32, 0)
        self.put(TYPE_BOOL, BOOL)
        self.put(TYPE_POINTER, POINTER, 1, INT)
        self.put(VARIABLE, POINTER, INPUT, 1)
        self.put(TYPE_POINTER, OUTPUT_POINTER, 3, INT)
        self.put(VARIABLE, OUTPUT_POINTER, OUTPUT, 3)
        self.put(TYPE_POINTER, LOCAL_POINTER, 7, INT)
        self.put(CONSTANT, INT, ONE, 1)
        self.put(FUNCTION, VOID, MAIN, 0, FUNCTION_TYPE)
        self.put(LABEL, self.id())
        self.put(VARIABLE, LOCAL_POINTER, LOCAL, 7)
        value = self.id()
        self.put(LOAD, INT, value, INPUT)
        return value

    def add(self, value):
        result = self.id()
        self.put(I_ADD, INT, result, value, ONE)
        return result

    def selection(self, value):
        condition, arm, merge = self.id(), self.id(), self.id()
        self.put(U_LESS_THAN, BOOL, condition, value, ONE)
        self.put(SELECTION_MERGE, merge, 0)
        self.put(BRANCH_CONDITIONAL, condition, arm, merge)
        self.put(LABEL, arm)
        self.put(STORE, LOCAL, value)
        self.put(BRANCH, merge)
        self.put(LABEL, merge)

    def loop(self, value):
        header, test, condition, body, step, merge = (self.id() for _ in range(6))
        self.put(BRANCH, header)
        self.put(LABEL, header)
        self.put(LOOP_MERGE, merge, step, 0)
        self.put(BRANCH, test)
        self.put(LABEL, test)
        self.put(U_LESS_THAN, BOOL, condition, value, ONE)
        self.put(BRANCH_CONDITIONAL, condition, body, merge)
        self.put(LABEL, body)
        self.put(STORE, LOCAL, value)
        self.put(BRANCH, step)
        self.put(LABEL, step)
        self.put(BRANCH, header)
        self.put(LABEL, merge)

    def written(self, value):
        self.put(STORE, OUTPUT, value)
        self.put(RETURN)
        self.put(FUNCTION_END)
        header = [0x07230203, 0x00010000, 0, self.next, 0]
        return struct.pack(f"<{len(header) + len(self.words)}I", *header, *self.words)


def filled(words, extend):
    """A module of so many words; `extend` adds to it, and gives the last value where that is a new one."""
    module = Module()
    value = module.frame()
    while len(module.words) < words:
        value = extend(module, value) or value
    return module.written(value)


def main():
    modules = {
        "straight": filled(WORDS, Module.add),
        "selections": filled(WORDS, Module.selection),
        "loops": filled(WORDS, Module.loop),
        "few_loops": filled(WORDS // 4, Module.loop),
    }
    for name, written in modules.items():
        with open(f"{sys.argv[1]}/{name}.spv", "wb") as file:
            file.write(written)


if __name__ == "__main__":
    main()
