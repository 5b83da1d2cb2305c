#!/usr/bin/env python3
"""Writes modules with specialization constants, and the shaders of examples/, each with the entry that it is specialised with.

usage: make.py FOLDER
"""
import importlib.util
import pathlib
import struct
import sys

HERE = pathlib.Path(__file__).resolve().parent
SHADERS = HERE.parent.parent / "examples" / "shaders"
(SPEC_CONSTANT, U_DIV, SPEC_ID, NUMBER, VALUE) = (50, 134, 1, 7, 5)
# the shaders that have specialization constants: the number of one, and its value
ENTRIES = {"tiles.frag": [0, 2], "switch.frag": [4, 1]}

spec = importlib.util.spec_from_file_location("modules", HERE.parent / "modules" / "make.py")
modules = importlib.util.module_from_spec(spec)
spec.loader.exec_module(modules)


class Module(modules.Module):
    """A module whose first value is read from an input, and with a specialization constant, which is 0 by default."""

    def __init__(self):
        super().__init__()
        self.constant = self.id()
        self.counted = self.constant
        self.turns = 0

    def put(self, opcode, *operands):
        if opcode == modules.TYPE_VOID:
            super().put(modules.DECORATE, self.constant, SPEC_ID, NUMBER)
        super().put(opcode, *operands)
        if opcode == modules.CONSTANT:
            super().put(SPEC_CONSTANT, modules.INT, self.constant, 0)

    def one_of(self, value):
        """By turns the constant and the value."""
        self.turns += 1
        return self.constant if self.turns % 2 else value

    def chain(self, value):
        """By turns one more than the constant, and so on, and one more than the value."""
        self.turns += 1
        if self.turns % 2:
            self.counted = self.add(self.counted)
            return value
        return self.add(value)

    def division(self, value):
        result = self.id()
        self.put(U_DIV, modules.INT, result, value, self.constant)
        return result

    def some_selection(self, value):
        self.selection(self.one_of(value))

    def some_loop(self, value):
        self.loop(self.one_of(value))


def filled(words, extend):
    module = Module()
    value = module.frame()
    while len(module.words) < words:
        value = extend(module, value) or value
    return module.written(value)


def write(folder, name, module, entries):
    (folder / f"{name}.spv").write_bytes(module)
    (folder / f"{name}.entries").write_bytes(struct.pack(f"<{len(entries)}I", *entries))


def main():
    folder = pathlib.Path(sys.argv[1])
    made = {
        "straight": filled(modules.WORDS, Module.chain),
        "selections": filled(modules.WORDS, Module.some_selection),
        "loops": filled(modules.WORDS, Module.some_loop),
        "few_loops": filled(modules.WORDS // 4, Module.some_loop),
        "division": filled(1, Module.division),
    }
    for name, module in made.items():
        write(folder, name, module, [NUMBER, VALUE])
    for file in sorted(SHADERS.glob("*.words")):
        words = [int(word, 16) for word in file.read_text().split()]
        write(folder, file.stem, struct.pack(f"<{len(words)}I", *words), ENTRIES.get(file.stem, []))


main()
