#!/usr/bin/env python3
"""Writes unwind tables for the machine code of an object: `unwind_tables.py OBJECT TABLES OPTIONS`.

The toolchain's compiler writes none, so no debugger or profiler could tell who called a function. Here the code is read as objdump tells it. It
keeps no frame pointer and moves the stack pointer by numbers that stand in it, so at each instruction one walk over its jumps says where the
caller's frame begins, and where the registers of the caller lie that were pushed.

TABLES is the assembly of a section `unwind_tables`, which is to be named .eh_frame once it is in one object with the code, since linkers want the
two together. OPTIONS has what objcopy is to do with OBJECT before they are joined: functions that are local become global, and one that others may
take the place of at run time gets a name of its own. The code stays as it is.

A function of which two ways to one instruction tell different things, or with an instruction that isn't known, is named on standard error and
gets no table; the status is then 1.
"""
import re
import subprocess
import sys

# The numbers that unwind tables have for the registers that a function leaves as they were (System V ABI, AMD64, figure 3.36).
KEPT = {"%rbx": 3, "%rbp": 6, "%r12": 12, "%r13": 13, "%r14": 14, "%r15": 15}
STACK_POINTER, RETURN_ADDRESS = 7, 16
# What a table says (DWARF 4, 7.23), and how an address stands in it: four bytes, from where it stands.
ADVANCE, OFFSET, RESTORE, ADVANCE_BY_4, DEFINE, DEFINE_OFFSET = 0x40, 0x80, 0xC0, 0x04, 0x0C, 0x0E
RELATIVE = 0x1B
WORD = 8
# At a function's begin: the return address is pushed.
AT_ENTRY = (WORD, ())

FUNCTION = re.compile(r"^[0-9a-f]+ <(.+)>:$")
INSTRUCTION = re.compile(r"^ *([0-9a-f]+):\t(\S+) *(.*)$")
RELOCATED = re.compile(r"\t[0-9a-f]+: R_X86_64_")
TARGET = re.compile(r"^([0-9a-f]+) <")
MOVED = re.compile(r"^\$(0x[0-9a-f]+),%rsp$")
LOADED = re.compile(r"^(-?0x[0-9a-f]+)\(%rsp\),%rsp$")
PREFIXES = ("lock", "rep", "repz", "repnz", "notrack", "data16", "cs")


class Unknown(Exception):
    """Says at which address a function can't be followed."""


class Instruction:
    def __init__(self, at, name, operands, is_relocated):
        self.at, self.name, self.operands, self.next = at, name, operands, None
        found = TARGET.match(operands)
        # Where it jumps to within its function; a relocated one leads elsewhere, and a call comes back.
        self.target = int(found[1], 16) if found and not is_relocated and name != "call" else None

    def goes_on(self):
        return self.name not in ("jmp", "ret", "ud2", "hlt")

    def jumps_by_a_register(self):
        return self.name == "jmp" and self.operands.startswith("*")

    def leaves(self):
        return self.name == "ret" or self.name == "jmp" and self.target is None and not self.jumps_by_a_register()

    def is_padding(self):
        return self.name.startswith("nop") or self.name in ("int3", "ud2") or (self.name, self.operands) == ("xchg", "%ax,%ax")

    def after(self, state):
        """The state behind it: the bytes from the stack pointer to the caller's frame, and where registers of the caller lie below that."""
        depth, saved = state
        if self.name == "push":
            depth += WORD
            is_first = self.operands in KEPT and self.operands not in dict(saved)
            return depth, saved + ((self.operands, depth),) if is_first else saved
        if self.name == "pop":
            return depth - WORD, tuple(it for it in saved if it != (self.operands, depth))
        moved, loaded = MOVED.match(self.operands), LOADED.match(self.operands)
        if moved and self.name in ("sub", "add"):
            number = int(moved[1], 16)
            number -= (1 << 64) if number >> 63 else 0
            return depth + (number if self.name == "sub" else -number), saved
        if loaded and self.name == "lea":
            return depth - int(loaded[1], 16), saved
        is_read = self.name in ("cmp", "test") or self.name.startswith("push")
        if self.operands.endswith(",%rsp") and not is_read or self.name in ("leave", "enter", "pushf", "popf"):
            raise Unknown(f"{self.at:x}: {self.name} {self.operands}")
        return state


def functions_of(told):
    """The functions of what objdump told, by name, with the instructions of each."""
    found = {}
    for line in told.splitlines():
        name, it = FUNCTION.match(line), INSTRUCTION.match(line)
        if name:
            code = found.setdefault(name[1], [])
        elif it:
            operation, operands = it[2], it[3].partition("\t")[0].strip()
            while operation in PREFIXES and operands:
                operation, _, operands = operands.partition(" ")
            code.append(Instruction(int(it[1], 16), operation, operands.partition("#")[0].strip(), bool(RELOCATED.search(line))))
            if len(code) > 1:
                code[-2].next = code[-1].at
    return found


def states_of(code):
    """The state before each instruction that is reached."""
    at, known, far = {it.at: it for it in code}, {}, set()
    waiting = [(code[0].at, AT_ENTRY)]
    while waiting:
        here, state = waiting.pop()
        it = at[here]
        if here not in known:
            known[here] = state
            if it.leaves() and state != AT_ENTRY:
                raise Unknown(f"{here:x} leaves it in another state than at its begin")
            waiting += [(one, it.after(state)) for one in (it.target, it.next if it.goes_on() else None) if one in at]
            if it.jumps_by_a_register():
                far.add(state)
        elif known[here] != state:
            raise Unknown(f"{here:x} is reached in two states")
        waiting = waiting or reached_from_far(code, known, far)
    return known


def reached_from_far(code, known, far):
    """What is reached by a jump through a register alone, which has the state of that jump: the first one, or none where all are known."""
    left = [it.at for it in code if it.at not in known and not it.is_padding()]
    if left and len(far) != 1:
        raise Unknown(f"{left[0]:x} is reached in no state, or in one of {len(far)}")
    return [(left[0], *far)] if left else []


def numbers_of(code):
    """What the table says of a function, as lines of assembly."""
    states, (depth, saved), since = states_of(code), AT_ENTRY, code[0].at
    for it in code:
        now = states.get(it.at, (depth, saved))
        if now == (depth, saved):
            continue
        yield f".byte {ADVANCE_BY_4}" if it.at - since > 63 else f".byte {ADVANCE + it.at - since}"
        if it.at - since > 63:
            yield f".long {it.at - since}"
        if now[0] != depth:
            yield f".byte {DEFINE_OFFSET}"
            yield f".uleb128 {now[0]}"
        for register, place in sorted(set(now[1]) - set(saved)):
            yield f".byte {OFFSET + KEPT[register]}"
            yield f".uleb128 {place // WORD}"
        for register, _ in sorted(set(saved) - set(now[1])):
            if register not in dict(now[1]):
                yield f".byte {RESTORE + KEPT[register]}"
        (depth, saved), since = now, it.at


def head():
    """What all functions have in common."""
    yield '.section unwind_tables,"a",@progbits'
    yield ".Lcommon: .long .Lcommon_end - .Lcommon_begin"
    yield ".Lcommon_begin: .long 0"
    yield '.byte 1; .asciz "zR"; .uleb128 1; .sleb128 -8'
    yield f".byte {RETURN_ADDRESS}; .uleb128 1; .byte {RELATIVE}"
    yield f".byte {DEFINE}; .uleb128 {STACK_POINTER}; .uleb128 {WORD}; .byte {OFFSET + RETURN_ADDRESS}; .uleb128 1"
    yield ".balign 8"
    yield ".Lcommon_end:"


def table_of(number, name, size, lines):
    yield f".Ltable_{number}: .long .Ltable_{number}_end - .Ltable_{number}_begin"
    yield f".Ltable_{number}_begin: .long . - .Lcommon"
    yield f'.long "{name}" - .; .long {size}; .uleb128 0'
    yield from lines
    yield ".balign 8"
    yield f".Ltable_{number}_end:"


def told_by(*words):
    return subprocess.run(words, check=True, stdout=subprocess.PIPE, encoding="utf-8", errors="replace").stdout


class Symbol:
    """A function of the symbol table, whose lines are a value, flags, a section, a size and a name."""

    LINE = re.compile(r"^([0-9a-f]+) (.)....?.F (\S+)\t([0-9a-f]+) (?:\.hidden )?(.+)$")

    def __init__(self, found, number):
        self.value, self.section, self.size, self.name = int(found[1], 16), found[3], int(found[4], 16), found[5]
        self.is_global = found[2] == "g"
        # What tables call it. Debuggers pass over names that begin so.
        self.alias = f".Lunwind_{number}" if self.is_global else self.name

    def option(self):
        if self.is_global:
            return f"--add-symbol {self.alias}={self.section}:{self.value:#x},global"
        return f"--globalize-symbol={self.name}"


def symbols_of(path):
    lines = [Symbol.LINE.match(line) for line in told_by("objdump", "-t", path).splitlines()]
    return {it.name: it for it in (Symbol(found, number) for number, found in enumerate(lines) if found)}


def main(path, tables, options):
    symbols, failed = symbols_of(path), False
    lines, wanted = list(head()), []
    for number, (name, code) in enumerate(functions_of(told_by("objdump", "-drw", "--no-show-raw-insn", path)).items()):
        try:
            symbol = symbols[name]
            lines += list(table_of(number, symbol.alias, symbol.size, list(numbers_of(code))))
            wanted.append(symbol.option())
        except (Unknown, KeyError) as why:
            failed = True
            print(f"unwind_tables.py: {name} gets no table: {why}", file=sys.stderr)
    lines.append('.section .note.GNU-stack,"",@progbits')
    for file, text in ((tables, lines), (options, wanted)):
        with open(file, "w", encoding="utf-8") as opened:
            opened.write("\n".join([*text, ""]))
    return failed


if __name__ == "__main__":
    if len(sys.argv) != 4:
        sys.exit(__doc__)
    sys.exit(main(*sys.argv[1:]))
