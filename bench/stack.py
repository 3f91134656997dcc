#!/usr/bin/env python3
"""Prints how many bytes of stack each kk_ function of an x86-64 archive takes.

    objdump -d -r --no-show-raw-insn ARCHIVE | stack.py

The depth of the stack is followed along the branches from a function's start, where the return
address is on it, 8 bytes; what is used below the stack pointer counts, and a call adds what the
callee takes. Whatever cannot be bounded is an error: a stack pointer that is moved otherwise than
by a number, paths that meet at different depths, calls through a pointer, recursion. A function
that is called and is not in the archive is named; its stack is not in the numbers.
"""

import re
import sys
from dataclasses import dataclass, field

RETURN_ADDRESS = 8

# Lines of objdump.
MEMBER = re.compile(r"(\S+):\s+file format (\S+)")
SECTION = re.compile(r"Disassembly of section (.+):")
FUNCTION = re.compile(r"([0-9a-f]+) <(.+)>:")
PREFIXES = r"(?:(?:bnd|cs|data16|lock|notrack|rep|repz|repnz) )*"
INSTRUCTION = re.compile(rf" *([0-9a-f]+):\t{PREFIXES}(\S+) *(.*)")
RELOCATION = re.compile(r"\t+[0-9a-f]+: R_X86_64_\w+\t(.+?)([+-]0x[0-9a-f]+)?")

# Instructions, as name and operands.
RAISES = re.compile(r"addq? \$(-?0x[0-9a-f]+),%rsp|lea (-?0x[0-9a-f]+)\(%rsp\),%rsp")
LOWERS = re.compile(r"subq? \$(-?0x[0-9a-f]+),%rsp")
BELOW = re.compile(r"-(0x[0-9a-f]+)\(%rsp")
MOVES_OTHERWISE = re.compile(r"push|pop(?!cnt)|enter|leave|xchg .*%[re]?sp\b|(?!cmp|test).*,%[re]?sp$")
PADDING = re.compile(r"nop|xchg +%ax,%ax|int3")


def signed(number):
    """A number as objdump writes it: one below 0 as 64 bits, or with a minus."""
    value = int(number, 16)
    return value - 2**64 if value >= 2**63 else value


class Unbounded(Exception):
    """Why the stack cannot be bounded."""


@dataclass
class Instruction:
    address: int
    name: str
    operands: str
    symbol: str = ""  # what the linker puts in place of the target, with an offset
    offset: int = 0

    def __str__(self):
        return f"{self.name} {self.operands}".rstrip()

    def jumps(self):
        return self.name.startswith("j")

    def through_pointer(self):
        return (self.jumps() or self.name == "call") and self.operands.startswith("*")

    def target(self):
        """The address that is called or jumped to, in the same section."""
        return int(self.operands.split()[0], 16)

    def moves(self):
        """How many bytes further down it moves the stack pointer; None if that cannot be told."""
        if found := RAISES.fullmatch(str(self)):
            return -signed(found[1] or found[2])
        if found := LOWERS.fullmatch(str(self)):
            return signed(found[1])
        if self.name in ("push", "pop") and self.operands != "%rsp":
            return 8 if self.name == "push" else -8
        return None if MOVES_OTHERWISE.match(str(self)) else 0

    def reaches(self):
        """How many bytes below the stack pointer it names."""
        found = BELOW.search(self.operands)
        return int(found[1], 16) if found else 0


@dataclass
class Function:
    member: str
    section: str
    start: int
    name: str
    code: list[Instruction] = field(default_factory=list)

    def fail(self, instruction, why):
        place = f"{self.member}: {self.name}+{instruction.address - self.start:#x}"
        raise Unbounded(f"{place}: {instruction}: {why}")

    def jumps_inside(self, instruction):
        if not instruction.jumps() or instruction.through_pointer() or instruction.symbol:
            return False
        return self.start <= instruction.target() <= self.code[-1].address

    def jumps_out(self, instruction):
        jumps = instruction.jumps() and not instruction.through_pointer()
        return jumps and not self.jumps_inside(instruction)

    def following(self, i, depth):
        """The instructions that can come after instruction i, which leaves this depth."""
        instruction = self.code[i]
        # A jump by table loads an offset of 4 bytes, which no pointer has.
        by_table = any(other.name == "movslq" for other in self.code[max(i - 4, 0) : i])
        if instruction.through_pointer() and not (instruction.jumps() and by_table):
            self.fail(instruction, "calls through a pointer")
        if instruction.name == "ret" or self.jumps_out(instruction):
            if depth != RETURN_ADDRESS:
                self.fail(instruction, f"leaves the function at depth {depth}")
        following = [] if instruction.name in ("ret", "jmp", "ud2") else [i + 1]
        if following == [len(self.code)]:
            if instruction.name != "call":
                self.fail(instruction, "runs on past the function's end")
            following = []  # a call that does not return
        if self.jumps_inside(instruction):
            addresses = [other.address for other in self.code]
            following.append(addresses.index(instruction.target()))
        return following

    def behind_tables(self, reached):
        """The first instruction that no branch reaches, with the depth of the jumps by table."""
        depths = {depth for i, depth in reached.items() if self.code[i].through_pointer()}
        for i, instruction in enumerate(self.code):
            if i not in reached and not PADDING.match(str(instruction)):
                if len(depths) != 1:
                    self.fail(instruction, "cannot tell how this is reached")
                return [(i, *depths)]
        return []

    def depths(self):
        """The depth of the stack before each instruction that can be reached."""
        reached = {}
        work = [(0, RETURN_ADDRESS)]
        while work or (work := self.behind_tables(reached)):
            i, depth = work.pop()
            instruction = self.code[i]
            if i in reached:
                if reached[i] != depth:
                    self.fail(instruction, f"reached at depths {reached[i]} and {depth}")
                continue
            reached[i] = depth
            moves = instruction.moves()
            if moves is None:
                self.fail(instruction, "moves the stack pointer in a way that is not followed")
            work += [(n, depth + moves) for n in self.following(i, depth + moves)]
        return reached


@dataclass
class Need:
    """The stack that a function takes."""

    own: int  # with the return address
    deepest: int  # with its callees
    chain: list[str]  # the calls on the way to the deepest point
    outside: set[str]  # functions called that are not in the archive


class Archive:
    def __init__(self, lines):
        self.places, self.names, self.needs = {}, {}, {}
        member = section = function = None
        for line in lines:
            if found := MEMBER.fullmatch(line):
                member = found[1]
                if found[2] != "elf64-x86-64":
                    raise Unbounded(f"{member} is {found[2]}: only x86-64 is read")
            elif found := SECTION.fullmatch(line):
                section = found[1]
            elif found := FUNCTION.fullmatch(line):
                function = Function(member, section, int(found[1], 16), found[2])
                if function.name in self.names:
                    raise Unbounded(f"two functions have the name {function.name}")
                self.places[member, section, function.start] = function
                self.names[function.name] = function
            elif found := INSTRUCTION.fullmatch(line):
                operands = found[3].partition("#")[0].strip()
                function.code.append(Instruction(int(found[1], 16), found[2], operands))
            elif found := RELOCATION.fullmatch(line):
                function.code[-1].symbol = found[1]
                function.code[-1].offset = int(found[2] or "0", 16) + 4
            elif line.strip(". ") and not line.startswith("In archive"):
                raise Unbounded(f"cannot read what objdump says: {line!r}")

    def callee(self, function, instruction):
        """The function that is called; None if it is outside the archive."""
        if not instruction.symbol:
            place = function.member, function.section, instruction.target()
        elif instruction.symbol.startswith(".text"):
            place = function.member, instruction.symbol, instruction.offset
        elif instruction.offset == 0:
            return self.names.get(instruction.symbol)
        else:
            place = None
        if place not in self.places:
            function.fail(instruction, "calls what is not the start of a function")
        return self.places[place]

    def need(self, function, callers=()):
        if function.name in callers:
            raise Unbounded(f"recursion: {' > '.join((*callers, function.name))}")
        if function.name not in self.needs:
            depths = function.depths()
            own = max(depth + function.code[i].reaches() for i, depth in depths.items())
            need = Need(own, own, [], set())
            for i, depth in depths.items():
                instruction = function.code[i]
                if function.jumps_out(instruction):
                    depth -= RETURN_ADDRESS  # the callee returns for this function
                elif instruction.name != "call":
                    continue
                callee = self.callee(function, instruction)
                if callee is None:
                    need.outside.add(instruction.symbol)
                    continue
                below = self.need(callee, (*callers, function.name))
                need.outside |= below.outside
                if depth + below.deepest > need.deepest:
                    need.deepest = depth + below.deepest
                    need.chain = [f"{callee.name} {below.own}", *below.chain]
            self.needs[function.name] = need
        return self.needs[function.name]


def main():
    try:
        archive = Archive(sys.stdin.read().splitlines())
        names = sorted(name for name in archive.names if re.match(r"kk\d*_", name))
        if not names:
            raise Unbounded("no function has a name with kk_ or kk128_")
        needs = [(name, archive.need(archive.names[name])) for name in names]
    except Unbounded as why:
        sys.exit(f"stack.py: {why}")
    print(f"{'stack in bytes':<16} {'own':>6} {'deepest':>8}  by way of")
    for name, need in needs:
        way = " > ".join(need.chain)
        if need.outside:
            way += f" (not counted: {', '.join(sorted(need.outside))})"
        print(f"{name:<16} {need.own:>6} {need.deepest:>8}  {way.lstrip()}".rstrip())


if __name__ == "__main__":
    main()
