"""Circuits of and-gates: bits and words of 16 bits over them, and their text for other tools (AIGER)."""

from __future__ import annotations

from typing import Dict, List, Optional, Tuple

from sancus.records import dataclass, field


# A bit is twice a gate's number, and one more if it is inverted.
Bit = int
Word = List[Bit]
FALSE, TRUE, WIDTH = 0, 1, 16


def constant(value: int, width: int = WIDTH) -> Word:
    return [(value >> i) & 1 for i in range(width)]


@dataclass
class Circuit:
    """Gates by number: 0 is false; an input or a latch has no operands. Equal gates are one."""

    gates: List[Optional[Tuple[Bit, Bit]]] = field(default_factory=lambda: [None])
    known: Dict[Tuple[Bit, Bit], int] = field(default_factory=dict)
    inputs: List[int] = field(default_factory=list)
    latches: List[int] = field(default_factory=list)
    # what each latch becomes
    next: List[Bit] = field(default_factory=list)

    def gate(self, operands: Optional[Tuple[Bit, Bit]]) -> int:
        self.gates.append(operands)
        return len(self.gates) - 1

    def input(self) -> Bit:
        self.inputs.append(self.gate(None))
        return 2 * self.inputs[-1]

    def latch(self) -> Bit:
        self.latches.append(self.gate(None))
        self.next.append(FALSE)
        return 2 * self.latches[-1]

    # --- Bits ---

    def both(self, a: Bit, b: Bit) -> Bit:
        a, b = min(a, b), max(a, b)
        if a == FALSE or a == b ^ 1:
            return FALSE
        if a == TRUE or a == b:
            return b
        if (a, b) not in self.known:
            self.known[a, b] = self.gate((a, b))
        return 2 * self.known[a, b]

    def either(self, a: Bit, b: Bit) -> Bit:
        return self.both(a ^ 1, b ^ 1) ^ 1

    def differ(self, a: Bit, b: Bit) -> Bit:
        if a < 2 or b < 2:
            return a ^ b
        return self.either(self.both(a, b ^ 1), self.both(a ^ 1, b))

    def choose(self, test: Bit, a: Bit, b: Bit) -> Bit:
        if test < 2 or a == b:
            return a if test else b
        return self.either(self.both(test, a), self.both(test ^ 1, b))

    def all(self, bits: List[Bit]) -> Bit:
        made = TRUE
        for it in bits:
            made = self.both(made, it)
        return made

    # --- Words ---

    def select(self, test: Bit, a: Word, b: Word) -> Word:
        return [self.choose(test, x, y) for x, y in zip(a, b)]

    def sum(self, a: Word, b: Word, carry: Bit) -> Tuple[Word, Bit]:
        made = []
        for x, y in zip(a, b):
            differs = self.differ(x, y)
            made.append(self.differ(differs, carry))
            carry = self.either(self.both(x, y), self.both(differs, carry))
        return made, carry

    def add(self, a: Word, b: Word) -> Word:
        return self.sum(a, b, FALSE)[0]

    def subtract(self, a: Word, b: Word) -> Word:
        return self.sum(a, [it ^ 1 for it in b], TRUE)[0]

    def multiply(self, a: Word, b: Word) -> Word:
        if all(it < 2 for it in a):
            a, b = b, a
        made = constant(0)
        for i, bit in enumerate(b):
            if bit != FALSE:
                made = self.add(made, [FALSE] * i + [self.both(bit, it) for it in a[: WIDTH - i]])
        return made

    def equal(self, a: Word, b: Word) -> Bit:
        return self.all([self.differ(x, y) ^ 1 for x, y in zip(a, b)])

    def below(self, a: Word, b: Word) -> Bit:
        return self.sum(a, [it ^ 1 for it in b], TRUE)[1] ^ 1

    def nonzero(self, a: Word) -> Bit:
        return self.all([it ^ 1 for it in a]) ^ 1

    # --- For other tools ---

    def order(self, roots: List[Bit]) -> List[int]:
        """The gates with operands on which some bits rest, each after its operands."""
        seen, found = {0, *self.inputs, *self.latches}, []
        stack = [it >> 1 for it in reversed(roots)]
        while stack:
            gate = stack[-1]
            operands = self.gates[gate]
            waits = [it >> 1 for it in operands or () if it >> 1 not in seen] if gate not in seen else []
            if waits:
                stack += waits
                continue
            stack.pop()
            if gate not in seen:
                seen.add(gate)
                if operands:
                    found.append(gate)
        return found

    def aiger(self, bad: Bit) -> bytes:
        """The circuit in the binary form of AIGER, with one bad state."""
        order = self.order([*self.next, bad])
        number = {gate: at for at, gate in enumerate([0, *self.inputs, *self.latches, *order])}

        def bit(it: Bit) -> int:
            return 2 * number[it >> 1] + (it & 1)

        head = f"aig {len(number) - 1} {len(self.inputs)} {len(self.latches)} 1 {len(order)}\n"
        made = bytearray(head.encode() + b"".join(b"%d\n" % bit(it) for it in (*self.next, bad)))
        for gate in order:
            operands = self.gates[gate]
            assert operands
            low, high = sorted(bit(it) for it in operands)
            for delta in (2 * number[gate] - high, high - low):
                while delta >= 128:
                    made.append(delta & 127 | 128)
                    delta >>= 7
                made.append(delta)
        return bytes(made)

    def values(self, roots: List[Bit], given: Dict[int, int]) -> List[int]:
        """What some bits are, if inputs and latches are these."""
        known = {0: 0, **given}
        for gate in self.order(roots):
            operands = self.gates[gate]
            assert operands
            a, b = operands
            known[gate] = (known[a >> 1] ^ (a & 1)) & (known[b >> 1] ^ (b & 1))
        return [known[it >> 1] ^ (it & 1) for it in roots]
