"""Has berkeley-abc prove, or refute, a property of a system, and cadical check the proof, where they are installed.

The proof is an invariant, as clauses over the state, of connections with few words. cadical then checks that it is one,
and that it holds with any number of words: if all parts of so many words of a longer queue meet it, so does what is
left after the next take.
"""

from __future__ import annotations

import re
import shutil
import subprocess
import tempfile
import time
from pathlib import Path
from typing import Dict, Iterator, List, Optional, Tuple

from sancus.model.circuits import TRUE, WIDTH, Bit, Circuit
from sancus.model.described import Deployment
from sancus.model.moves import Move, Moves, State
from sancus.model.property import Property
from sancus.model.search import Found, Shortening
from sancus.model.system import System
from sancus.model.values import Values
from sancus.records import dataclass

ABC, CADICAL = "berkeley-abc", "cadical"
INSTALL = "`apt-get install berkeley-abc cadical` adds engines that may know more"
# Words of a connection, and orders of variables and moves, that are tried: another order gives another invariant.
TRIED = ((1, 0), (2, 0), (2, 1), (2, 2))
MOST_MOVES = 40
# A state that has to be impossible: latches with their values.
Cube = List[Tuple[int, bool]]


def are_there() -> bool:
    return bool(shutil.which(ABC) and shutil.which(CADICAL))


@dataclass
class Deadline:
    """When the engines have to end."""

    seconds: float

    def __post_init__(self) -> None:
        self.end = time.monotonic() + self.seconds

    def left(self) -> int:
        return max(1, int(self.end - time.monotonic()))

    def is_over(self) -> bool:
        return time.monotonic() >= self.end


def abc(script: str, folder: str, seconds: int) -> str:
    """What abc says to a script."""
    try:
        ran = subprocess.run([ABC, "-c", script], cwd=folder, capture_output=True, timeout=seconds + 5)
    except subprocess.TimeoutExpired:
        return ""
    return (ran.stdout + ran.stderr).decode(errors="replace")


# --- Invariants -------------------------------------------------------------------------------------------------------


def cubes_of(path: Path) -> List[Cube]:
    """An invariant as abc writes it: the states that it excludes."""
    names: List[int] = []
    found: List[Cube] = []
    for line in path.read_text().splitlines():
        if line.startswith(".ilb"):
            names = [int(re.sub(r"\D", "", it)) for it in line.split()[1:]]
        elif line[:1] in ("0", "1", "-"):
            found.append([(name, it == "1") for name, it in zip(names, line.split()[0]) if it != "-"])
    return found


def excluded(circuit: Circuit, cubes: List[Cube], latches: List[Bit]) -> Bit:
    """Whether a state is none of those that an invariant excludes."""
    made = TRUE
    for cube in cubes:
        made = circuit.both(made, circuit.all([latches[at] ^ (not is_one) for at, is_one in cube]) ^ 1)
    return made


@dataclass
class Clauses:
    """A question for cadical: bits of a circuit that are all to be true."""

    circuit: Circuit

    def can_be(self, bits: List[Bit], seconds: int) -> Optional[bool]:
        """Whether they can; none if there is no answer in time."""
        order = self.circuit.order(bits)
        number = {gate: at for at, gate in enumerate([0, *self.circuit.inputs, *self.circuit.latches, *order], 1)}

        def literal(bit: Bit) -> int:
            return -number[bit >> 1] if bit & 1 else number[bit >> 1]

        lines = ["-1 0", *(f"{literal(it)} 0" for it in bits)]
        for gate in order:
            operands = self.circuit.gates[gate]
            assert operands
            a, b, made = literal(operands[0]), literal(operands[1]), number[gate]
            lines += [f"{-made} {a} 0", f"{-made} {b} 0", f"{made} {-a} {-b} 0"]
        text = f"p cnf {len(number)} {len(lines)}\n" + "".join(f"{it}\n" for it in lines)
        try:
            ran = subprocess.run([CADICAL, "-q", "-n"], input=text.encode(), capture_output=True, timeout=seconds)
        except subprocess.TimeoutExpired:
            return None
        return {10: True, 20: False}.get(ran.returncode)


@dataclass
class Invariant:
    """An invariant of a system, to be checked."""

    system: System
    cubes: List[Cube]

    def __post_init__(self) -> None:
        self.circuit = self.system.circuit
        self.latches = [2 * it for it in self.circuit.latches]
        self.places: Dict[object, int] = {}
        at = 0
        for it in self.system.variables:
            self.places[it.key] = at
            at += it.width

    def is_inductive(self, deadline: Deadline) -> bool:
        """Whether it holds of all states with so few words on their way, and none of them breaks the property."""
        own = excluded(self.circuit, self.cubes, self.latches)
        if self.circuit.values([own], dict.fromkeys(self.circuit.latches, 0)) != [1]:
            return False
        after = excluded(self.circuit, self.cubes, self.circuit.next)
        good = self.circuit.both(after, self.system.bad ^ 1)
        return Clauses(self.circuit).can_be([own, good ^ 1], deadline.left()) is False

    def is_of_any_length(self, deadline: Deadline) -> bool:
        """Whether it holds with any number of words on their way."""
        questions = (self.longer(it.name) for it in self.system.moves.links)
        return all(Clauses(self.circuit).can_be(it, deadline.left()) is False for it in questions)

    def word_at(self, link: str, place: int) -> int:
        return self.places["way", link, place]

    def longer(self, link: str) -> List[Bit]:
        """A state with one word more on its way over a connection, all parts of which meet the invariant, and what is
        left after a take doesn't."""
        room, system = self.system.room, self.system
        more = [self.circuit.input() for _ in range(WIDTH)]
        words = [[self.latches[self.word_at(link, i) + bit] for bit in range(WIDTH)] for i in range(room)] + [more]
        asked: List[Bit] = []
        for left_out in range(room + 1):
            part = list(self.latches)
            for i, word in enumerate(words[:left_out] + words[left_out + 1 :]):
                part[self.word_at(link, i) : self.word_at(link, i) + WIDTH] = word
            asked.append(excluded(self.circuit, self.cubes, part))
        after, last = list(self.circuit.next), self.word_at(link, room - 1)
        after[last : last + WIDTH] = more
        after[self.places["way", link, room - 1, "is"]] = TRUE
        asked += [self.latches[self.places["way", link, i, "is"]] for i in range(room)]
        number = system.all_moves.index(("take", link))
        asked += [it ^ 1 ^ ((number >> i) & 1) for i, it in enumerate(system.move_bits)]
        return [*asked, system.possible[number], excluded(self.circuit, self.cubes, after) ^ 1]


# --- Engines ----------------------------------------------------------------------------------------------------------


@dataclass
class Proof:
    """What pdr says: whether there is a checked invariant, and its size; or whether a run breaks the property."""

    is_proved: bool = False
    clauses: int = 0
    words: int = 0
    is_broken: bool = False

    def told(self) -> str:
        if self.is_proved:
            return (
                f"by an invariant of {self.clauses} clauses that {ABC} found and {CADICAL} checked; the proved program "
                "didn't"
            )
        many = "1 event" if self.words == 1 else f"{self.words} events"
        return f"it holds as long as at most {many} of each connection are on their way" if self.words else ""


def tried(deployment: Deployment, property: Property, room: int, seed: int, deadline: Deadline) -> Proof:
    system = System(Moves(deployment, property, is_whole=False), room, seed)
    with tempfile.TemporaryDirectory() as folder:
        (Path(folder) / "it.aig").write_bytes(system.circuit.aiger(system.bad))
        said = abc(f"read_aiger it.aig; strash; pdr -d -I inv.pla -T {deadline.left()}", folder, deadline.left())
        if "was asserted in frame" in said:
            return Proof(is_broken=True)
        path = Path(folder) / "inv.pla"
        if "Property proved" not in said or not path.exists():
            return Proof()
        invariant = Invariant(system, cubes_of(path))
    if not invariant.is_inductive(deadline):
        return Proof()
    return Proof(invariant.is_of_any_length(deadline), len(invariant.cubes), room)


def proof(deployment: Deployment, property: Property, seconds: float) -> Proof:
    """An invariant, if one is found in this time."""
    deadline, best = Deadline(seconds), Proof()
    for room, seed in TRIED:
        made = tried(deployment, property, room, seed, deadline)
        if made.is_proved or made.is_broken:
            return made
        best = made if made.words > best.words else best
        if deadline.is_over():
            break
    return best


@dataclass
class Frames:
    """The steps of a run that abc found, by the inputs at each."""

    system: System
    rows: List[str]

    def states(self) -> Iterator[Tuple[Dict[object, int], int, int, int]]:
        """At each step the state before it, its move, the value that is given, and whether it breaks the property."""
        system, c = self.system, self.system.circuit
        latches = dict.fromkeys(c.latches, 0)
        roots = [*c.next, system.bad]
        for row in self.rows:
            given = dict(zip(c.inputs, (int(it == "1") for it in row)))
            values = c.values(roots, {**latches, **given})
            state = self.named(latches)
            move = sum(given[bit >> 1] << i for i, bit in enumerate(system.move_bits))
            word = sum(given[bit >> 1] << i for i, bit in enumerate(system.given))
            yield state, move, word, values[-1]
            latches = dict(zip(c.latches, values))

    def named(self, latches: Dict[int, int]) -> Dict[object, int]:
        at = 0
        made: Dict[object, int] = {}
        values = list(latches.values())
        for it in self.system.variables:
            first = self.system.start.get(it.key, it.first)
            made[it.key] = sum(bit << i for i, bit in enumerate(values[at : at + it.width])) ^ first
            at += it.width
        return made


def started(system: System, state: State) -> Dict[Tuple[object, ...], int]:
    """A state of the moves as that of the system."""
    made: Dict[Tuple[object, ...], int] = {}
    for name, it in zip(system.moves.modules, state.modules):
        made["present", name] = it.is_present
        made["attested", name] = made["known", name] = it.is_attested
    tree = system.property.module.cells()
    for declared, values in zip(tree, state.seen):
        made.update({("seen", declared.name, i): value for i, value in enumerate(values)})
    return {key: int(value) for key, value in made.items() if key in system.keys}


@dataclass
class Refuter:
    """Looks for a run with bmc3."""

    deployment: Deployment
    property: Property
    deadline: Deadline

    def found(self) -> Optional[Found]:
        for is_whole, is_deployed in ((True, True), (True, False), (False, True), (False, False)):
            made = None if self.deadline.is_over() else self.run(is_whole, is_deployed)
            if made:
                return made
        return None

    def run(self, is_whole: bool, is_deployed: bool) -> Optional[Found]:
        moves = Moves(self.deployment, self.property, room=64, is_whole=is_whole)
        deploying = [it for m in moves.modules for it in moves.deploys(m)] if is_deployed else []
        state = moves.start()
        for it in deploying:
            made = moves.step(state, it)
            if not made or not made.state:
                return None
            state = made.state
        start = started(System(moves, 2), state)
        system = System(moves, 2, start=start)
        rows = self.rows(system)
        run = self.as_moves(moves, state, Frames(system, rows)) if rows else None
        return self.shortened(moves, state, deploying, run) if run else None

    def rows(self, system: System) -> List[str]:
        """The inputs of a run that breaks the property, a step each."""
        seconds = max(1, self.deadline.left() // 2)
        with tempfile.TemporaryDirectory() as folder:
            (Path(folder) / "it.aig").write_bytes(system.circuit.aiger(system.bad))
            script = f"read_aiger it.aig; strash; bmc3 -F {MOST_MOVES} -T {seconds}; write_cex -a it.cex"
            if "was asserted in frame" not in abc(script, folder, seconds):
                return []
            lines = (Path(folder) / "it.cex").read_text().splitlines()
        # (the first line is the state before, and the last ends with a remark)
        rows = [found.group() for found in (re.match("[01x]+", it) for it in lines[1:]) if found]
        return [it for it in rows if len(it) == len(system.circuit.inputs)]

    def as_moves(self, moves: Moves, state: State, frames: Frames) -> Optional[List[Move]]:
        """The same run as moves, with the words before a taken one lost."""
        made: List[Move] = []
        now = state
        for before, number, word, is_bad in frames.states():
            if number >= len(frames.system.all_moves):
                continue
            for it in self.move(moves, now, before, frames.system.all_moves[number], word):
                step = moves.step(now, it)
                if step is None:
                    return None
                made.append(it)
                if step.is_broken or step.state is None:
                    return made if step.is_broken else None
                now = step.state
            if is_bad:
                break
        return None

    def move(
        self, moves: Moves, now: State, before: Dict[object, int], chosen: Tuple[object, ...], word: int
    ) -> List[Move]:
        kind, name = str(chosen[0]), str(chosen[1])
        if kind == "lose":
            return []
        if kind == "take":
            words, wanted = now.queues[moves.link_index[name]], before["way", name, 0]
            return [Move("take", name, words.index(wanted) if wanted in words else 0)]
        if kind == "read" and ("value", moves.sensor_of[name]) not in before:
            return [Move("sense", moves.sensor_of[name], word & 0x7FFF), Move("read", name)]
        value = word & 0x7FFF if kind == "sense" else word if kind == "raw" else 0
        return [Move(kind, name, value)]

    def shortened(self, moves: Moves, state: State, deploying: List[Move], run: List[Move]) -> Found:
        shortening = Shortening(moves, state, Values(moves).numbers)
        run = shortening.smaller(shortening.shorter(run))
        steps = moves.replay(moves.start(), [*deploying, *run]) or []
        attested = [it for it in moves.modules if moves.attests(it)]
        return Found(self.deployment, self.property, moves.modules, attested, moves.is_whole, deploying, run, steps)


def refutation(deployment: Deployment, property: Property, seconds: float) -> Optional[Found]:
    """A run that breaks the property, if one is found in this time."""
    return Refuter(deployment, property, Deadline(seconds)).found()
