#!/usr/bin/env python3
"""Prints the definitions that a reader of the headline must believe, by what it reaches, with the lines of each file.

    tools/believed.py [CRATE.FILE.NAME..]      from these definitions on, where some are named

What else is in the files of specs/ that are reached is shown too, by name: no file should hold any.

A definition is reached if its name is in one that is reached. Its lines count without comments and imports;
the kit's own definitions don't count. Of some definitions a reader believes only that they are functions (FUNCTIONS);
what is beyond these isn't reached. Two tiers: the core is about runs, for every sound setting and every list of
lines in form; the rest is what leads there from the text that is read, and to the text that is written. What `forged`
and keys say (the crates law_forgery and law_connections, and what is reached through them alone) is counted by itself, and in no
other number; of this, what the keys of connections show has a line of its own. So have what says how seldom a `forged` comes, and
what properties of applications mean.
"""

import re
import sys
from collections import defaultdict
from pathlib import Path

CRATES = Path(__file__).resolve().parent.parent / "crates"

SOURCE = ["sx_model.Legal.Legal", "sx_model.Legal.before"]
CORE = SOURCE + [
    "spec_run.Law.RunsLegal",
    "law_isolation.Guarded.GuardedRun",
    "sx_trace.Items.item_words", "sx_trace.Items.spaced_words",
    "sx_tag.Mac.hmac_sha256",
]
# The record of the command `run` with the moments that it is about, and what the whole program promises.
HEADLINE = ["*.Promise.RunDeployPromise", "command_promise.Told.command_at"]
PROGRAM = ["*.Promise.ProgramPromise", "command_promise.Status.status_number"]
# What the first `forged` of a run says, and what keys show.
FORGED = [f"law_forgery.{law}" for law in (
    "Forgery.ForgedUnmade", "Forgery.ForgedShown", "Logged.LedgerTells",
    "Unseen.KeysUnseen", "Unseen.RunsKeysUnseen", "Unseen.PlayersSeeTheSame", "Named.NamesAgree", "Named.TagsTabled",
)]
# What the keys of connections show.
LINKS = [f"law_connections.{law}" for law in ("LinksUnseen.LinksAreUnseen", "Unlinks.HasMoved", "Found.KeysFound")]
# What a property's text means, when it is broken, and that no run breaks it. What `watch` and `holds` say of that is the program's, as what all
# commands say of their input.
PROPERTIES = ["sx_watch.Text.IsProperty", "sx_watch.Watched.broken_at", "law_never.Never.IsNeverBroken"]
# How seldom a `forged` comes: counts of tables, makers of schedules, and what their distinguishers say.
ODDS = [
    "law_rarity.Erring.ForgersAreTold", "law_rarity.Erring.DistinguisherSeldomErrs",
    "law_counting.Pads.CiphersAreRandom", "law_rarity.Once.PadsOnce",
    *(f"law_makers.{law}" for law in (
        "Makers.MakersSeeTheSame", "Makers.DistinguisherIsRun", "Makers.DistinguisherKnowsNoKey",
        "LinkMakers.SeesNoLink", "Time.StepsShowNoKey", "Time.ShowsNoLink", "NamedSound.NamedIsSound",
        "Impostors.IdentitiesDiffer", "Impostors.ImpostorsHaveOtherNames", "Impostors.NamesAreUnlawful",
    )),
]
# What a run asks of tags, players who guess, tables of any tags, and other keys in the place of those of connections: steps to the laws of ODDS,
# which don't speak of them, so that nobody has to believe these there.
USES = [
    "law_counting.Guesses.FewGuessesHit", "law_counting.Meeting.FewMeet",
    "law_rarity.Places.PlacesUnseen", "law_rarity.Places.PlacesRarelyHit", "law_rarity.Rare.ForgeriesAreRare", "law_rarity.Covering.AllHaveBoots", "law_rarity.Names.NamedHasNames",
    *(f"law_uses.{law}" for law in (
        "UsesAlone.UsesAlone", "Whole.ScriptsAlone", "Whole.RunsAlone", "Whole.KeysAreHeld",
        "GivenLogged.GivenAreLogged", "GivenLogged.HeldAreLogged",
        "Fresh.UnmadeWasNotGiven", "Fresh.ForgedWasNotGiven", "Unasked.UnaskedIsUnseen", "Hit.ForgedIsHit", "Hit.ModuleTagsHitFresh",
    )),
]
# Promises of docs/GUARANTEES.md with the statements that carry them; `*` is every definition of a file. tools/contracts.py lists what they reach.
PROMISES = {
    "what `guarded` says": ["law_isolation.Guarded.GuardedRun", "law_isolation.Laws.*"],
    "what one `call` line does": ["law_calls.Laws.*", "law_calls.FourCalls.*"],
    "what an honest run delivers": ["command_drive.Promise.DrivePromise"],
    "what `forged` says": FORGED,
    "what the keys of connections show": LINKS,
    "how seldom a `forged` comes": ODDS,
    "what a run asks of tags": USES,
    "what runs show in order": ["spec_run.AcceptedLaw.*"],
    "what no run does": ["command_holds.Promise.HoldsPromise"],
    "what `legal` says": ["command_explain.Promise.ExplainPromise"],
    "a trace under a property": ["command_watch.Promise.WatchPromise"],
    "`snap`": ["command_snap.Promise.SnapPromise"],
    "`gen`": ["sx_top.Promise.GenReadsNothing"],
    "`check` and `describe`": ["command_check.Output.CheckPromise", "command_describe.Output.DescribePromise"],
    "`asm` and `dis`": ["command_asm.Assembling.AsmPromise", "command_asm.Disassembling.DisPromise"],
    "the node": ["spec_machine.Laws.*", "spec_machine.NodeLaws.*"],
    "compiled modules": ["sx_image.Realizes.Realizes"],
    "memory in pages": ["sx_pages.Pages.*", "sx_paged.Memory.*"],
}
OF_FORGED = ("law_forgery", "law_connections")
OF_PROPERTIES = ("sx_watch", "law_never")
# The images are a function of the deployment; which one, the compiler says, and nobody has to believe that.
FUNCTIONS = {("command_world.Compiled", "compiled_texts")}

WORD = re.compile(r"[^\s(){}\[\],;:.=→λ∷×⊎≡≤<+*/%&|?!«»]+")
# The operator `>>=`, which a `do` block means, as WORD finds it.
BLOCK = ">>"
HEAD = re.compile(r"^(?:(?:abbrev|unfoldable|pub|record|data|opaque)\s+)*(\S+)")
IMPORT = re.compile(r"(?:pub )?use Rattle\.([\w.]+?)(?:\.\{([^}]*)\}| as (\w+))?$")


class Definition:
    def __init__(self, place, name):
        self.place, self.name, self.lines, self.text = place, name, 0, []


def is_text(line):
    return line.strip() and not line.strip().startswith("--")


def flat(lines):
    """The lines, with what is defined together (`mutual`) as definitions of their own."""
    together = False
    for line in filter(is_text, lines):
        if re.match(r"(?:abbrev |unfoldable )?mutual\b", line):
            together = True
        elif together and line.startswith("  "):
            yield line[2:]
        else:
            together = False
            yield line


def begins(line, name):
    """The name of the definition that begins with this line after that of another, or that other's."""
    if line[0].isspace() or line[0] in "})]":
        return name
    if name and "◌" in name and name.strip("◌") in line.split():
        return name
    return HEAD.match(line).group(1)


def parts(lines):
    """The definitions of a file, each with the names that stand for it: its own, its constructors', its fields'."""
    name, rows = None, []
    for line in flat(lines):
        if line.startswith(("use ", "pub use ", "module ", "pub mod", "mod ", "infix")):
            continue
        head = begins(line, name)
        if head != name:
            if name:
                yield name, rows
            name, rows = head, []
        rows.append(line)
    if name:
        yield name, rows


def constructors(rows):
    if re.match(r"(pub )?data\b", rows[0]):
        for row in rows[1:]:
            yield row.split(":")[0].split()[0] if ":" in row else row.split()[0]


def spoken(name):
    """The word by which a text names a definition: of an operator the part that WORD finds."""
    return WORD.match(name.strip("◌")).group(0) if "◌" in name and WORD.match(name.strip("◌")) else name


def rust_types(crate):
    """The types of a crate's source that definitions name: path, name, lines."""
    for path in (CRATES / crate / "src").rglob("*.rt"):
        text = path.read_text()
        for m in re.finditer(r"^pub (?:enum|struct) (\w+)[^{;]*(?:\{(.*?)^\}|;)", text, re.M | re.S):
            body = [r for r in m.group(0).splitlines() if r.strip() and not r.strip().startswith(("//", "#["))]
            yield f"{crate}/src/{path.name}", m.group(1), len(body)


class Repository:
    def __init__(self):
        self.definitions = {}
        self.names = defaultdict(dict)
        self.imports = defaultdict(dict)
        self.modules = {}
        for crate in sorted(it.name for it in CRATES.iterdir() if (it / "specs").is_dir()):
            self.read(crate)

    def add(self, key, definition, names):
        self.definitions[key] = definition
        for name in names:
            self.names[key[0]].setdefault(name, key)

    def read(self, crate):
        for place, name, lines in rust_types(crate):
            it = Definition(place, name)
            it.lines = lines
            self.add((f"{crate}.declared", name), it, [name])
        for path in (CRATES / crate / "specs").rglob("*.antt"):
            module = ".".join([crate, *path.relative_to(CRATES / crate / "specs").with_suffix("").parts])
            lines = path.read_text().splitlines()
            for name, rows in parts(lines):
                it = Definition(str(path.relative_to(CRATES)), name)
                it.lines, it.text = len(rows), rows
                self.add((module, name), it, [name, spoken(name), *constructors(rows)])
            for line in lines:
                self.add_import(module, line)

    def add_import(self, module, line):
        m = IMPORT.match(line.strip().rstrip(";"))
        if not m:
            return
        path, names, alias = m.groups()
        target = self.target(path)
        if target is None:
            return
        if names is None:
            self.modules[module, alias or path.split(".")[-1]] = target
            return
        for name in names.split(","):
            old, _, new = name.strip().partition(" as ")
            self.imports[module][spoken(new or old)] = (target, old)

    @staticmethod
    def target(path):
        """The module that a path names; of a type of the source the crate and the type."""
        words = path.split(".")
        if len(words) > 2 and words[1] == "specs" and (CRATES / words[0]).is_dir():
            if words[2] == "declared":
                return (f"{words[0]}.declared", words[4])
            return ".".join([words[0], *words[2:]])
        return None

    def find(self, target, name):
        if isinstance(target, tuple):
            return target if target in self.definitions else None
        key = self.names[target].get(name)
        if key is None and name in self.imports[target]:
            return self.find(*self.imports[target][name])
        return key

    def named(self, key):
        if key in FUNCTIONS:
            return
        module = key[0]
        for row in self.definitions[key].text:
            code = row.split(" -- ")[0]
            for m in re.finditer(r"Rattle\.([\w.]+)\.(\w+)", code):
                target = self.target(m.group(1))
                if target:
                    yield self.find(target, m.group(2))
            for m in re.finditer(r"\b(\w+)\.(\w+)", code):
                if (module, m.group(1)) in self.modules:
                    yield self.find(self.modules[module, m.group(1)], m.group(2))
            for word in WORD.findall(code):
                word = BLOCK if word == "do" else word
                if word in self.names[module]:
                    yield self.names[module][word]
                elif word in self.imports[module]:
                    yield self.find(*self.imports[module][word])

    def roots(self, names):
        for name in names:
            crate, rest = name.split(".", 1)
            module, _, own = rest.rpartition(".")
            found = [k for k in self.definitions if own in ("*", k[1]) and k[0].endswith("." + module)
                     and crate in ("*", k[0].split(".")[0])]
            if not found:
                sys.exit(f"no definition {name}")
            yield from found

    def reached(self, names, without=()):
        """What these lead to, `without` the definitions of these crates and what only they lead to."""
        seen, left = set(), list(self.roots(names))
        while left:
            key = left.pop()
            if key is not None and key not in seen and key[0].split(".")[0] not in without:
                seen.add(key)
                left += self.named(key)
        return seen

    def beside(self, keys):
        """The definitions of specs/ that are in a file with one of these, and are none of them."""
        places = {self.definitions[key].place for key in keys}
        return [key for key, it in self.definitions.items()
                if it.place in places and "/specs/" in it.place and key not in keys]

    def lines(self, keys):
        return sum(self.definitions[key].lines for key in keys)

    def show(self, title, keys):
        print(f"{title}: {self.lines(keys)} lines")
        files = defaultdict(int)
        for key in keys:
            files[self.definitions[key].place] += self.definitions[key].lines
        for place in sorted(files):
            print(f"  {files[place]:4} {place}")


def base(repository):
    """What the headline rests on, in three parts, each by its name."""
    source, core = repository.reached(SOURCE), repository.reached(CORE)
    headline = repository.reached(CORE + HEADLINE, OF_FORGED)
    return {"the source": source, "the rest of the core": core - source, "from the text on": headline - core}


def main():
    repository = Repository()
    if sys.argv[1:]:
        repository.show("reached", repository.reached(sys.argv[1:]))
        return
    source = repository.reached(SOURCE)
    core = repository.reached(CORE)
    headline = repository.reached(CORE + HEADLINE, OF_FORGED)
    program = repository.reached(CORE + HEADLINE + PROGRAM, OF_FORGED + OF_PROPERTIES)
    properties = repository.reached(CORE + HEADLINE + PROGRAM + PROPERTIES, OF_FORGED) - program
    forged = repository.reached(CORE + HEADLINE + PROGRAM + FORGED + LINKS) - program - properties
    links = forged - repository.reached(CORE + HEADLINE + PROGRAM + FORGED, ("law_connections",))
    odds = repository.reached(CORE + HEADLINE + PROGRAM + FORGED + LINKS + ODDS) - program - properties - forged
    repository.show("The source: application, model, legal run and items", source)
    repository.show("The core, beside it", core - source)
    repository.show("From the text on", headline - core)
    repository.show("What a reader may take from a trace, and the other commands", program - headline)
    repository.show("Properties: what their texts mean, when they are broken, and that none is", properties)
    repository.show("What `forged` says, beside all of these", forged - links)
    repository.show("What the keys of connections show, beside that", links)
    repository.show("How seldom a `forged` comes, beside all of these", odds)
    for key in repository.beside(program | properties | forged | odds):
        print(f"not reached: {key[1]} in {repository.definitions[key].place}")
    tiers = {
        "core": core, "headline": headline, "program": program, "properties": properties, "forged": forged, "odds": odds,
    }
    print(", ".join(f"{name} {repository.lines(keys)}" for name, keys in tiers.items()), "lines")


if __name__ == "__main__":
    main()
