"""The functions of a crate's files as `rt fmt` lays them out: stubs of them, which are taken by their contracts, and
copies of them with another body, which have their contracts and their proofs."""

import functools
import re
import shutil
from typing import NamedTuple

FUNCTION = re.compile(r"^( *)(?:pub(?:\([a-z ]+\))? )?((?:const |unsafe )*)fn (\w+)")
HOLDER = re.compile(r"^(?:pub(?:\([a-z ]+\))? )?(impl|trait|mod)\b(.*) \{$")
TYPE = re.compile(r"^(?:pub(?:\([a-z ]+\))? )?(?:struct|enum) (\w+)", re.MULTILINE)
TYPES = re.compile(r"<[^<>]*>")
# what the folder of a function's proof holds, beside the folders of other functions
PROOF = ("Invariants", "Answers", "Proof")
CLAUSE = re.compile(r"^ *(requires|ensures|ghost)\*? (?:(\w+)\b)?")
# a goal of an `ensures`, which is named for the clause if there are several
GOAL_OF = re.compile(r"(?<![\w-])(returns[\w-]*)-clause-(\w+)(?![\w-])")
# what a proof file says first of an answer: its name, which is that of its goal, unless others cite it
DECLARED = re.compile(r"(?:pub )?(\S+) :\s+goal\.(\S+)\s")
# a declaration that is refused: where a function's file has one, the prover doesn't run once more to offer answers
NO_OFFER = "no_offer"


class Function(NamedTuple):
    """A function with a body of more lines than one: its path without the crate's name, the lines of its `fn`, of the
    brace that opens its body and of its end, and whether it is a trait's."""
    path: str
    first: int
    body: int
    last: int
    is_of_trait: bool

    def name(self):
        return self.path.split("::")[-1]


def module_of(file):
    """The path of the module that is the file `src/..`."""
    name = file.removeprefix("src/").removesuffix(".rt")
    return "" if name in ("lib", "main") else name.replace("/", "::")


@functools.cache
def homes_in(files):
    """The modules of a crate in which a type of some name stands, by the names and texts of its source files."""
    homes = {}
    for name, text in files:
        for match in TYPE.finditer(text):
            homes.setdefault(match[1], set()).add(module_of(name))
    return homes


def homes_of(folder):
    """The same by its folder."""
    paths = sorted((folder / "src").rglob("*.rt"))
    return homes_in(tuple((str(path.relative_to(folder)), path.read_text(encoding="utf-8")) for path in paths))


def holder_of(kind, words, module, homes):
    """The path of what a function stands in, and whether that is a trait's; no path where it isn't known. Functions
    of an `impl` have the path of its type, wherever it stands."""
    if "> for " in words:
        return None, True
    while (bare := TYPES.sub("", words)) != words:
        words = bare
    names = [it.split("::")[-1].strip() for it in words.partition(" where")[0].split(" for ")]
    is_of_trait, found = kind == "trait" or len(names) > 1, homes.get(names[-1], set())
    home = module if module in found else next(iter(found), None)
    if kind != "impl" or home is None or home != module and (is_of_trait or len(found) > 1):
        return None, is_of_trait
    return "::".join(it for it in (home, "".join(reversed(names))) if it), is_of_trait


def functions_of(text, module, homes):
    """The functions of a file of which the path is known. In a file of `rt fmt` an item ends at its own column."""
    lines, found, at = text.split("\n"), [], 0
    holder, is_of_trait, end = module, False, -1
    while at < len(lines):
        if at > end:
            holder, is_of_trait = module, False
        if begins := HOLDER.match(lines[at]):
            holder, is_of_trait = holder_of(begins[1], begins[2], module, homes)
            end = lines.index("}", at)
        begins = FUNCTION.match(lines[at])
        if begins and holder is not None and not lines[at].endswith("}"):
            column = begins[1]
            body = next(it for it in range(at, len(lines)) if lines[it] in (column + "{", column + "{}")
                        or (it == at or lines[it].startswith(column + ")")) and lines[it].endswith((" {", " {}")))
            if not lines[body].endswith("}"):
                last = lines.index(column + "}", body)
                if "const" not in begins[2]:
                    path = "::".join(it for it in (holder, begins[3]) if it)
                    found.append(Function(path, at, body, last, is_of_trait))
                at = last
        at += 1
    return found


def can_be_stub(lines, function):
    """Whether the body can be left out: not where the function's type is known by it alone."""
    return "-> impl " not in " ".join(lines[function.first:function.body + 1]) and function.path != "main"


def calls_itself(lines, function):
    name, holder = function.name(), "".join(function.path.split("::")[-2:-1])
    call = rf"\b(?:self\.|Self::|{holder}::){name}\("
    # one of that name without a path is a function of a module, and no method
    if not holder[:1].isupper():
        call = rf"(?<![\w.:]){name}\(|{call}"
    return re.search(call, "\n".join(lines[function.body + 1:function.last])) is not None


def attributes(lines, function):
    """The lines of the attributes above the function, as of a tactic by which its goals are tried."""
    first = function.first
    while lines[first - 1].lstrip().startswith("#[") or lines[first - 1].strip() == ")]":
        first -= 1
        while not lines[first].lstrip().startswith("#["):
            first -= 1
    return lines[first:function.first]


class Clause(NamedTuple):
    """A clause of a contract: its word, its name, if it has one, and its lines."""
    word: str
    name: str
    first: int
    last: int


def clauses_of(lines, function):
    begins = [at for at in range(function.first + 1, function.body) if CLAUSE.match(lines[at])]
    ends = [at - 1 for at in begins[1:] + [function.body]]
    return [Clause(*CLAUSE.match(lines[at]).groups(""), at, end) for at, end in zip(begins, ends)]


def has_others(lines, function, clause):
    """Whether a function has an `ensures` of that name and others."""
    names = [it.name for it in clauses_of(lines, function) if it.word == "ensures"]
    return clause in names and len(names) > 1


def copy_of(lines, function, clause=""):
    """The lines of a function with its attributes; with one `ensures` of its contract alone, if one is named. That one
    loses its name: otherwise its goals would ask for a record of it, and the answers wouldn't fit."""
    own = lines[:function.last + 1]
    for it in reversed(clauses_of(lines, function) if clause else []):
        if it.word == "ensures" and it.name == clause:
            own[it.first] = own[it.first].replace(f" {clause} ", " ", 1)
        elif it.word == "ensures":
            del own[it.first:it.last + 1]
    return [*attributes(lines, function), *own[function.first:]]


def answers_of(text, clause):
    """The answers of a proof file for a function that has that `ensures` alone: its goals aren't named for it then, and
    those of others aren't there."""
    kept, dropped = [], ""
    for item in re.split(r"^(?=\w)", text, flags=re.MULTILINE):
        if begins := DECLARED.match(item):
            of = GOAL_OF.fullmatch(begins[2])
            dropped = begins[1] if of and of[2] != clause else ""
        elif not item.startswith(f"{dropped} "):
            dropped = ""
        if not dropped:
            kept.append(GOAL_OF.sub(lambda it: it[1] if it[2] == clause else it[0], item))
    return "".join(kept).rstrip("\n") + "\n"


def stub(lines, function):
    """The lines of the function with a body that any type has."""
    column = lines[function.last].removesuffix("}")
    return [*lines[function.first:function.body + 1], f"{column}    loop {{}}", lines[function.last]]


def folder_of(folder, path):
    return folder / "proofs" / path.replace("::", "/")


def proof_files(folder, path):
    """The files and folders of the proof of a function."""
    own = folder_of(folder, path)
    names = [own / f"{name}.antt" for name in PROOF] + [own / name for name in PROOF]
    return [it for it in names if it.exists()]


def places_of_proof(folder, path):
    """Where the proof of a function stands, with those of its closures, and of the cycle that it begins."""
    own = folder_of(folder, path)
    return [*proof_files(folder, path), own.parent / f"+{own.name}", own.parent / "fn" / own.name]


def leave_a_hole(crate, folder, path):
    """Has a hole stand for the proof of a function."""
    own, name = folder_of(folder, path), path.split("::")[-1]
    for it in places_of_proof(folder, path):
        if it.is_dir():
            shutil.rmtree(it)
        else:
            it.unlink(missing_ok=True)
    own.mkdir(parents=True, exist_ok=True)
    (own / "Proof.antt").write_text(
        f"use Rattle.{crate}.proofs.{path.replace('::', '.')}.Statement as stated\n\n"
        f"pub {name}_spec : {{M : Type 1}} → stated.statement M\n{name}_spec = ?\n", encoding="utf-8")


def proof_of(folder, path, clause=""):
    """The files of the proof of a function, by their paths below its folder, and their texts; if a copy has one clause
    alone, with the answers for that one."""
    own = folder_of(folder, path)
    for it in proof_files(folder, path):
        for file in [it] if it.is_file() else sorted(it.rglob("*.antt")):
            text = file.read_text(encoding="utf-8")
            yield file.relative_to(own), answers_of(text, clause) if clause else text


def copy_proof(folder, path, copy, clause=""):
    """Gives the copy of a function what its proof is."""
    name = re.compile(rf"\bproofs\.{re.escape(path.replace('::', '.'))}(?=[.\s])")
    for file, text in list(proof_of(folder, path, clause)):
        to = folder_of(folder, copy) / file
        to.parent.mkdir(parents=True, exist_ok=True)
        to.write_text(name.sub(f"proofs.{copy.replace('::', '.')}", text), encoding="utf-8")


def ask_for_no_offer(folder, path):
    """Has the prover offer no answers for a function, which would cost a second run of it."""
    own = folder_of(folder, path)
    if (own / "Proof.antt").exists() or (own.parent / f"+{own.name}").exists():
        return
    own.mkdir(parents=True, exist_ok=True)
    with open(own / "Answers.antt", "a", encoding="utf-8") as file:
        file.write(f"\n{NO_OFFER} : {NO_OFFER}\n{NO_OFFER} = {NO_OFFER}\n")
