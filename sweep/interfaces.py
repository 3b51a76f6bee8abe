"""What the prover reads of the crates below one that it judges, and of a crate's other functions: the contracts of
those that are named, the types that are, definitions and the lemmas that are cited, but no bodies, since a function is
taken by its contract. A sum over that stays the same as long as a verdict can't change."""

import functools
import hashlib
import re
from pathlib import Path
from typing import NamedTuple

from stubs import attributes, can_be_stub, functions_of, homes_in, module_of, places_of_proof, proof_of, stub

USE = re.compile(r"^ *(pub(?:\([a-z ]+\))? )?(ghost )?use ([^;]+);\n", re.MULTILINE)
# a module of the definitions or lemmas of a crate
CITED = re.compile(r"\bRattle\.(\w+)\.(specs|proofs)\.([\w+.]+)")
# one of its own crate, as an attribute has it
OWN = re.compile(r"\bcrate::(specs|proofs)::([\w:]+)")
PRIVATE_MODULE = re.compile(r"^mod (\w+);$", re.MULTILINE)
MODULE = re.compile(r"^(?:pub(?:\([a-z ]+\))? )?mod \w+;$")
# a type, a trait, a constant or the like, and the words of an `impl` up to its brace
NAMED = re.compile(r"^(?:pub(?:\([a-z ]+\))? )?(?:unsafe )?(?:struct|enum|union|trait|type|const|static) (\w+)",
                   re.MULTILINE)
HEADER = re.compile(r"^impl\b[^{;]*", re.MULTILINE)
# what a trait is given, in the words of an `impl` of it
GIVEN = re.compile(r"\w<([^{;]*)> for\b")
IS_PUBLIC = re.compile(r"^ *pub (?!\()")
WORD = re.compile(r"\w+")
# the path of a definition, whose last word names it, unless it is one of what is declared in a source file
DEFINED = re.compile(r"\bRattle\.\w+\.specs\.(?!declared\b|contracts\b)((?:[\w+]+\.)*)")
# the imports of a file of definitions or lemmas, which may go on in indented lines
IMPORTS = re.compile(r"^((?:pub |unfoldable )*)use ([^\n]*(?:\n[ \t}][^\n]*)*)\n", re.MULTILINE)
# a line that is a comment and nothing else, by the ending of its file
COMMENT = {".rt": re.compile(r"^ *//.*\n", re.MULTILINE), ".antt": re.compile(r"^ *-- .*\n", re.MULTILINE)}


def sum_of(text):
    return hashlib.sha256(text.encode()).hexdigest()


def one_by_one(text):
    """A text of definitions or lemmas whose imports stand first, one name in each line, however they are laid out."""
    trees = [(words, " ".join(tree.split())) for words, tree in IMPORTS.findall(text)]
    lines = {f"{words}use {path}\n" for words, tree in trees for path, _ in leaves(tree)}
    return "".join(sorted(lines)) + IMPORTS.sub("", text)


@functools.cache
def text_read(text, ending):
    """What the prover reads of the text of a file: no lines that are comments, and imports in any layout."""
    text = COMMENT[ending].sub("", text)
    return one_by_one(text) if ending == ".antt" else text


def read(folder, kind):
    """The files of a folder of a crate, by their names, and what the prover reads of them."""
    files = sorted(it for it in (folder / kind).rglob("*") if it.suffix in COMMENT)
    return tuple((str(it.relative_to(folder)), text_read(it.read_text(encoding="utf-8"), it.suffix)) for it in files)


@functools.cache
def parsed(files):
    """The lines of each source file of a crate, and its functions of which the path is known."""
    homes = homes_in(files)
    return [(name, text.split("\n"), functions_of(text, module_of(name), homes)) for name, text in files]


# ---- imports

def leaves(tree, before=""):
    """The names of an import, each with its whole path and the word under which it is known here."""
    head, brace, rest = tree.partition("{")
    if not brace:
        path, _, other = tree.strip().partition(" as ")
        name = path if before else re.split(r"::|\.", path)[-1]
        yield before + tree.strip(), other or (before.rstrip(":.").split("::")[-1] if name == "self" else name)
        return
    depth, begin, inner = 0, 0, rest.rpartition("}")[0]
    for at, letter in enumerate(inner + ","):
        depth += (letter == "{") - (letter == "}")
        if letter == "," and depth == 0:
            if inner[begin:at].strip():
                yield from leaves(inner[begin:at], before + head.strip())
            begin = at + 1


def occurs(word, text):
    """Whether a word is in a text; of an operator, each part of it that stands between its places."""
    parts = [re.escape(it) for it in word.split("◌") if it]
    return all(re.search(rf"\b{it}\b" if it[0].isalnum() else it, text) for it in parts)


def imports(text):
    """The imports of a text, one by one: a line for each, whether it is public, and the word that it gives."""
    for is_public, ghost, tree in USE.findall(text):
        for path, word in leaves(" ".join(tree.split())):
            yield f"{is_public}{ghost}use {path};\n", is_public, word


# ---- what is read of a crate

class Unit(NamedTuple):
    """What stands by itself in a source file, with the imports that it needs: a function without its body, with the
    type that it is a method of; a type, a trait, a constant or what is passed on, by its names; an `impl`, by the words
    of its header, and those of what its trait is given; or anything else. What crates above can't name has its crate as
    its home."""
    file: str
    text: str
    function: str = ""
    names: frozenset = frozenset()
    header: frozenset = frozenset()
    given: frozenset = frozenset()
    home: str = ""

    def is_met(self, named, words, types):
        """Whether it is met where these functions are named, and where these words stand in what is read, if these are
        all types and traits. Nothing chooses an `impl` of a trait without the types that the trait is given there."""
        if self.function:
            return self.function in named and not (self.names and self.names.isdisjoint(words))
        if self.names:
            return not self.names.isdisjoint(words)
        return not self.header or not words.isdisjoint(self.header & types) and self.given & types <= words

    def types(self):
        """The types and traits that it has or is of."""
        return self.names | self.header


def bare(lines):
    """Lines without comments, empty ones, and those of modules."""
    return "".join(f"{it}\n" for it in lines
                   if it.strip() and not it.lstrip().startswith("//") and not MODULE.match(it))


def items_of(text):
    """The types, traits, `impl` blocks and the like of a file of `rt fmt`, with their attributes: the last line of each
    begins at the margin."""
    item = ""
    for line in text.splitlines(keepends=True):
        item += line
        if line.startswith("#![") or line[0] not in " #)" and line.endswith(("}\n", ";\n")):
            yield item
            item = ""
    if item:
        yield item


def units_of(file, lines, functions, is_seen, is_always):
    """What stands in a file: stubs of its functions, without their attributes, of those that are seen at all. Those of
    traits, which are called without their names, are in the trait or the `impl`."""
    lines, own, units = list(lines), [], []
    for function in reversed(functions):
        if can_be_stub(lines, function):
            first, text = function.first - len(attributes(lines, function)), []
            if is_seen(function, lines):
                text = stub(lines, function)
            if text and not function.is_of_trait:
                own.append((function, f"{function.path}\n{bare(text)}"))
                text = []
            lines[first:function.last + 1] = text
    rest = bare(lines)
    known = list(imports(rest))

    def unit(text, **words):
        needed = {line for line, _, word in known if occurs(word, text)}
        units.append(Unit(file, "".join(sorted(needed)) + text, **words))

    for function, text in own:
        holder = "".join(function.path.split("::")[-2:-1])
        names = frozenset({holder} if holder[:1].isupper() else {})
        unit(text, **({} if is_always(function) else {"function": function.name(), "names": names}))
    for line, _, word in (it for it in known if it[1]):
        units.append(Unit(file, line, names=frozenset() if word == "*" else frozenset({word})))
    for item in items_of(USE.sub("", rest)):
        headers = HEADER.findall(item)
        given = frozenset(words_of(GIVEN.findall(" ".join(headers))))
        unit(item, **({"header": words_of(headers), "given": given} if headers else
                      {"names": frozenset(NAMED.findall(item))}))
    return units


def hidden_modules(files):
    """The modules of a crate that aren't public, and those in them."""
    modules = {module_of(name): text for name, text in files}
    private = {"::".join(it for it in (module, name) if it) for module, text in modules.items()
               for name in PRIVATE_MODULE.findall(text)}
    return {module for module in modules if any(f"{module}::".startswith(f"{it}::") for it in private)}


def names_passed_on(files):
    """The last words of a crate's public imports: the names that they pass on, whatever they are called then; `*` if
    one passes on all."""
    lines = [line for _, text in files for line, is_public, _ in imports(text) if is_public]
    return {re.split(r"::|\.", line.strip(" ;\n").partition(" as ")[0])[-1] for line in lines}


@functools.cache
def interface_of(files):
    """The source files of a crate as the crates above it see them: no bodies, no function that is private or that is a
    private module's, no comment, and no import that nothing of that needs. What the crate passes on may have another
    name above it, so it is always seen."""
    hidden, passed_on = hidden_modules(files), names_passed_on(files)

    def is_always(function):
        return bool(passed_on & {function.name(), "*"})

    units, public = [], set()
    for name, lines, functions in parsed(files):
        module = module_of(name)
        if module not in hidden:
            public |= {it[1] for it in NAMED.finditer("\n".join(lines)) if IS_PUBLIC.match(it[0])}

        def is_seen(function, lines):
            is_hidden = module in hidden and function.path == f"{module}::{function.name()}"
            is_reached = not is_hidden or is_always(function)
            return function.is_of_trait or IS_PUBLIC.match(lines[function.first]) and is_reached

        units += units_of(name, lines, functions, is_seen, is_always)
    own = frozenset().union(*(it.names for it in units)) - public - passed_on
    return [it._replace(home="own") if it.types() & own and not it.types() & public and "*" not in passed_on else it
            for it in units]


@functools.cache
def units_in(files):
    """The source files of a crate as its own functions see them."""
    return [unit for name, lines, functions in parsed(files)
            for unit in units_of(name, lines, functions, lambda *_: True, lambda _: False)]


@functools.cache
def words_in(text):
    return frozenset(WORD.findall(DEFINED.sub("", text)))


def words_of(texts):
    return frozenset().union(*map(words_in, texts))


def path_in(kind, name):
    """The path of a file of that kind among the others, as one that cites it has it."""
    return name[len(kind) + 1:-len(".antt")].replace("/", ".")


def modules_of(top, crates):
    """The definitions and lemmas of crates: the name and the text of each file, by its crate, its kind and its path."""
    return {(crate, kind, path_in(kind, name)): (f"crates/{crate}/{name}", text)
            for crate in crates for kind in ("specs", "proofs") for name, text in read(top / "crates" / crate, kind)}


def module_at(modules, crate, kind, path):
    """The module that a path begins with, which may go on with a word of it; none if there is none."""
    names = path.strip(".").split(".")
    paths = [(crate, kind, ".".join(names[:count])) for count in range(len(names), 0, -1)]
    return next((it for it in paths if it in modules), None)


@functools.cache
def citations(text):
    return set(CITED.findall(text))


def cited(texts, modules):
    """Those of the modules that the texts cite, and those that these cite in turn."""
    found, known, left = set(), set(), list(texts)
    while left:
        for citation in citations(left.pop()) - known:
            known.add(citation)
            module = module_at(modules, *citation)
            if module and module not in found:
                found.add(module)
                left.append(modules[module][1])
    return found


def crate_of(file):
    """The crate of the path of a file of a crate below; none if it is of the crate itself."""
    return file.split("/")[1] if file.startswith("crates/") else ""


class Reached(NamedTuple):
    """What is read of files and modules: paths, and sums of what is read, and the texts themselves."""
    sums: list
    texts: list


def reached(units, modules, named, texts):
    """What is read of units and modules from texts on, where these functions are named. A type or a trait is read if it
    is named in what is read, and a definition or a lemma if it is cited there."""
    left, seen, found, words, new = units, [], set(), {"": set(named)}, [("", it) for it in texts]
    types, texts = frozenset().union(*(it.names for it in units)), []
    while new:
        more = cited([text for _, text in new], modules) - found
        found |= more
        new += [(it[0], modules[it][1]) for it in more]
        for crate, text in new:
            words[""] |= words_in(text)
            words[crate] = words.get(crate, set()) | words_in(text)
        texts += [text for _, text in new]
        met = {at for at, it in enumerate(left) if it.is_met(named, words.get(it.home, frozenset()), types)}
        new = [(crate_of(left[at].file), left[at].text) for at in met]
        seen += [(left[at].file, sum_of(left[at].text)) for at in met]
        left = [it for at, it in enumerate(left) if at not in met]
    return Reached(sorted(seen + [(modules[it][0], sum_of(modules[it][1])) for it in found]), texts)


class Below(NamedTuple):
    """What the prover may read of the crates below one: what stands in their source files as it is seen from above, and
    definitions and lemmas. What the crates pass on from one another is always named."""
    units: list
    modules: dict
    passed_on: frozenset

    def seen(self, texts):
        """Paths, and sums of what is read where these texts are what is read of the crate above."""
        return reached(self.units, self.modules, words_of(texts) | self.passed_on, texts).sums


def below_of(top, crates):
    """What the prover may read of these crates."""
    files = {crate: read(top / "crates" / crate, "src") for crate in crates}
    units = [it._replace(file=f"crates/{crate}/{it.file}", home=it.home and crate)
             for crate in crates for it in interface_of(files[crate])]
    passed_on = frozenset().union(*map(names_passed_on, files.values()))
    return Below(units, modules_of(top, crates), passed_on)


class Frame(NamedTuple):
    """What the prover may read of a crate beside the function that it judges: what stands in its source files, of whose
    other functions it reads stubs, and its definitions and lemmas. Proofs of other functions aren't read."""
    crate: str
    units: list
    modules: dict

    def seen(self, texts):
        """What is read beside the texts of a function, and these."""
        own = [OWN.sub(lambda it: f"Rattle.{self.crate}.{it[1]}.{it[2].replace('::', '.')}", text) for text in texts]
        return reached(self.units, self.modules, words_of(own), own)


def frame_of(folder):
    """What the prover may read of a crate beside a function of it."""
    files, left_out = read(folder, "src"), set()
    for name, lines, functions in parsed(files):
        for function in functions:
            if can_be_stub(lines, function):
                left_out |= {str(it.relative_to(folder)) for it in places_of_proof(folder, function.path)}
    modules = {(folder.name, kind, path_in(kind, name)): (name, text)
               for kind in ("specs", "proofs") for name, text in read(folder, kind)
               if not left_out & {name, *map(str, Path(name).parents)}}
    return Frame(folder.name, units_in(files), modules)


def function_text(folder, file, function, texts):
    """The attributes, the contract and the body of a function, the imports of its file that it or one of the texts
    needs, and the files of its proof by paths and sums; and beside these all texts of it."""
    lines, functions = next(it[1:] for it in parsed(read(folder, "src")) if it[0] == file)
    function = next(it for it in functions if it.path == function.path)
    own = "\n".join([*attributes(lines, function), *lines[function.first:function.last + 1]])
    body = "\n".join([own, *texts])
    needed = sorted({line for line, _, word in imports("\n".join(lines)) if occurs(word, body)})
    proof = list(proof_of(folder, function.path))
    texts = [function.path, body, *needed, *(text for _, text in proof)]
    return (own, needed, [(str(file), sum_of(text)) for file, text in proof]), texts
