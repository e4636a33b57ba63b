"""Prints one text of definitions from the top down: what some calls guarantee, and then each word after the words that use it.

The contracts come first, and are the contents: below each clause are its words and the words that they use, each with the number of the
section that defines it.

A definition file of the project is printed complete. A code file contributes the types, traits, constants and calls that are used, without
bodies and private fields. The toolchain's library, and the crates that come with it, contribute the definitions that are used.
tools/library_words.py describes the words that no source defines, or whose source says no more than a sentence, and how `csv` reads by its
defaults.
"""
import functools
import itertools
import os
import re
import subprocess
import sys
from typing import Dict, Iterator, List, NamedTuple, Optional, Set, Tuple

import library_words
import shared

# The parts of the text, each with the calls whose contracts it is about.
PARTS: Dict[str, List[Tuple[str, str]]] = {
    "compile": [("crates/compile_command/src/compile.rt", "compile_into")],
    "thin": [("crates/thin_command/src/thin.rt", "thin_into")],
    "run": [("crates/pit_compile/src/running.rt", "run")],
    "pipe": [("crates/compile_command/src/model.rt", "read_model"),
             ("crates/compile_command/src/pipe_form.rt", "pipe")],
    "check": [("crates/check_command/src/check.rt", "check")],
}

WORD = r"(?:\[\]|[^\s(){}:]+)"
IMPORT = re.compile(r"(?m)^ *((?:\w+ )*?)use ([\w.]+?)(?:\.\{(.*?)\})?(?: as ([^\s;]+))?;?$")
DECLARED = re.compile(rf"(?m)^(?: *(?:abbrev|unfoldable|opaque) (?:pub )?| *pub (?=record|data)|pub )(?:record |data )?({WORD})(?= )")
PRIVATE = re.compile(rf"(?m)^({WORD})(?: \{{[^}}]*\}})? : ")
CONSTRUCTORS = re.compile(rf"(?m)^  (?!pub )({WORD}(?: {WORD})*) : ")
DATA = re.compile(r"(?m)^(?:pub )?data ")
CLAUSE = re.compile(r"(?s)(?:ensures|requires)(?: (\w+))? \{(.*?)\}(?=\s*(?:;|,|\Z|ensures|requires))")
MODULE = re.compile(r"(?ms)^ *module .*? where$")
ITEM = re.compile(r"(?m)^((?://[^\n]*\n|#\[[^\n]*\n)*)pub(?:\(crate\))? "
                  r"((?:const|type) (\w+)[^;]*;|(?:struct|enum|trait|fn) (\w+)(?:[^{\n]*;$|(?s:.*?)^(?:\}|\{)$))")
FIELD = re.compile(r"(?m)(?:^    ///[^\n]*\n)*^    (?!pub\b|///)[^\n]*,\n")
SEEN = r"(?ms)^impl[^\n]* for {}\b[^\n]*\{{$.*?ghost Value = ([^\n]*?);$"
TOKEN = re.compile(r"\[\]|[^\s(){}\[\],;:`\"]+")


class Piece(NamedTuple):
    """A part of a file that is printed as one, with the names that it defines."""

    path: str
    names: Tuple[str, ...]
    text: str


class Imports(NamedTuple):
    """Words by the files that they come from, files by their short names, and the words that are re-exported."""

    words: Dict[str, Tuple[str, str]]
    pages: Dict[str, str]
    passed: Dict[str, Tuple[str, str]]


def is_own(path: str) -> bool:
    """Returns whether a file is the project's."""
    return path.startswith("crates/")


def is_code(path: str) -> bool:
    return path.endswith(".rt")


@functools.lru_cache(None)
def library() -> str:
    """Returns the folder of the toolchain's libraries."""
    printed = subprocess.run(["rt", "doc"], capture_output=True, text=True, check=True)
    return os.path.join(os.path.dirname(printed.stdout.strip()), "rattle")


@functools.lru_cache(None)
def file_of(page: str) -> Optional[str]:
    """Returns the file for the name that imports use, if its source exists."""
    first, *rest = page.split(".")
    tops = {"lib": "logic/Lib", "mathlib": "antt/port/mathlib/src"}
    if first in tops:
        path = os.path.join(library(), tops[first], *rest) + ".antt"
    elif first != "Rattle" or len(rest) < 3:
        return None
    else:
        crate = f"crates/{rest[0]}" if os.path.isdir(f"crates/{rest[0]}") else os.path.join(library(), rest[0])
        if rest[1:3] == ["specs", "declared"]:
            ends = [part for part in rest[3:] if part not in ("TheVariants", "TheConstants")]
            ends = ends if rest[-1] == "TheConstants" else ends[:-1]
            path = os.path.join(crate, "src", *(ends or ["lib"])) + ".rt"
        else:
            path = os.path.join(crate, *rest[1:]) + ".antt"
            lib = f"{crate}/specs/Lib.antt"
            if not os.path.isfile(path) and rest[1] == "specs" and os.path.isfile(lib):
                passed = re.search(rf"(?m)^pub use (\S+\.{rest[2]})$", shared.read(lib))
                return file_of(".".join([passed[1], *rest[3:]])) if passed else None
    return path if os.path.isfile(path) else None


def by_defaults(text: str) -> str:
    """Returns a file of `csv` with its default settings inserted."""
    if "\ndefault_config = " in text and library_words.CONFIG not in text:
        sys.exit("tools/pages-to-read: csv has other defaults than tools/library_words.py")
    for found, put in library_words.DEFAULTS:
        text = re.sub(found, put, text)
    return text


@functools.lru_cache(None)
def pieces(path: str) -> List[Piece]:
    """Returns the parts of a file, in order."""
    text = shared.read(path)
    if not is_own(path) and path.startswith(os.path.join(library(), "csv", "")):
        text = by_defaults(text)
    if is_code(path):
        return [code_piece(path, text, *found) for found in ITEM.findall(text)]
    found: List[Piece] = []
    over = ""
    for part in filter(str.strip, re.split(r"\n\n+", re.sub(r"(?m)^ *(?:\w+ )*(?:use|mod) .*\n?", "\n", text))):
        part = part.strip("\n")
        over = MODULE.findall(part)[-1] if MODULE.search(part) else over if part.startswith("  ") else ""
        code = re.sub(r"(?m)--.*", "", part)
        names = DECLARED.findall(code) + PRIVATE.findall(code)
        if DATA.search(code):
            names += " ".join(CONSTRUCTORS.findall(code)).split()
        shown = part if is_own(path) or MODULE.search(part) or not over else f"{over}\n{part}"
        found.append(Piece(path, tuple(dict.fromkeys(names)), shown))
    return found


def code_piece(path: str, text: str, comment: str, item: str, constant: str, other: str) -> Piece:
    """Returns a type, a trait or a constant, or a call without its body. For a type that contracts see as another, returns that view."""
    name, comment = constant or other, re.sub(r"(?m)^#\[.*\n", "", comment)
    seen = re.search(SEEN.format(name), text)
    if seen:
        item = f"{item.split(' ')[0]} {name}, seen as {seen[1]}"
    elif item.startswith("struct"):
        item = FIELD.sub("", item) if is_own(path) else item
    elif item.startswith("fn"):
        item = item.rstrip("{").rstrip()
    return Piece(path, (name,), comment + item)


@functools.lru_cache(None)
def imports(path: str) -> Imports:
    found = Imports({}, {}, {})
    for how, page, listed, alias in IMPORT.findall(shared.read(path)):
        if not listed:
            found.pages[alias or page.split(".")[-1]] = page
        for word in filter(None, listed.split(", ")):
            name, _, own = word.partition(" as ")
            found.words[own or name] = page, name
            if "pub" in how:
                found.passed[own or name] = page, name
    return found


def source_of(page: str, name: str) -> str:
    """Returns the name that a file's word has where it is defined."""
    path = file_of(page)
    if not path or any(name in piece.names for piece in pieces(path)):
        return name
    passed = imports(path).passed
    return source_of(*passed[name]) if name in passed else name


def other_names(piece: Piece) -> Iterator[Tuple[str, str]]:
    """Returns the names that a part uses for words with another name where they are defined, each with that one."""
    words, pages, _ = imports(piece.path)
    for name, other in used(piece).items():
        prefix, _, after = name.partition(".")
        if name in words and other and source_of(*words[name]) != name:
            yield name, source_of(*words[name])
        elif after and pages.get(prefix, "").endswith(".TheVariants") and other:
            yield f"{prefix}.x", f"the x of {pages[prefix].split('.')[-2]}"


def find(page: str, name: str) -> Optional[Piece]:
    """Returns where a file's word is defined: there, or where it is re-exported from."""
    path = file_of(page)
    if not path:
        return None
    name = page.split(".")[-2] if page.endswith(".TheVariants") else name
    for piece in pieces(path):
        if name in piece.names:
            return piece
    passed = imports(path).passed
    return find(*passed[name]) if name in passed else None


@functools.lru_cache(None)
def code_imports(path: str) -> Dict[str, List[str]]:
    """Returns the words that a code file imports from the project, by path."""
    found = {}
    for line in re.findall(r"(?m)^(?:pub )?use ([^;]+);", shared.read(path)):
        prefix, _, listed = line.partition("{")
        for word in re.split(r",\s*", listed.strip("} \n")) if listed else [""]:
            way, _, own = (prefix + word.strip()).partition(" as ")
            found[own or way.split("::")[-1]] = way.split("::")
    return found


def find_in_code(here: str, way: List[str]) -> Optional[Piece]:
    """Returns what a path of Rust means in a file of a crate, if the project declares it."""
    crate = here.split("/src/")[0] if way[0] == "crate" else f"crates/{way[0]}"
    path = next(filter(os.path.isfile, (f"{crate}/src/{'/'.join(part)}.rt" for part in (way[1:-1], ["lib"]))), None)
    if not path:
        return None
    for piece in pieces(path):
        if way[-1] in piece.names:
            return piece
    passed = code_imports(path)
    for at in range(1, len(way)):
        if way[at] in passed and passed[way[at]] != way[:at + 1]:
            prefix = passed[way[at]]
            prefix = prefix if prefix[0] == "crate" or os.path.isdir(f"crates/{prefix[0]}") else ["crate", *prefix]
            return find_in_code(path, [*prefix, *way[at + 1:]])
    return None


def code_of(piece: Piece) -> str:
    """Returns the text without comments and operator fixities; of code, without Rust's punctuation."""
    if is_code(piece.path):
        return re.sub(r"(?<=\w)<|>|&|::", " ", re.sub("//.*", "", piece.text))
    return re.sub(r'(?m)(?:(?<=\s)|^)--.*|^ *infix.*|"[^"\n]*"', "", piece.text)


@functools.lru_cache(None)
def tokens_of(piece: Piece) -> Tuple[str, ...]:
    """Returns its words and symbols, in order; a word after a dot stays with what precedes it."""
    return tuple(token.rstrip(".") for token in TOKEN.findall(code_of(piece)) if token[0] != ".")


def bound(piece: Piece) -> Set[str]:
    """Returns its variables and fields: before a colon in brackets, after λ and `let`, left of an arrow, and on the left of an equation."""
    modules = "" if is_code(piece.path) else "\n".join(MODULE.findall(shared.read(piece.path)))
    code = code_of(piece) + modules
    groups = re.findall(r"[({]([^(){}:]+) : |λ ([^.]*)\.|\blet (\S+) =|\n +(?:pub )?(\S+) (?::|=) |[{;] (\w+) =|(\w+) ←", code)
    groups += [(left,) for left in re.findall(r"(?m)^ *(\S.*?) =(?: |$)", re.sub(r"\{\w+ = \w+\}", "", code))]
    return set(re.findall(r"[^\s(){}:,]+", " ".join(" ".join(group) for group in groups)))


def is_data(piece: Piece) -> bool:
    """Returns whether it declares variants, whose names are no variables."""
    return DATA.search(piece.text) is not None


def is_said(name: str, heads: Set[str]) -> bool:
    """Returns whether a word occurs there, or each part of an operator that has places for its operands."""
    return name in heads or "◌" in name and all(sign in heads for sign in name.split("◌") if sign)


@functools.lru_cache(None)
def used(piece: Piece) -> Dict[str, Optional[Piece]]:
    """Returns the words that a part uses, each with the part that defines it, or None if no source here does."""
    words, pages, _ = imports(piece.path)
    tokens = tokens_of(piece)
    heads = {token.split(".")[0] for token in tokens}
    found = {name: find(*source) for name, source in words.items() if is_said(name, heads)}
    for prefix, _, name in (token.partition(".") for token in tokens):
        if prefix in pages and name:
            found[f"{prefix}.{name}"] = find(pages[prefix], name.split(".")[0])
    own = heads - bound(piece)
    for other in pieces(piece.path):
        found.update((name, other) for name in other.names if is_said(name, heads if is_data(other) else own))
    if is_code(piece.path):
        ways = {name: way for name, way in code_imports(piece.path).items() if name in heads and name not in found}
        code = {name: find_in_code(piece.path, way) for name, way in ways.items()}
        found.update((name, other) for name, other in code.items() if other)
    return {name: other for name, other in found.items() if name not in piece.names}


# The library's words that the list describes, and that no definition has.
LISTED = {word for words in library_words.LIBRARY for word in words}


def is_listed(name: str, other: Optional[Piece]) -> bool:
    """Returns whether a used word is one of these: the library's, and no project word with the same name."""
    return name in LISTED and not (other and is_own(other.path))


def needs(piece: Piece) -> List[Piece]:
    """Returns the parts that define the words of one, in the order in which it names them."""
    places = {token.split(".")[0]: place for place, token in reversed(list(enumerate(tokens_of(piece))))}
    words = sorted(used(piece).items(), key=lambda pair: places.get(pair[0].split(".")[0], 0))
    return [other for name, other in words if other and not is_listed(name, other)]


def ordered(roots: List[Piece]) -> List[Piece]:
    """Returns these parts and all that they use, each before what it uses. A definition file stays complete, in its own order."""
    found: Dict[Piece, None] = {}
    begun: Set[Piece] = set()

    def visit(piece: Piece) -> None:
        if piece in begun:
            return
        group = [piece]
        if not is_code(piece.path):
            group = [other for other in pieces(piece.path) if is_own(piece.path) or other in wanted]
        begun.update(group)
        for one in reversed(group):
            for other in reversed(needs(one)):
                visit(other)
        found.update(dict.fromkeys(reversed(group)))

    wanted = closure(roots)
    for root in reversed(roots):
        visit(root)
    return list(reversed(found))


def closure(roots: List[Piece]) -> Set[Piece]:
    """Returns the same in no order."""
    found: Set[Piece] = set()
    more = list(roots)
    while more:
        piece = more.pop()
        if piece not in found:
            found.add(piece)
            more += needs(piece)
            more += pieces(piece.path) if is_own(piece.path) and not is_code(piece.path) else []
    return found


def unknown(piece: Piece) -> Set[str]:
    """Returns what a definition or a clause contains besides variables, known words, numbers and symbols of the language."""
    said, names = piece, {*used(piece), *piece.names, *library_words.SYMBOLS}
    if is_code(piece.path):
        code = re.sub("//.*", "", piece.text)
        said = piece._replace(text=" ".join(clause for _, clause in CLAUSE.findall(code)))
        named = re.findall(r"\w+(?=:)|(?<=[<,])\s*\w+(?=[:,>])|(?<=type )\w+", code)
        names.update(["result", "self", "Self", *map(str.strip, named)])
    known = {part for name in names for part in [name.split(".")[0], *name.split("◌")]} | bound(said)
    return {token.split(".")[0] for token in tokens_of(said) if not token[0].isdigit()} - known


def unmet(parts: Dict[str, List[Piece]]) -> Iterator[str]:
    """Returns the words of a book that nothing defines, and those that are defined above their use in the same part."""
    printed = {piece for some in parts.values() for piece in some}
    for some in parts.values():
        above: Set[Piece] = set()
        for piece in some:
            for name, other in used(piece).items():
                if is_listed(name, other):
                    continue
                if other not in printed:
                    yield f"{piece.path}: {name} is nowhere defined"
                elif other in above and other.path != piece.path:
                    yield f"{piece.path}: {name} is defined above"
            yield from (f"{piece.path}: {name} is nowhere defined" for name in unknown(piece))
            above.add(piece)


def roots_of(part: str) -> List[Piece]:
    """Returns the contracts of a part."""
    return [piece for path, name in PARTS[part] for piece in pieces(path) if name in piece.names]


def lines_of(some: List[Piece]) -> int:
    """Returns the number of lines of the parts, without blank lines."""
    return sum(bool(line.strip()) for piece in some for line in piece.text.split("\n"))


class Book(NamedTuple):
    """Returns the definitions for each of several calls, none twice, the sentences for the library's words that have no definition
    there, and names by what they are called elsewhere."""

    parts: Dict[str, List[Piece]]
    listed: List[Tuple[Tuple[str, ...], str]]
    others: Dict[str, List[str]]

    def counts(self) -> str:
        """Returns the definition files of the project, code among them, and their lines; the library's definitions, and its other words."""
        own = [piece for some in self.parts.values() for piece in some if is_own(piece.path)]
        of_library = [piece for some in self.parts.values() for piece in some if not is_own(piece.path)]
        words, sentences = sum(len(piece.names) > 0 for piece in of_library), sum(len(names) for names, _ in self.listed)
        return (f"{len({piece.path for piece in own})} pages, {lines_of(own):,} lines; of the library {words} definitions, "
                f"{lines_of(of_library):,} lines, and {sentences} words by a sentence")

    def sections(self) -> List[Tuple[str, List[Piece]]]:
        """Returns what is printed below one heading: the parts from one file, without the contract of a call, which is in the contents."""
        contracts = {root for part in self.parts for root in roots_of(part)}
        return [(part, list(some)) for part, pieces_of in self.parts.items()
                for _, some in itertools.groupby((piece for piece in pieces_of if piece not in contracts), lambda piece: piece.path)]


def book_of(parts: List[str]) -> Book:
    """Returns the text of some parts, in order."""
    printed: Dict[str, List[Piece]] = {}
    for part in parts:
        before = {piece for some in printed.values() for piece in some}
        printed[part] = [piece for piece in ordered(roots_of(part)) if piece not in before]
    all_of = [piece for some in printed.values() for piece in some]
    words = {name for piece in all_of for name, other in used(piece).items() if is_listed(name, other)}
    sentences = ((tuple(name for name in names if name in words), says) for names, says in library_words.LIBRARY.items())
    others: Dict[str, List[str]] = {}
    for name, real in sorted({pair for piece in all_of for pair in other_names(piece) if pair[0] not in words}):
        others.setdefault(name, []).append(real)
    return Book(printed, [(names, says) for names, says in sentences if names], others)


def contents_of(contract: Piece, numbers: Dict[Piece, int], printed: Set[Piece]) -> Iterator[str]:
    """Prints a contract and each of its clauses with its words; below it the words that these use, unless they were printed before. Each
    project word has the number of the section that defines it."""
    def own_words(piece: Piece) -> List[Tuple[str, Piece]]:
        places = {token: place for place, token in reversed(list(enumerate(tokens_of(piece))))}
        words = [(name, other) for name, other in used(piece).items() if other in numbers and is_own(other.path)]
        return sorted(words, key=lambda pair: places.get(pair[0], 0))

    def line(name: str, words: List[Tuple[str, Piece]]) -> str:
        return f"{name}: " + (", ".join(f"{word} {numbers[other]}" for word, other in words) or "words of the library alone")

    yield f"\n## {contract.names[0]} of {contract.path}\n\n{contract.text}\n"
    for name, clause in CLAUSE.findall(re.sub("//.*", "", contract.text)):
        words = own_words(contract._replace(text=clause))
        yield "    " + line(name or "ensures", words)
        for word, other in words:
            if not is_code(other.path) and other not in printed and own_words(other):
                yield "        " + line(word, own_words(other))
            printed.add(other)


def text_of(book: Book) -> Iterator[str]:
    """Returns the book as lines: the contracts with their contents, what symbols and words mean, and then each part below the path of its
    file."""
    sections = book.sections()
    numbers = {piece: number for number, (_, some) in enumerate(sections, 1) for piece in some}
    yield f"# What is promised\n\n{library_words.CONTENTS}"
    printed: Set[Piece] = set()
    for root in (root for part in book.parts for root in roots_of(part)):
        yield from contents_of(root, numbers, printed)
    yield "\n# How to read this\n"
    for sign, says in [*library_words.LANGUAGE.items(), *((", ".join(names), says) for names, says in book.listed)]:
        yield f"    {sign}: {says}"
    yield "\n# Names that mean another one\n"
    for name, meant in book.others.items():
        yield f"    {name}: {', or '.join(meant)}"
    begun: Set[str] = set()
    for number, (part, some) in enumerate(sections, 1):
        if part not in begun:
            yield f"\n# {part}\n\n{library_words.PARTS[part]}"
        path = some[0].path
        name = path if is_own(path) else "the library, " + os.path.relpath(path, library())
        yield f"\n## {number}. {name}{', more of it' if path in begun else ''}"
        begun.update((part, path))
        yield from (f"\n{piece.text}" for piece in some)
    yield f"\n{book.counts()}"
