"""Evaluates the definitions of crates/*/specs as they are.

Each function of a definition file becomes a Python function, by its clauses in their order. A word that it imports is that of the file that
it is imported from, a constant of the code is read there, and a library word is found in `library`, which is hand-written. Lists are chains
`(head, rest)`, with `()` as the empty one; natural numbers and integers are numbers, `pos n` and `negsuc n` the numbers from 0 and below 0.
A statement is a test of its arguments: what it says of each or of some value of a type, or of one that a field of it names, is tried on the
values of `trying`.
"""
import functools
import glob
import itertools
import os
import re
from typing import Any, Callable, Dict, Iterator, List, NamedTuple, Optional, Tuple

import shared

TOKEN = re.compile(r'"[^"]*"|[(){};,]|\.\w+(?<=[)\w])|[^\s(){};,"]+')
# The precedences of operators, and the operators that associate to the right.
BINDING = {"^": 80, "*": 70, "/": 70, "%": 70, "*ℤ": 70, "+": 65, "-": 65, "+ℤ": 65, "-ℤ": 65, "∷": 60, "++": 55, "==": 50, "&&": 35, "||": 30,
           "≡": 20, "≢": 20, "<": 20, "≤": 20, "×": 15, "⊎": 12, ">>=": 10, "↔": 8, "→": 5}
TO_THE_RIGHT = {"∷", "^", "×", "⊎", "→"}
FORMS = {"+": "({} + {})", "*": "({} * {})", "^": "({} ** {})", "-": "minus({}, {})", "/": "over({}, {})", "%": "rest({}, {})",
         "+ℤ": "({} + {})", "-ℤ": "({} - {})", "*ℤ": "({} * {})", "∷": "({}, {})", "++": "joined({}, {})", "==": "({} == {})",
         "&&": "({} and {})", "||": "({} or {})", "≡": "same({}, {})", "≢": "(not same({}, {}))", "<": "({} < {})", "≤": "({} <= {})",
         "×": "({} and {})", "⊎": "({} or {})", "↔": "({} == {})", "→": "(not {} or {})"}
# The types of fields that name a value to which a statement refers; its other fields are statements.
DATA = {"ℕ", "List", "Option", "Bool", "F", "FeedState", "GatheredView", "Instance", "PlanParts", "World"}
# The constructors of numbers and truth values: as a value, as a test, and the value inside.
NUMBERS = {"zero": ("0", "{} == 0", ""), "suc": ("({} + 1)", "{} > 0", "{} - 1"), "pos": ("{}", "{} >= 0", "{}"),
           "negsuc": ("(-{} - 1)", "{} < 0", "-{} - 1"), "true": ("True", "{} is True", ""), "false": ("False", "{} is False", "")}
LIBRARY_VARIANTS = {"Some", "None", "Ok", "Err"}


class Made(NamedTuple):
    """A variant with its values."""

    tag: str
    held: Tuple[Any, ...] = ()


class Function:
    """A function of this number of arguments, the arguments so far, and their names if a definition file names them."""

    def __init__(self, count: int, call: Callable, held: Tuple[Any, ...] = (), names: Tuple[str, ...] = ()):
        self.count, self.call, self.held, self.names = count, call, held, names


# A proof in a field: its content does not matter.
PROOF = Made("proof")


def applied(function: Any, *arguments: Any) -> Any:
    """Applies a function or a variant to further arguments."""
    if function is PROOF:
        return PROOF
    if isinstance(function, Made):
        return Made(function.tag, function.held + arguments)
    held = function.held + arguments
    if len(held) < function.count:
        return Function(function.count, function.call, held)
    answer = function.call(*held[: function.count])
    return applied(answer, *held[function.count :]) if held[function.count :] else answer


def chain(values) -> Tuple:
    """Returns values as a list of the definitions."""
    found: Tuple = ()
    for value in reversed(list(values)):
        found = (value, found)
    return found


def each(values: Tuple) -> Iterator[Any]:
    """Yields the elements of a list of the definitions."""
    while values:
        head, values = values
        yield head


# Terms


class Token(NamedTuple):
    text: str
    begins: bool
    column: int


def tokens_of(lines: List[str]) -> List[Token]:
    found = []
    for line in lines:
        for at, match in enumerate(TOKEN.finditer(line)):
            found.append(Token(match[0], at == 0, match.start()))
    return found


class Reader:
    """Reads a term; a statement of a `do` ends at the line that is indented no further."""

    def __init__(self, tokens: List[Token]):
        self.tokens, self.at, self.columns = tokens, 0, [-1]

    def peek(self) -> str:
        if self.at == len(self.tokens):
            return ""
        token = self.tokens[self.at]
        return "" if token.begins and token.column <= self.columns[-1] else token.text

    def take(self, wanted: str = "") -> str:
        text = self.peek()
        if not text or wanted and text != wanted:
            raise SyntaxError(f"{text or 'the end'} in place of {wanted or 'a term'}")
        self.at += 1
        return text

    def term(self, least: int = 0):
        found = self.operand()
        while BINDING.get(self.peek(), -1) >= least:
            sign = self.take()
            found = ("sign", sign, found, self.term(BINDING[sign] + (sign not in TO_THE_RIGHT)))
        return found

    def operand(self):
        head = self.peek()
        if head == "λ":
            return self.function()
        if head == "¬":
            self.take()
            return "not", self.operand()
        if self.is_bound():
            return self.quantified()
        if head == "let":
            self.take()
            name = self.take()
            while self.take() != "=":
                pass
            value = self.term()
            self.take("in")
            return "let", name, value, self.term()
        if head == "if":
            self.take()
            test = self.term()
            self.take("then")
            yes = self.term()
            self.take("else")
            return "if", test, yes, self.term()
        if head == "do":
            return self.steps()
        found = self.atom()
        arguments = []
        while self.peek() and self.peek() not in BINDING and self.peek() not in ("then", "else", "in", ")", ",", "}", ";", "="):
            if self.peek() == "{":
                self.braces()
            elif self.peek() in ("λ", "let", "if", "do"):
                arguments.append(self.operand())
            else:
                arguments.append(self.atom())
        return ("call", found, arguments) if arguments else found

    def is_bound(self) -> bool:
        """Returns whether names are here in parentheses, with their type."""
        words = [token.text for token in self.tokens[self.at : self.at + 9]]
        return words[:1] == ["("] and ":" in words and all(re.fullmatch(r"\w+", word) for word in words[1 : words.index(":")])

    def quantified(self):
        """Reads a statement about each, or some, value of these types."""
        found = []
        while self.is_bound():
            self.take("(")
            names = []
            while self.peek() != ":":
                names.append(self.take())
            self.take(":")
            kind = type_text(self.term())
            found += [(name, kind) for name in names]
            self.take(")")
        return ("each" if self.take() == "→" else "some"), found, self.term()

    def function(self):
        self.take("λ")
        names = [self.take()]
        while not names[-1].endswith("."):
            names.append(self.take())
        names[-1] = names[-1][:-1]
        return "function", names, self.term()

    def steps(self):
        self.take("do")
        column, found = self.tokens[self.at].column, []
        while True:
            self.columns.append(column - 1)
            bound = ""
            if self.tokens[self.at + 1 : self.at + 2] and self.tokens[self.at + 1].text == "←":
                bound = self.take()
                self.take("←")
            self.columns[-1] = column
            begun, self.tokens[self.at] = self.tokens[self.at], self.tokens[self.at]._replace(begins=False)
            value = self.term()
            self.columns.pop()
            if not bound:
                for name, step in reversed(found):
                    value = ("sign", ">>=", step, ("function", [name], value))
                return value
            found.append((bound, value))

    def braces(self) -> None:
        self.take("{")
        while self.take() != "}":
            pass

    def atom(self):
        found = self.bare()
        while re.match(r"\.\w", self.peek()):
            for field in self.take()[1:].split("."):
                found = ("field", found, field)
        return found

    def bare(self):
        text = self.take()
        if text == "(":
            parts = [self.term()]
            while self.peek() == ",":
                self.take()
                parts.append(self.term())
            self.take(")")
            return parts[0] if len(parts) == 1 else ("tuple", parts)
        if text == "record":
            base = None if self.peek() == "{" else self.atom()
            return "record", base, self.fields()
        if text.startswith('"'):
            return "text", text[1:-1]
        return ("number", int(text)) if text.isdigit() else ("name", text)

    def fields(self):
        self.take("{")
        found = []
        while self.peek() != "}":
            name = self.take()
            self.take("=")
            found.append((name, self.term()))
            if self.peek() == ";":
                self.take()
        self.take("}")
        return found


def type_text(term) -> str:
    """Reads a type as it is written."""
    if term[0] == "call":
        return " ".join([type_text(term[1]), *(f"({part})" if " " in part else part for part in map(type_text, term[2]))])
    return f"{type_text(term[2])} {term[1]} {type_text(term[3])}" if term[0] == "sign" else str(term[1])


def names_in(term) -> set:
    """Returns the names that a term uses, without their fields."""
    if isinstance(term, tuple) and term[:1] == ("name",):
        return {term[1].split(".")[0]}
    return set().union(*map(names_in, term)) if isinstance(term, (tuple, list)) else set()


def parts_of(said) -> List:
    """Returns the statements that one statement joins by `×`."""
    return [*parts_of(said[2]), *parts_of(said[3])] if said[:2] == ("sign", "×") else [said]


def narrowed(bound: List[Tuple[str, str]], parts: List):
    """Returns the statement that these parts hold for some values, with each part as soon as all values that it uses are named."""
    later = {name for name, _ in bound}
    now = [part for part in parts if not later & names_in(part)]
    if bound:
        now.append(("some", bound[:1], narrowed(bound[1:], [part for part in parts if later & names_in(part)])))
    return functools.reduce(lambda said, part: ("sign", "×", part, said), reversed(now)) if now else ("name", "Unit")


# Pages


def parameters_of(head: str) -> List[str]:
    """Returns the names that a head binds in parentheses."""
    found, depth = [], 0
    for part in re.findall(r"\(\w[\w ]* : |[(){}]", head):
        if part[0] in "({":
            found += part[1:-3].split() if depth == 0 and len(part) > 1 else []
            depth += 1
        else:
            depth -= 1
    return found


class Page:
    """A definition file: the clauses of its functions, its variants, and what it imports by which name. The words of a module get the
    parameters of the module before their own; within it, other words of it omit them."""

    def __init__(self, name: str):
        self.name = name
        self.clauses: Dict[str, List[List[str]]] = {}
        self.statements: Dict[str, Tuple[List[str], List[List[str]]]] = {}
        self.variants: set = set()
        self.brought: Dict[str, Tuple[str, str]] = {}
        self.others: Dict[str, str] = {}
        # For each word of a module its parameters, each with the number of the module.
        self.modules: Dict[str, List[Tuple[int, str]]] = {}
        self.count = 0

    @classmethod
    def of_file(cls, path: str) -> "Page":
        page = cls(".".join(["Rattle", path.split("/")[1], "specs", *path[: -len(".antt")].split("/")[3:]]))
        page.take_lines([line for line in shared.read(path).splitlines() if line.strip() and not re.match(r"\s*--", line)], [])
        return page

    @classmethod
    def of_contract(cls, path: str, function: str, names: str) -> "Page":
        """Returns the clauses of a function's contract as words, with these names as their parameters."""
        page, text = cls(f"{path}: {function}"), shared.read(path)
        for line in re.findall(r"(?m)^ghost (use .*);$", text):
            page.take([line], [])
        contract = re.search(rf"(?ms)^fn {function}\b.*?^\{{$", text)
        for name, clause in re.findall(r"(?ms)^    ensures (\w+) \{ (.*?) \}$", contract[0] if contract else ""):
            page.clauses[name] = [[f"{name} {names} = {clause}"]]
        return page

    def take_lines(self, lines: List[str], bound: List[Tuple[int, str]]) -> None:
        """Records the content of a file, or of a module with these parameters."""
        chunks: List[List[str]] = []
        for line in lines:
            if line[0] not in " })" or not chunks:
                chunks.append([])
            chunks[-1].append(line)
        for chunk in chunks:
            if chunk[0].startswith("module _ "):
                self.count += 1
                inner = [(self.count, name) for name in parameters_of(chunk[0])]
                self.take_lines([line[2:] for line in chunk[1:]], [*bound, *inner])
            else:
                self.take(chunk, bound)

    def take(self, chunk: List[str], bound: List[Tuple[int, str]]) -> None:
        """Records a clause, a type or an import."""
        head = chunk[0]
        if brought := re.match(r"(?:pub )?use (Rattle\.[\w.]+)(?:\.\{(.*)\}| as (\w+))$", head):
            source, names, other = brought.groups()
            if other:
                self.others[other] = source
            for name in names.split(", ") if names else []:
                word, _, own = name.partition(" as ")
                self.brought[own or word] = source, word
        elif re.match(r"(?:pub )?data ", head):
            self.variants |= {name for line in chunk[1:] for name in re.findall(r"^ +(?:pub )?(\w+) :", line)}
        elif stated := re.match(r"pub record (\w+)((?:.|\n)*?) : Type 0 where\n((?:.|\n)*)", "\n".join(chunk)):
            name, parameters, fields = stated.groups()
            parts = [part.splitlines() for part in re.split(r"(?m)^  pub ", fields)[1:]]
            self.statements[name] = [*(name for _, name in bound), *parameters_of(parameters)], parts
            self.modules[name] = bound
        elif not re.match(r"(?:(?:abbrev|unfoldable|pub) )*(?:use|mod|record|module|infix\w*|\S+ :)(?: |$)", head):
            name = self.defined_by(head)
            self.clauses.setdefault(name, []).append(chunk)
            self.modules[name] = bound

    def words(self) -> List[str]:
        """Returns the words that can be evaluated."""
        return [*self.clauses, *(name for name, (parameters, _) in self.statements.items() if parameters)]

    def text(self, name: str) -> str:
        """Returns the text of a word."""
        return "\n".join(itertools.chain(*self.clauses.get(name, []), *self.statements.get(name, ([], []))[1]))

    @staticmethod
    def defined_by(head: str) -> str:
        """Returns the word that a clause defines: its first one, or the operator between two patterns."""
        left = Reader(tokens_of([head])).term()
        return left[1] if left[0] == "sign" else (left[1] if left[0] == "call" else left)[1]


class Pages:
    """All definition files, and their words as Python."""

    def __init__(self, library: Dict[str, Any]):
        found = [Page.of_file(path) for path in sorted(glob.glob("crates/*/specs/**/*.antt", recursive=True))]
        self.pages = {page.name: page for page in found}
        self.library, self.ready, self.trying = library, {}, {}
        self.scope: Dict[str, Any] = {"Made": Made, "Function": Function, "applied": applied, "joined": joined, "minus": minus, "over": over,
                                      "rest": rest, "with_fields": with_fields, "field": field, "chain": chain, "same": self.same, "values_of": self.values_of}

    def values_of(self, kind: str):
        """Returns the values of a type on which statements are tried."""
        return self.trying[kind]

    def same(self, one: Any, other: Any) -> bool:
        """Returns whether two values are equal; functions take a text's name."""
        if not isinstance(one, Function) or one is other:
            return one == other
        return all(applied(one, name) == applied(other, name) for name in self.values_of("TextName"))

    def named(self, name: str) -> str:
        """Returns the complete name of the only definition file with this last name."""
        page, = (page for page in self.pages if page.endswith(f".{name}"))
        return page

    def word(self, page: str, name: str) -> Any:
        """Returns the value of a file's word."""
        if (page, name) not in self.ready:
            self.ready[page, name] = self.made(page, name)
        return self.ready[page, name]

    def call(self, page: str, name: str, *arguments: Any) -> Any:
        """Calls a function of a definition file, given by its short name such as `zone_csv.Row`, with these arguments."""
        crate, _, rest_of_it = page.partition(".")
        found = self.word(f"Rattle.{crate}.specs.{rest_of_it}", name)
        return applied(found, *arguments) if arguments else found

    def below(self, name: str) -> List[Page]:
        """Returns a file and all that it depends on."""
        found: Dict[str, Page] = {}
        more = [name]
        while more:
            name = more.pop()
            if name in self.pages and name not in found:
                found[name] = self.pages[name]
                more += [*(source for source, _ in found[name].brought.values()), *found[name].others.values()]
        return list(found.values())

    def source(self, page: str, name: str) -> Optional[Tuple[str, str]]:
        """Returns the file that has a word which this file uses, and its name there; None if it is not imported."""
        if page not in self.pages:
            return page, name
        for word in (name, name.strip("◌")):
            if any(word in words for words in (self.pages[page].clauses, self.pages[page].variants, self.pages[page].statements)):
                return page, word
        brought = self.pages[page].brought.get(name)
        return self.source(*brought) if brought else None

    def used(self, page: str, name: str) -> set:
        """Returns the words that a word uses, also through others, each with its file."""
        found, more = set(), [(page, name)]
        while more:
            page, name = more.pop()
            for word in re.findall(r"\w+", self.pages[page].text(name)):
                place = self.source(page, word)
                if place and place not in found and place[0] in self.pages and place[1] in self.pages[place[0]].words():
                    found.add(place)
                    more.append(place)
        return found

    def is_variant(self, page: str, name: str) -> bool:
        """Returns whether a word is a variant, by how the file names it."""
        first, _, rest_of_it = name.partition(".")
        if rest_of_it:
            return first in self.pages[page].others
        place = self.source(page, name)
        if place is None:
            return False
        owner, word = place
        return owner.endswith("TheVariants") or owner in self.pages and word in self.pages[owner].variants or word in LIBRARY_VARIANTS

    def made(self, page: str, name: str) -> Any:
        """Makes a word: a function or a value by its clauses, a constant of the code, or a library word."""
        if page not in self.pages:
            if page.endswith("TheConstants"):
                return constant(page, name)
            if ".proofs." in page:
                return PROOF
            if name not in self.library:
                raise NameError(f"{name} of {page} is no word of the library that is defined here")
            return self.library[name]
        if name in self.pages[page].statements:
            clauses = [Statement(self, page, name)]
        else:
            clauses = [Clause(self, page, name, chunk) for chunk in self.pages[page].clauses[name]]
        count = len(clauses[0].patterns)
        lines = [f"def it({', '.join(f'a{n}' for n in range(count))}):"]
        for clause in clauses:
            lines += clause.lines()
        lines.append(f"    raise LookupError({name!r})")
        exec("\n".join(lines), self.scope, made := {})
        return Function(count, made["it"]) if count else made["it"]()


class Clause:
    """Returns a clause of a function: its patterns and its result, as Python."""

    numbers = itertools.count()

    def __init__(self, pages: Pages, page: str, name: str, chunk: List[str]):
        self.pages, self.page, self.bound, self.steps = pages, page, pages.pages[page].modules.get(name, []), []
        tokens = tokens_of(chunk)
        depth = middle = 0
        for at, token in enumerate(tokens):
            depth += (token.text in "({") - (token.text in ")}")
            if token.text == "=" and depth == 0:
                middle = at
                break
        left = Reader(tokens[:middle]).term()
        if left[0] == "sign":
            self.patterns = [left[2], left[3]]
        else:
            self.patterns = left[2] if left[0] == "call" else []
        self.patterns = [*(("name", name) for _, name in self.bound), *self.patterns]
        self.body = Reader([token._replace(begins=token.begins and at > 0) for at, token in enumerate(tokens[middle + 1 :])]).term()

    def lines(self) -> List[str]:
        """Returns a loop that is left if a pattern does not match, and that returns if all do."""
        names: Dict[str, str] = {}
        for number, pattern in enumerate(self.patterns):
            self.match(pattern, f"a{number}", names)
        self.parameters = [names[name] for _, name in self.bound]
        return ["    while True:", *(f"        {step}" for step in self.steps), f"        return {self.python(self.body, names)}"]

    def match(self, pattern, value: str, names: Dict[str, str]) -> None:
        """Tests a value, and names its parts."""
        kind = pattern[0]
        if kind == "name" and pattern[1] == "[]":
            self.steps.append(f"if {value}: break")
        elif kind == "sign" and pattern[1] == "∷":
            self.steps.append(f"if not {value}: break")
            self.match(pattern[2], f"{value}[0]", names)
            self.match(pattern[3], f"{value}[1]", names)
        elif kind == "number":
            self.steps.append(f"if {value} != {pattern[1]}: break")
        elif kind == "tuple":
            for number, part in enumerate(pattern[1]):
                self.match(part, f"{value}[{number}]", names)
        else:
            head, parts = (pattern[1][1], pattern[2]) if kind == "call" else (pattern[1], [])
            if head in NUMBERS:
                self.steps.append(f"if not ({NUMBERS[head][1].format(value)}): break")
                for part in parts:
                    self.match(part, f"({NUMBERS[head][2].format(value)})", names)
            elif self.pages.is_variant(self.page, head):
                self.steps.append(f"if {value}.tag != {head.split('.')[-1]!r}: break")
                for number, part in enumerate(parts):
                    self.match(part, f"{value}.held[{number}]", names)
            elif head != "_":
                names[head] = f"v{len(self.steps)}"
                self.steps.append(f"{names[head]} = {value}")

    def python(self, term, names: Dict[str, str]) -> str:
        """Returns a term as an expression of Python."""
        return getattr(self, "as_" + term[0])(names, *term[1:])

    def as_number(self, names, number):
        return str(number)

    def as_text(self, names, text):
        return f"chain({text.encode()!r})"

    def as_tuple(self, names, parts):
        return f"({', '.join(self.python(part, names) for part in parts)},)"

    def as_field(self, names, value, name):
        return f"field({self.python(value, names)}, {name!r})"

    def as_record(self, names, base, fields):
        terms = ", ".join(f"{name!r}: {self.python(value, names)}" for name, value in fields)
        return f"{{{terms}}}" if base is None else f"with_fields({self.python(base, names)}, {{{terms}}})"

    def as_if(self, names, test, yes, no):
        return f"({self.python(yes, names)} if {self.python(test, names)} else {self.python(no, names)})"

    def as_let(self, names, name, value, body):
        inner = {**names, name: f"l{next(self.numbers)}"}
        return f"(lambda {inner[name]}: {self.python(body, inner)})({self.python(value, names)})"

    def as_function(self, names, bound, body):
        inner = dict(names)
        arguments = [f"l{next(self.numbers)}" for _ in bound]
        inner.update(zip(bound, arguments))
        return f"Function({len(bound)}, lambda {', '.join(arguments)}: {self.python(body, inner)}, (), {tuple(bound)})"

    def as_not(self, names, said):
        return f"(not {self.python(said, names)})"

    def as_each(self, names, bound, said):
        return self.tried("all", names, bound, said)

    def as_some(self, names, bound, said):
        if len(bound) == 1 and said[0] != "some":
            return self.tried("any", names, bound, said)
        while said[0] == "some":
            bound, said = [*bound, *said[1]], said[2]
        first, rest = bound[:1], bound[1:]
        return self.tried("any", names, first, narrowed(rest, parts_of(said)))

    def tried(self, how, names, bound, said):
        """Returns a test of a statement about all, or any, values of these types."""
        inner = dict(names)
        loops = []
        for name, kind in bound:
            inner[name] = f"l{next(self.numbers)}"
            loops.append(f"for {inner[name]} in values_of({kind!r})")
        return f"{how}({self.python(said, inner)} {' '.join(loops)})"

    def as_sign(self, names, sign, left, right):
        terms = self.python(left, names), self.python(right, names)
        return FORMS[sign].format(*terms) if sign in FORMS else f"applied({self.global_word(f'◌{sign}◌')}, {terms[0]}, {terms[1]})"

    def as_name(self, names, name):
        first, *fields = name.split(".")
        if name in ("[]", "⊥", "Unit"):
            return {"[]": "()", "⊥": "False", "Unit": "True"}[name]
        if first in names:
            return functools.reduce(lambda value, part: f"field({value}, {part!r})", fields, names[first])
        if name in NUMBERS:
            return NUMBERS[name][0] if "{}" not in NUMBERS[name][0] else f"Function(1, lambda n: {NUMBERS[name][0].format('n')})"
        if self.pages.is_variant(self.page, name):
            return f"Made({name.split('.')[-1]!r})"
        return functools.reduce(lambda value, part: f"field({value}, {part!r})", fields, self.global_word(first))

    def as_call(self, names, head, arguments):
        terms = [self.python(argument, names) for argument in arguments]
        if head == ("name", "cond") and len(terms) == 3:
            return f"({terms[1]} if {terms[0]} else {terms[2]})"
        if head == ("name", "codes"):
            return terms[0]
        if head[0] == "name" and head[1] in NUMBERS:
            return NUMBERS[head[1]][0].format(terms[0])
        if head[0] == "name" and head[1] not in names and self.pages.is_variant(self.page, head[1]):
            return f"Made({head[1].split('.')[-1]!r}, ({', '.join(terms)},))"
        return f"applied({self.python(head, names)}, {', '.join(terms)})"

    def global_word(self, name: str) -> str:
        """Returns the expression for a file's word, which is made at its first use."""
        place = self.pages.source(self.page, name)
        if place is None:
            raise NameError(f"{name} of {self.page} is brought in from nowhere")
        owner, word = place
        key = f"w{len(self.pages.scope)}"
        self.pages.scope.setdefault("places", {})
        known = self.pages.scope["places"].get((owner, word))
        if known is None:
            self.pages.scope["places"][owner, word] = known = key
            self.pages.scope[key] = lambda: self.pages.word(owner, word)
        common = self.common(word) if owner == self.page else []
        return f"applied({known}(), {', '.join(common)})" if common else f"{known}()"

    def common(self, word: str) -> List[str]:
        """Returns the parameters of the modules that another word of the file is in as well."""
        pairs = zip(self.bound, self.pages.pages[self.page].modules.get(word, []), self.parameters)
        return [parameter for here, there, parameter in itertools.takewhile(lambda pair: pair[0] == pair[1], pairs)]


class Statement(Clause):
    """A statement by its fields, some of which name a value that others refer to."""

    def __init__(self, pages: Pages, page: str, name: str):
        parameters, fields = pages.pages[page].statements[name]
        self.pages, self.page, self.bound, self.steps = pages, page, pages.pages[page].modules[name], []
        self.patterns, bound, parts = [("name", name) for name in parameters], [], []
        for field in fields:
            name, _, rest_of_it = field[0].partition(" : ")
            said = Reader([token._replace(begins=False) for token in tokens_of([rest_of_it, *field[1:]])]).term()
            if type_text(said).split()[0] in DATA:
                bound.append((name, type_text(said)))
            else:
                parts.append(said)
        self.body = narrowed(bound, parts)


def joined(left: Tuple, right: Tuple) -> Tuple:
    for value in reversed(list(each(left))):
        right = (value, right)
    return right


def minus(left: int, right: int) -> int:
    return max(left - right, 0)


def over(left: int, right: int) -> int:
    return left // right if right else 0


def rest(left: int, right: int) -> int:
    return left % right if right else left


def field(value: Any, name: str) -> Any:
    if value is PROOF:
        return PROOF
    return value[int(name)] if name.isdigit() else value[name]


def with_fields(value: Dict[str, Any], fields: Dict[str, Any]) -> Dict[str, Any]:
    return {**value, **fields}


def constant(page: str, name: str) -> int:
    """Returns a constant of the code, from the file that the definition file's name implies."""
    crate, path = page.split(".")[1], "/".join(page.split(".")[4:-1])
    value = re.search(rf"(?m)^pub const {name}: \w+ = ([^;]+);", shared.read(f"crates/{crate}/src/{path}.rt"))
    return eval(re.sub(r"[A-Z_]{2,}", lambda other: str(constant(page, other[0])), value[1].replace("as usize", "")))
