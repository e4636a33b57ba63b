"""The words of the toolchain's library that definition files import, hand-written, for tools/pages.py."""
import itertools
from typing import Dict, Iterator, List, NamedTuple, Optional, Tuple

from pages import Function, Made, applied, chain, each, joined


def chained(function):
    """A function that yields items, as one that returns a list."""
    return lambda *arguments: chain(function(*arguments))


def element(values, place, other=None):
    """Returns the element of a list at a position, or another one after its end."""
    for at, value in enumerate(each(values)):
        if at == place:
            return value
    return other


def optional(value) -> Made:
    return Made("None") if value is None else Made("Some", (value,))


def unwrapped(value: Made, other=None):
    return value.held[0] if value.held else other


def folded(function, start, values):
    for value in each(values):
        start = applied(function, start, value)
    return start


def first_place(test, values) -> int:
    """The place of the first element that passes, or how many there are."""
    return next((at for at, value in enumerate(each(values)) if applied(test, value)), sum(1 for _ in each(values)))


def passed(test, values) -> int:
    """Returns how many elements at the start pass."""
    return next((at for at, value in enumerate(each(values)) if not applied(test, value)), sum(1 for _ in each(values)))


def split(test, values) -> List[Tuple]:
    parts: List[list] = [[]]
    for value in each(values):
        if applied(test, value):
            parts.append([])
        else:
            parts[-1].append(value)
    return [chain(part) for part in parts]


def onto_first(value, parts):
    return ((value, parts[0]), parts[1]) if parts else ((value, ()), ())


def dropped(count, values):
    while count and values:
        count, values = count - 1, values[1]
    return values


def ok_prefix(results) -> Iterator:
    for result in each(results):
        if result.tag == "Err":
            return
        yield result.held[0]


def is_digit(code: int) -> bool:
    return 48 <= code <= 57


def lower(code: int) -> int:
    return code + 32 if 65 <= code <= 90 else code


def signless(values):
    return dropped(1, values) if values and values[0] in (43, 45) else values


def number_after(radix, value, digits):
    for digit in each(digits):
        value = value * radix + (digit - 48)
    return value


def records(config, text) -> Tuple:
    """Returns the records of a text: commas, double quotes that are doubled inside, lines ended by LF, CR or both, blank lines skipped."""
    found, record, cell, state = [], [], [], "start"

    def end_cell():
        record.append(chain(cell))
        cell.clear()

    def end_record():
        end_cell()
        found.append(chain(record))
        record.clear()

    for byte in each(text):
        if state == "quoted":
            if byte == 34:
                state = "quote"
            else:
                cell.append(byte)
        elif state == "quote" and byte == 34:
            cell.append(byte)
            state = "quoted"
        elif byte == 44:
            end_cell()
            state = "field"
        elif byte in (10, 13):
            if state != "start":
                end_record()
            state = "start"
        elif byte == 34 and state in ("start", "field"):
            state = "quoted"
        else:
            cell.append(byte)
            state = "bare"
    if state != "start":
        end_record()
    return chain(found)


class Words(NamedTuple):
    """What clap finds in arguments: the kind of its error, the subcommand, and the values of each rule."""

    fault: Optional[Made] = None
    name: Optional[Tuple] = None
    values: Dict[Tuple, List[Tuple]] = {}


def read_words(app, words) -> Words:
    """Reads arguments, which begin with the program's name, if options are written `--name value`."""
    name, shape, rest = None, app["top"], list(each(words))[1:]
    if app["subs"] and rest and not bytes(each(rest[0])).startswith(b"-"):
        name, *rest = rest
        shape = next((shape for shape in each(app["subs"]) if shape["name"] == name), None)
        if shape is None:
            return Words(Made("DisplayHelp" if bytes(each(name)) == b"help" else "InvalidSubcommand"))
    for option, kind in ((b"--help", "DisplayHelp"), (b"--version", "DisplayVersion")):
        if rest and bytes(each(rest[0])) == option and (kind == "DisplayHelp" or shape["has_version"]):
            return Words(Made(kind))
    return read_rules(shape, name, rest) if name or not app["subs"] else Words(Made("MissingSubcommand"))


def read_rules(shape, name: Optional[Tuple], rest: List[Tuple]) -> Words:
    """Reads the options of a shape, and then its one argument without a name."""
    rules, found = list(each(shape["rules"])), {}
    options = {b"--" + bytes(each(rule["long"].held[0])): rule for rule in rules if rule["long"].held}
    while rest and bytes(each(rest[0])).startswith(b"--"):
        rule = options.get(bytes(each(rest[0])))
        if rule is None or len(rest) < 2 or rule["id"] in found:
            return Words(Made("UnknownArgument" if rule is None else "InvalidValue" if len(rest) < 2 else "ArgumentConflict"))
        found[rule["id"]], rest = [rest[1]], rest[2:]
    last = next(rule for rule in rules if not rule["long"].held)
    if len(rest) > 1 and not last["range"].held:
        return Words(Made("UnknownArgument"))
    found.update({last["id"]: rest} if rest else {})
    for rule in rules:
        if rule["required"] and rule["id"] not in found:
            return Words(Made("MissingRequiredArgument"))
        values = found.setdefault(rule["id"], list(each(rule["defaults"])))
        if rule["parser"].held and not is_unsigned(bytes(each(values[0])), *rule["parser"].held[0].held):
            return Words(Made("ValueValidation"))
    return Words(None, name, found)


def is_unsigned(text: bytes, low: int, high: int) -> bool:
    return text.removeprefix(b"+").isdigit() and low <= int(text) <= high


def rows_of(words: Words) -> Tuple:
    return chain((name, chain(values)) for name, values in words.values.items())


def subcommand(words: Words) -> Made:
    return optional(None if words.name is None else (words.name, rows_of(words)))


def without_mark(text):
    return dropped(3, text) if [*each(text)][:3] == [239, 187, 191] else text


# Each word that definition files import, by the library file that has it.
LIBRARY: Dict[str, object] = {name: Function(count, call) for page, words in {
    "std.specs.Prelude": {
        "length": (1, lambda xs: sum(1 for _ in each(xs))), "map": (2, chained(lambda f, xs: (applied(f, x) for x in each(xs)))),
        "filter": (2, chained(lambda f, xs: (x for x in each(xs) if applied(f, x)))),
        "take": (2, chained(lambda n, xs: list(each(xs))[:n])), "drop": (2, dropped), "slice_index": (2, lambda xs, i: element(xs, i, 0)),
        "slice_index_or": (3, element), "slice_get": (2, lambda xs, i: optional(element(xs, i))),
        "replicate": (2, chained(lambda n, x: [x] * n)), "sum_by": (2, lambda f, xs: sum(applied(f, x) for x in each(xs))),
        "flat_map": (2, chained(lambda f, xs: (y for x in each(xs) for y in each(applied(f, x))))), "fold": (3, folded),
        "nat_lt": (2, lambda a, b: a < b), "nat_le": (2, lambda a, b: a <= b), "nat_eq": (2, lambda a, b: a == b), "not": (1, lambda a: not a),
        "is_some": (1, lambda o: bool(o.held)), "unwrap_or": (2, unwrapped), "min": (2, min), "unsigned_abs": (1, abs), "neg_ℤ": (1, lambda a: -a),
        "int_le": (2, lambda a, b: a <= b), "int_div": (2, lambda a, b: abs(a) // abs(b) * (1 if (a < 0) == (b < 0) else -1) if b else 0),
        "option_map": (2, lambda f, o: Made("Some", (applied(f, o.held[0]),)) if o.held else o),
        "decimal": (1, lambda n: chain(str(n).encode())), "cond": (3, lambda b, x, y: x if b else y), "codes": (1, lambda text: text),
    },
    "std.specs.Option": {
        "option_or": (2, lambda o, p: o if o.held else p), "option_map_or": (3, lambda f, o, d: applied(f, o.held[0]) if o.held else d),
        "option_and_then": (2, lambda f, o: applied(f, o.held[0]) if o.held else o),
    },
    "std.specs.Result": {"ok_prefix": (1, chained(ok_prefix))},
    "std.specs.Prelude, statements": {
        "All": (2, lambda f, xs: all(applied(f, x) for x in each(xs))), "IsTrue": (1, bool),
        "IfSome": (2, lambda o, f: not o.held or applied(f, o.held[0])), "IfOk": (2, lambda r, f: r.tag != "Ok" or applied(f, r.held[0])),
        "IfErr": (2, lambda r, f: r.tag != "Err" or applied(f, r.held[0])), "OnOk": (2, lambda r, p: r.tag != "Ok" or p), "OnErr": (2, lambda r, p: r.tag != "Err" or p),
        "IsOk": (1, lambda r: r.tag == "Ok"), "string_bytes": (1, lambda text: text),
        "AllZip": (3, lambda f, xs, ys: len([*each(xs)]) == len([*each(ys)]) and all(applied(f, x, y) for x, y in zip(each(xs), each(ys)))),
        "IsStrictlyIncreasing": (1, lambda xs: all(a < b for a, b in itertools.pairwise(each(xs)))),
    },
    "std.specs.Int": {"abs_diff": (2, lambda a, b: abs(a - b)), "is_in_range": (3, lambda low, high, n: low <= n <= high)},
    "std.specs.List": {
        "list_any": (2, lambda f, xs: any(applied(f, x) for x in each(xs))), "list_all": (2, lambda f, xs: all(applied(f, x) for x in each(xs))),
        "find": (2, lambda f, xs: optional(next((x for x in each(xs) if applied(f, x)), None))),
        "filter_map": (2, chained(lambda f, xs: (o.held[0] for o in (applied(f, x) for x in each(xs)) if o.held))),
        "count_by": (2, lambda f, xs: sum(bool(applied(f, x)) for x in each(xs))),
        "range_with_len": (2, chained(lambda start, n: range(start, start + n))),
        "enumerate_from": (2, chained(lambda n, xs: enumerate(each(xs), n))), "last_or": (2, lambda o, xs: optional(list(each(xs))[-1]) if xs else o),
        "join_with_byte": (2, lambda byte, parts: chain(bytes([byte]).join(bytes(each(part)) for part in each(parts)))),
        "concat": (1, chained(lambda parts: (x for part in each(parts) for x in each(part)))),
        "before_first": (2, chained(lambda f, xs: list(each(xs))[: first_place(f, xs)])),
        "after_first": (2, lambda f, xs: dropped(first_place(f, xs) + 1, xs)), "slice_split": (2, chained(split)), "onto_first": (2, onto_first),
        "prefix_len": (2, passed), "position_or_len": (2, first_place), "suffix_len": (2, lambda f, xs: passed(f, chain(reversed(list(each(xs)))))),
        "reverse": (1, chained(lambda xs: reversed(list(each(xs))))),
        "position": (2, lambda f, xs: optional(next((at for at, x in enumerate(each(xs)) if applied(f, x)), None))),
    },
    "std.specs.Str": {
        "bytes_eq": (2, lambda a, b: a == b), "str_to_ascii_lowercase": (1, chained(lambda a: map(lower, each(a)))),
        "str_eq_ignore_ascii_case": (2, lambda a, b: [*map(lower, each(a))] == [*map(lower, each(b))]),
    },
    "std.specs.Char": {"is_ascii_digit": (1, is_digit), "to_ascii_lowercase": (1, lower)},
    "std.specs.Str.Parse": {
        "digits_value": (2, lambda radix, ds: number_after(radix, 0, ds)), "digits_value_after": (3, number_after),
        "starts_with_minus": (1, lambda t: bool(t) and t[0] == 45), "without_leading_sign": (1, signless),
        "without_leading_plus": (1, lambda t: t[1] if t and t[0] == 43 else t), "IsNumeral": (2, lambda radix, t: bool(t) and all(map(is_digit, each(t)))),
    },
    "std.specs.Str.Lines": {"strip_carriage_return": (1, lambda line: chain([*each(line)][:-1]) if line and [*each(line)][-1] == 13 else line)},
    "std.specs.Simd.Lanes": {"zip2": (3, chained(lambda f, xs, ys: (applied(f, x, y) for x, y in zip(each(xs), each(ys)))))},
    "csv.specs.Reading": {"records": (2, records), "strip_bom": (1, without_mark)},
    "clap.specs.Words": {
        "new_app": (1, lambda name: {"top": {"name": name, "rules": (), "subcommand_required": False, "has_version": False}, "subs": ()}),
        "new_rule": (1, lambda name: {"id": name, "long": Made("None"), "required": False, "value_names": 0, "range": Made("None"), "defaults": (), "parser": Made("None")}),
        "with_rule": (2, lambda app, rule: {**app, "top": {**app["top"], "rules": joined(app["top"]["rules"], (rule, ()))}}),
        "with_subcommand": (2, lambda app, shape: {**app, "subs": (shape, app["subs"])}),
        "fault_of": (2, lambda app, words: chain(filter(None, [read_words(app, words).fault]))),
        "matches_of": (2, lambda app, words: rows_of(read_words(app, words))), "subcommand_of": (2, lambda app, words: subcommand(read_words(app, words))),
        "all_of": (2, lambda name, rows: optional(next((values for other, values in each(rows) if other == name), None))),
        "first_of": (2, lambda name, rows: optional(next((values[0] for other, values in each(rows) if other == name), None))),
        "one_of": (2, lambda name, rows: optional(next((values[0] for other, values in each(rows) if other == name and not values[1]), None))),
        "kind_of": (1, lambda error: error["kind"]), "IsAmong": (2, lambda kind, kinds: kind in [*each(kinds)]),
    },
}.items() for name, (count, call) in words.items()}
LIBRARY["default_config"], LIBRARY["usize_max"] = None, 2**64 - 1
