"""Outcomes of runs and of calls of a sink, right ones and altered ones, on which tools/run-pages tries what the definitions state."""
import itertools
import re
from typing import Any, Dict, Iterator, List, NamedTuple, Optional, Tuple

from pages import Function, Made, Pages, applied, chain, each
from rows.trial import Trial
from shared import ENDINGS

NAMES = [Made(ending.title()) for ending in ENDINGS]
VALUERS, CAPACITY, STARTS = 4, 64, 128


class Outcome(NamedTuple):
    """The result of a run, and for each sink whether it was begun, its bytes and how many calls failed; how many valuers there were;
    what a truncated sink misses of its text; and the file whose feed failed, or -1."""

    result: Made
    sinks: Tuple[Tuple[bool, bytes, int], ...]
    valuers: int = VALUERS
    missing: bytes = b""
    failed: int = -1


UNTOUCHED = ((False, b"", 0),) * len(NAMES)


def state_of(begun: bool, taken: bytes, failures: int, before: bytes = b"") -> Dict[str, Any]:
    """Returns the state of a sink."""
    return {"begun": begun, "before": chain(before), "taken": Made("Some", (chain(taken),)), "failures": failures}


def texts_wanted(trial: Trial) -> Optional[List[bytes]]:
    """Returns the complete texts that a row expects, by the pipe form or by `compile`."""
    if isinstance(trial.out, bytes) and trial.out.startswith(b"== blocks\n"):
        return re.split(rb"(?m)^== \w+\n", trial.out)[1:]
    texts = [text for ending in ENDINGS for name, text in trial.left.items() if name.endswith("." + ending)]
    return texts if len(texts) == len(ENDINGS) and all(isinstance(text, bytes) for text in texts) else None


def refusal_wanted(trial: Trial) -> Optional[Made]:
    """Returns the refusal of a run that a row expects."""
    line = trial.errors.decode() if isinstance(trial.errors, bytes) else ""
    if line == "pitc: settings: Files\n":
        return Made("Settings", (Made("Files"),))
    if row := re.fullmatch(r"pitc: file (\d+) row (\d+) column (\w+): (\w+)\n", line):
        return Made("Row", (int(row[1]), {"row": int(row[2]), "column": Made(row[3].title()), "kind": Made(row[4])}))
    if rows := re.fullmatch(r"pitc: file (\d+) row (\d+) repeats file (\d+) row (\d+)\n", line):
        again, first = ({"file": int(rows[at]), "row": int(rows[at + 1])} for at in (1, 3))
        return Made("Same", (first, again))
    return None


def gathered(sent: List[List[Made]], valuers: int = VALUERS) -> Dict[str, Any]:
    """Returns the messages that passed the lane: each taken in order, and then one Stop by each valuer."""
    messages = [message for file in sent for message in file]
    took = [[*messages[taker::valuers], Made("Stop")] for taker in range(valuers)]
    return {"capacity": CAPACITY, "sent": chain(map(chain, sent)), "took": chain(map(chain, took))}


def right(trial: Trial, sent: List[List[Made]]) -> Optional[Outcome]:
    """Returns the outcome that a row expects, if it expects complete texts or a refusal of the run."""
    texts = texts_wanted(trial)
    if texts:
        return Outcome(Made("Ok", (gathered(sent),)), tuple((True, text, 0) for text in texts))
    refusal = refusal_wanted(trial)
    return Outcome(Made("Err", (refusal,)), UNTOUCHED) if refusal else None


def cut_off(outcome: Outcome, place: int, failures: int, refusal: Made) -> Outcome:
    """Returns the same, cut off in the middle of a text."""
    _, text, _ = outcome.sinks[place]
    half = len(text) // 2
    return Outcome(Made("Err", (refusal,)), (*outcome.sinks[:place], (True, text[:half], failures), *UNTOUCHED[place + 1 :]), missing=text[half:])


def also_right(outcome: Outcome) -> Iterator[Tuple[str, Outcome]]:
    """Yields possible outcomes of the same run if a sink, a feed or memory fails."""
    yield "a feed fails", Outcome(Made("Err", (Made("FeedFailed", (0,)),)), UNTOUCHED, failed=0)
    yield "no thread", Outcome(Made("Err", (Made("NoThread"),)), UNTOUCHED)
    yield "no memory", Outcome(Made("Err", (Made("OutOfMemory"),)), UNTOUCHED)
    for place, name in enumerate(NAMES) if outcome.result.tag == "Ok" else ():
        yield f"cut off at {ENDINGS[place]}", cut_off(outcome, place, 1, Made("SinkFailed", (name,)))
        yield f"no memory at {ENDINGS[place]}", cut_off(outcome, place, 0, Made("OutOfMemory"))


def with_took(outcome: Outcome, change) -> Outcome:
    """Returns the same with what the valuers took changed."""
    view = outcome.result.held[0]
    took = [list(each(taken)) for taken in each(view["took"])]
    change(took)
    return outcome._replace(result=Made("Ok", ({**view, "took": chain(map(chain, took))},)))


def altered(outcome: Outcome) -> Iterator[Tuple[str, Outcome]]:
    """Yields outcomes that differ from a right one in one thing, each with this thing."""
    settings = [Made("Settings", (Made(kind),)) for kind in ("Files", "Valuers", "Capacity", "Destinations")]
    same = Made("Same", tuple({"file": 0, "row": row} for row in (2, 3)))
    for other in [*settings, same]:
        if outcome.result != Made("Err", (other,)):
            yield f"refused by {other.held[0]}", outcome._replace(result=Made("Err", (other,)), sinks=UNTOUCHED)
    yield "a feed that did not fail", Outcome(Made("Err", (Made("FeedFailed", (0,)),)), UNTOUCHED)
    if outcome.result.tag == "Err":
        refusal = outcome.result.held[0]
        yield "taken", Outcome(Made("Ok", (gathered([]),)), tuple((True, b"", 0) for _ in NAMES))
        yield "a sink is begun", outcome._replace(sinks=((True, b"", 0), *UNTOUCHED[1:]))
        if refusal.tag == "Row":
            file, fault = refusal.held
            for name, other in [("file", (file + 1, fault)), ("row", (file, {**fault, "row": fault["row"] + 1})), ("kind", (file, {**fault, "kind": Made("Order")}))]:
                yield f"another {name}", outcome._replace(result=Made("Err", (Made("Row", other),)))
        if refusal.tag == "Same":
            first, again = refusal.held
            for name, pair in [("turned", (again, first)), ("the row before", (first, {**again, "row": again["row"] - 1})), ("the next row", (first, {**again, "row": again["row"] + 1}))]:
                yield f"{name} repeats", outcome._replace(result=Made("Err", (Made("Same", pair),)))
        return
    for place, which in enumerate(NAMES):
        stopped, begun = cut_off(outcome, place, 1, Made("SinkFailed", (which,))), (True, b"", 0)
        yield f"cut off at {ENDINGS[place]}, which did not fail", cut_off(outcome, place, 0, Made("SinkFailed", (which,)))
        yield f"cut off at {ENDINGS[place]}, another is reported", stopped._replace(result=Made("Err", (Made("SinkFailed", (NAMES[place - 1],)),)))
        if place + 1 < len(NAMES):
            yield f"cut off at {ENDINGS[place]}, a later one is begun", stopped._replace(sinks=(*stopped.sinks[:-1], begun))
        begun, text, _ = outcome.sinks[place]
        others = [("another text", (begun, text + b"\n", 0)), ("a failed call", (begun, text, 1)), ("not begun", (False, text, 0))]
        for name, other in others:
            yield f"{ENDINGS[place]}: {name}", outcome._replace(sinks=(*outcome.sinks[:place], other, *outcome.sinks[place + 1 :]))
    for name, change in [
        ("a message is not taken", lambda took: took[0].pop(0)), ("a message is taken twice", lambda took: took[1].insert(0, took[0][0])),
        ("a Stop is missing", lambda took: took[-1].pop()), ("a Stop too many", lambda took: took[0].append(Made("Stop"))),
        ("a Quit is taken", lambda took: took[0].insert(0, Made("Quit"))), ("a valuer less", lambda took: took.pop()),
        ("another message", lambda took: took[0].insert(0, Made("End", (9, 0)))),
    ]:
        yield name, with_took(outcome, change)
    sent = [list(each(file)) for file in each(outcome.result.held[0]["sent"])]
    if len(sent[0]) > VALUERS:
        yield "rows of a file are taken from the last", with_took(outcome, lambda took: took[0].insert(0, took[0].pop(-2)))
    yield "a row less was sent", outcome._replace(result=Made("Ok", (gathered([sent[0][1:], *sent[1:]]),)))
    yield "more valuers than were requested", outcome._replace(valuers=VALUERS + 1)


def altered_rows(rows: List[Dict[str, Any]]) -> Iterator[Tuple[str, List[Dict[str, Any]]]]:
    """Yields rows that differ from a model's in one thing, each with this thing."""
    first = rows[0]
    yield "a row less", rows[1:]
    yield "a row twice", [first, *rows]
    yield "the next file", [{**first, "file": first["file"] + 1}, *rows[1:]]
    yield "the next place", [{**first, "place": first["place"] + 1}, *rows[1:]]
    yield "another block", [{**first, "block": {**first["block"], "kg": first["block"]["kg"] + 1}}, *rows[1:]]
    worth, others = first["worths"]
    yield "a cent more", [{**first, "worths": (worth + 1, others)}, *rows[1:]]
    yield "a worth less", [{**first, "worths": others}, *rows[1:]]


class Put(NamedTuple):
    """The bytes that a sink was called to take, its state before and after, and the result of the call."""

    text: bytes
    old: Dict[str, Any]
    new: Dict[str, Any]
    answer: Made


def puts() -> Iterator[Tuple[bool, str, Put]]:
    """Yields calls of a sink, each with whether it may end so."""
    refused = Made("Err", (Made("SinkFailed"),))
    for text, begun in itertools.product((b"", b"1 2\n"), (True, False)):
        old = state_of(begun, b"0\n", 2, b"==")

        def put(answer: Made, taken: bytes, failures: int, text=text, old=old, **other) -> Put:
            return Put(text, old, {**old, "taken": Made("Some", (chain(taken),)), "failures": failures, **other}, answer)

        for count in range(len(text) + 2):
            answer = Made("Ok", (count,))
            yield count in range(min(1, len(text)), len(text) + 1), f"{count} bytes are taken", put(answer, b"0\n" + text[:count], 2)
            yield False, f"{count} bytes are taken, one more is held", put(answer, b"0\n" + text[:count] + b"3", 2)
            yield False, f"{count} bytes are put first", put(answer, b"3" + text[:count] + b"0\n", 2)
            yield False, f"{count} bytes are taken by a call that failed", put(answer, b"0\n" + text[:count], 3)
            yield False, f"{count} bytes are taken, and the sink is begun", put(answer, b"0\n" + text[:count], 2, begun=not begun)
            yield False, f"{count} bytes are taken, and others before them", put(answer, b"0\n" + text[:count], 2, before=chain(b"="))
        yield True, "refused", put(refused, b"0\n", 3)
        yield False, "refused, with bytes that were taken", put(refused, b"0\n3", 3)
        yield False, "refused, and the sink is begun", put(refused, b"0\n", 3, begun=not begun)
        yield False, "refused, and the text is dropped", put(refused, b"", 3)
        for failures in (2, 4):
            yield False, f"refused, {failures - 2} calls failed", put(refused, b"0\n", failures)


class Judge:
    """Decides whether outcomes are among those that the definitions state."""

    def __init__(self, pages: Pages):
        self.pages = pages

    def sinks(self, sinks: Tuple[Tuple[bool, bytes, int], ...]) -> Function:
        """Returns the states of sinks, by the name of their text."""
        return self.pages.call("pit_compile.Sinks", "sink_states", Function(1, lambda sink: state_of(*sink)), dict(zip(ENDINGS, sinks)))

    def may_put(self, put: Put) -> bool:
        """Returns whether a sink may do this when it is called to take bytes."""
        return bool(self.pages.call("devices.sinks.SinkState", "IsPut", chain(put.text), put.old, put.new, put.answer))

    def rows(self, plan, texts) -> List[Dict[str, Any]]:
        """Returns the rows that the messages of a model make."""
        formulas = self.pages.call("plan_parts.PlanFormulas", "formulas_of_plan", plan)
        return [self.pages.call("rows.Valued", "row_by", formulas, *message.held) for file in self.sent(plan, texts) for message in file if message.tag == "Row"]

    def are_rows(self, plan, texts, rows: List[Dict[str, Any]]) -> bool:
        """Returns whether rows have the blocks of the model, each with its file and place, and their worths are the values of its
        instance."""
        word = self.pages.call
        blocks, cents = word("precedence.Identifier", "blocks_of_rows", chain(rows)), word("mine_instance.OfModel", "in_hundreds")
        places = [({"file": row["file"], "row": row["place"] + 2}, row["block"]) for row in rows]
        if places != list(each(word("pit_compile.Rows", "model_rows", plan, texts))):
            return False
        numbered = sorted(rows, key=lambda row: word("precedence.Identifier", "id", blocks, row["block"]))
        values = [[applied(cents, worth) for worth in each(row["worths"])] for row in numbered]
        return values == [list(each(of_block)) for of_block in each(word("pit_compile.ZoneFiles", "instance_from", plan, texts)["values"])]

    def sent(self, plan, texts) -> List[List[Made]]:
        return [list(each(file)) for file in each(self.pages.call("pit_compile.Rows", "model_sends", plan, texts))]

    def holds(self, plan, texts, outcome: Outcome) -> bool:
        """Returns whether a run of this plan and these texts may have this outcome."""
        word, blocks = self.pages.call, list(each(self.pages.call("pit_compile.Rows", "model_blocks", plan, texts)))
        view = outcome.result.held[0] if outcome.result.tag == "Ok" else {"sent": (), "took": ()}
        lists = list(each(view["sent"]))
        most = max([len(blocks), *(len(list(each(file))) for file in [*lists, *each(view["took"])]), len(lists)]) + 2
        names = [chain(NAMES[a:b]) for a, b in itertools.combinations_with_replacement(range(len(NAMES) + 1), 2)]
        self.pages.trying = {
            "ℕ": range(most), "Block": blocks[:1], "List Taken": lists, "TextName": NAMES, "List TextName": names, "List (List ℕ)": [texts],
            "List ℕ": [chain(outcome.missing)], "SettingsFault": [Made(kind) for kind in ("Files", "Valuers", "Capacity", "Destinations")],
        }
        settings = {"valuers": outcome.valuers, "capacity": CAPACITY}
        lefts = chain(Made("Some", (text,)) for text in each(texts))
        fails = Function(1, lambda file: file == outcome.failed)
        run = {"plan": plan, "formulas": word("plan_parts.PlanFormulas", "formulas_of_plan", plan), "settings": settings, "remainders": lefts,
               "starts": STARTS}
        return bool(word("pit_compile.Run", "Runs", run, fails, self.sinks(UNTOUCHED), self.sinks(outcome.sinks), outcome.result))
