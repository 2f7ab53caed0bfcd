"""Robust ordinal regression, by the proved programs `ror` and `ror_show`.

A table and a session go in, a report comes out, and each value is read from a report that the checker accepted:

    import ror

    table = ror.Table({"price": "min", "power": "max"}, {"a": (9900, 50), "b": (12400, 66), "c": (15200, 80)})
    session = ror.Session()
    session.prefer("a", "b")
    line = session.ask_relation()
    report = ror.replay(table, session)
    print(report.accepted, report.relation(line).necessary)

The programs are proved. This file is not: it is tested. It writes the texts that the programs read, calls `check` on every
report before it shows anything of it, and reads the values out of what was accepted. The names of alternatives and criteria
are the ids of the table.

The programs are found in this order: the argument `program`, the environment variable ROR (and ROR_SHOW), the folder
`ror_programs` beside this file, the folder above it, and the search path. They run on x86-64 Linux.
"""

from __future__ import annotations

import csv
import html
import importlib
import io
import json
import os
import re
import shutil
import subprocess
import tempfile
import warnings
from dataclasses import dataclass, fields
from decimal import Decimal
from fractions import Fraction
from numbers import Integral
from pathlib import Path
from typing import (
    AbstractSet, Any, Dict, Generic, Iterable, Iterator, List, Mapping, NoReturn, Optional, Sequence, Tuple, Type, TypeVar,
    Union, overload,
)

__all__ = [
    "Answer", "ClassRange", "ContradictionError", "Criterion", "Desk", "Discrimination", "FileError", "Generated", "Group",
    "GroupPair", "LevelsError", "Line", "Listing", "MemoryShortError", "NoAnswerError", "OutputError", "Pair", "Program",
    "ProgramError", "Reason", "RefusedWarning", "Relation", "Repair", "Report", "ReportError", "RorError", "Session",
    "SessionError", "Sheet", "SheetCriterion", "Span", "Statement", "Table", "TableError", "UnsuitedError", "UsageError",
    "ValueFunction", "WideError", "check", "discriminate", "generate", "group", "levels", "read_sheet", "replay",
]

Amount = Union[int, str, Decimal, Fraction, float]
"""What may be given as a performance; a float stands for the decimal that `repr` shows."""


# ---- errors


class RorError(Exception):
    """What went wrong.

    `status` is the program's exit status, or None where this file found the fault before any program ran. `said` is the line
    that the program wrote on standard error, `word` the name of the fault in it (such as `BadNumber`), `line` the line of the
    file at fault (0: the file as a whole; None: no line is named), and `advice` what `ror_show` adds for people.
    """

    def __init__(
        self,
        message: str,
        *,
        status: Optional[int] = None,
        said: str = "",
        word: str = "",
        line: Optional[int] = None,
        advice: str = "",
    ) -> None:
        super().__init__(message + ("\n" + advice if advice else ""))
        self.status = status
        self.said = said
        self.word = word
        self.line = line
        self.advice = advice


class TableError(RorError):
    """The table can't be read, or what was given for it is no name or no performance."""


class SessionError(RorError):
    """The session can't be read, or what was given for it is no name or no number."""


class UnsuitedError(SessionError):
    """This command doesn't take the line: a repair, or under `levels` a line of a second desk."""


class LevelsError(RorError):
    """The levels of confidence can't be read."""


class ReportError(RorError):
    """The report isn't accepted, so nothing of it is shown. `block` and `certificate` say where the first fault is."""

    def __init__(
        self, message: str, *, block: Optional[int] = None, certificate: Optional[int] = None, **fault: Any
    ) -> None:
        super().__init__(message, **fault)
        self.block = block
        self.certificate = certificate


class FileError(RorError):
    """A file couldn't be read."""


class OutputError(RorError):
    """A file or a program's output couldn't be written."""


class MemoryShortError(RorError):
    """A program had too little memory."""


class UsageError(RorError):
    """A program doesn't know the words that it was called with."""


class ProgramError(RorError):
    """A program isn't there, can't run here, was ended by a signal, or wrote something else than it should."""


class NoAnswerError(RorError):
    """The report has no answer of this kind there."""


class ContradictionError(RorError):
    """No value function agrees with the statements, so there is no such value."""


class WideError(RorError):
    """A number passed the bits on the way, so nothing is concluded. More `bits` may help."""


class RefusedWarning(UserWarning):
    """Lines of a session were refused: they changed nothing and have no answer. `Report.refused` has them."""


# ---- files and words


def _read(path: Union[str, os.PathLike[str]]) -> bytes:
    try:
        return Path(path).read_bytes()
    except OSError as error:
        raise FileError(f"the file can't be read: {path}: {error.strerror}") from error


def _write(path: Union[str, os.PathLike[str]], data: bytes) -> None:
    try:
        Path(path).write_bytes(data)
    except OSError as error:
        raise OutputError(f"the file can't be written: {path}: {error.strerror}") from error


def _word_fault(word: str) -> Optional[str]:
    """What keeps a text from being a name, or None."""
    try:
        data = word.encode("utf-8")
    except UnicodeEncodeError:
        return "has no form in UTF-8"
    if not data:
        return "is empty"
    if len(data) > 64:
        return "has more than 64 bytes"
    if any(byte < 0x21 or byte == 0x7F for byte in data):
        return "has a blank or a control character in it"
    return None


def _name_fault(name: object) -> Optional[str]:
    """What keeps a value from being the name of an alternative or a criterion, or None."""
    if not isinstance(name, str):
        return f"is a {type(name).__name__}, not a text"
    fault = _word_fault(name)
    return f"begins with {name[0]}" if fault is None and name[0] in "@#" else fault


def _name(name: object, kind: Type[RorError] = SessionError) -> str:
    fault = _name_fault(name)
    if fault is not None:
        raise kind(f"a name {fault}: {name!r}", word="BadLine")
    return str(name)


def _count(number: object, what: str, kind: Type[RorError] = SessionError) -> str:
    if isinstance(number, bool) or not isinstance(number, Integral) or not 0 <= int(number) <= 999_999_999:
        word = "BadNumber" if kind is TableError else "BadLine"
        raise kind(f"{what} is no number from 0 to 999999999: {number!r}", word=word)
    return str(int(number))


_AMOUNT = re.compile(r"[+-]?[0-9]+(?:\.[0-9]+|/[0-9]+)?")


def _amount_of_word(word: str) -> Optional[Fraction]:
    """The amount that a word of a table writes, or None where it writes none."""
    if not _AMOUNT.fullmatch(word):
        return None
    above, _, below = word.partition("/")
    if sum(sign.isdigit() for sign in above) > 18 or len(below) > 18:
        return None
    if "/" in word and int(below) == 0:
        return None
    return Fraction(word)


def _word_of_amount(amount: Amount) -> str:
    """The word that stands for an amount in a table, exactly."""
    word: Optional[str] = None
    if isinstance(amount, str):
        word = amount
    elif isinstance(amount, bool):
        pass
    elif isinstance(amount, Integral):
        word = str(int(amount))
    elif isinstance(amount, Fraction):
        word = f"{amount.numerator}/{amount.denominator}" if amount.denominator != 1 else str(amount.numerator)
    elif isinstance(amount, Decimal):
        word = format(amount, "f")
    elif isinstance(amount, float):
        word = format(Decimal(float.__repr__(amount)), "f")
    if word is None or _amount_of_word(word) is None:
        shown = amount if isinstance(amount, str) or word is None else word
        raise TableError(
            f"no performance: {shown!r} (a whole number, a decimal with a point or a ratio, of at most 18 digits)",
            word="BadNumber",
        )
    return word


# ---- tables


@dataclass(frozen=True)
class Criterion:
    """A criterion: its name, its direction (`max`: more is better; `min`: less is), and whether it is linear."""

    name: str
    direction: str
    linear: bool = False


class Table:
    """A decision table: criteria, alternatives with their performances, and how many classes there are.

    Criteria are `Criterion` values, or a mapping from names to `"max"`, `"min"`, `"max linear"` or `"min linear"`. Alternatives are
    a mapping from names to performances: a list in the order of the criteria, or a mapping from criteria. A performance is an
    int, a text (`"3.5"`, `"1/3"`), a Decimal or a Fraction, and is kept exactly. A float is taken as the decimal that `repr` shows:
    0.1 is one tenth.
    """

    def __init__(
        self,
        criteria: Union[Mapping[str, str], Iterable[Criterion]],
        alternatives: Mapping[str, Union[Sequence[Amount], Mapping[str, Amount]]],
        classes: int = 0,
    ) -> None:
        kept = _criteria_of(criteria)
        lines = ["ror-table 3"]
        for criterion in kept:
            lines.append(f"criterion {criterion.name} {criterion.direction}{' linear' if criterion.linear else ''}")
        if _count(classes, "the count of classes", TableError) != "0":
            lines.append(f"classes {int(classes)}")
        if not isinstance(alternatives, Mapping):
            raise TableError(f"the alternatives are no mapping from names to performances: {type(alternatives).__name__}", word="BadLine")
        for name, amounts in alternatives.items():
            words = _words_of_row(name, amounts, kept)
            lines.append(" ".join(["alternative", _name(name, TableError), *words]))
        self._keep("".join(line + "\n" for line in lines).encode("utf-8"), False)

    def _keep(self, data: bytes, best_first: bool) -> None:
        self._data = data
        self._best_first = best_first
        self._parsed: Optional[_ParsedTable] = None

    @classmethod
    def from_bytes(cls, data: bytes, best_first: bool = False) -> Table:
        """A table from the bytes of its file, plain or in XMCDA 2, which are kept as they are.

        `best_first` says that the ranks of the categories in XMCDA begin with the best one. It changes nothing for a plain table. The
        program reads the bytes when a session is replayed, and faults are raised then.
        """
        table = cls.__new__(cls)
        table._keep(bytes(data), best_first)
        return table

    @classmethod
    def read(cls, path: Union[str, os.PathLike[str]], best_first: bool = False) -> Table:
        """A table from a file, as `from_bytes` takes it."""
        return cls.from_bytes(_read(path), best_first)

    @classmethod
    def from_frame(
        cls, frame: Any, criteria: Union[Mapping[str, str], Iterable[Criterion]], classes: int = 0
    ) -> Table:
        """A table from a data frame of pandas: its index has the names, its columns the performances on the criteria."""
        kept = _criteria_of(criteria)
        rows: Dict[str, List[Amount]] = {}
        for criterion in kept:
            if criterion.name not in frame.columns:
                raise TableError(f"the data frame has no column {criterion.name!r}", word="MissingPerformance")
        for place, name in enumerate(frame.index):
            if name in rows:
                raise TableError(f"two alternatives have the name {name!r}", word="RepeatedId")
            rows[name] = [frame[criterion.name].iloc[place] for criterion in kept]
        return cls(kept, rows, classes)

    def to_bytes(self) -> bytes:
        """The bytes that the program reads."""
        return self._data

    def write(self, path: Union[str, os.PathLike[str]]) -> None:
        """Writes these bytes to a file."""
        _write(path, self._data)

    @property
    def best_first(self) -> bool:
        """Whether the ranks of the categories in XMCDA begin with the best one."""
        return self._best_first

    @property
    def is_xmcda(self) -> bool:
        """Whether the program reads the bytes as XMCDA: the first one that is no white space, after a byte order mark, is `<`."""
        data = self._data[3:] if self._data.startswith(b"\xef\xbb\xbf") else self._data
        return data.lstrip(b" \t\r\n").startswith(b"<")

    @property
    def criteria(self) -> Tuple[Criterion, ...]:
        """The criteria of a plain table, in order. `read_sheet` has those of any table, as the program read them."""
        return self._parse().criteria

    @property
    def alternatives(self) -> Tuple[str, ...]:
        """The names of the alternatives of a plain table, in order."""
        return tuple(self._parse().rows)

    @property
    def classes(self) -> int:
        """How many classes a plain table has."""
        return self._parse().classes

    def performances(self, alternative: str) -> Dict[str, Fraction]:
        """The performances of an alternative of a plain table, by criterion, exactly."""
        parsed = self._parse()
        if alternative not in parsed.rows:
            raise TableError(f"the table has no alternative {alternative!r}", word="UnknownAlternative")
        return {criterion.name: amount for criterion, amount in zip(parsed.criteria, parsed.rows[alternative])}

    def to_frame(self) -> Any:
        """The performances of a plain table as a data frame of pandas, as Fractions, a row for each alternative."""
        rows = [self.performances(name) for name in self.alternatives]
        return _pandas().DataFrame(rows, index=list(self.alternatives), columns=[it.name for it in self.criteria])

    def _parse(self) -> _ParsedTable:
        if self._parsed is None:
            if self.is_xmcda:
                raise TableError("a table in XMCDA is kept as its bytes; read_sheet says what the program reads in it")
            self._parsed = _parse_table(self._data)
        return self._parsed

    def __repr__(self) -> str:
        return f"<ror.Table {'in XMCDA' if self.is_xmcda else 'plain'}, {len(self._data)} bytes>"


def _criteria_of(given: Union[Mapping[str, str], Iterable[Criterion]]) -> Tuple[Criterion, ...]:
    kept: List[Criterion] = []
    if isinstance(given, Mapping):
        for name, words in given.items():
            said = words.split(" ") if isinstance(words, str) else []
            if said not in (["max"], ["min"], ["max", "linear"], ["min", "linear"]):
                raise TableError(f"the direction of {name!r} is max or min, perhaps with linear behind it: {words!r}", word="BadLine")
            kept.append(Criterion(name, said[0], len(said) == 2))
    else:
        kept.extend(given)
    seen = set()
    for criterion in kept:
        if not isinstance(criterion, Criterion):
            raise TableError(f"a criterion without a direction: {criterion!r}", word="BadLine")
        _name(criterion.name, TableError)
        if criterion.direction not in ("max", "min"):
            raise TableError(f"the direction of {criterion.name!r} is max or min: {criterion.direction!r}", word="BadLine")
        if criterion.name in seen:
            raise TableError(f"two criteria have the name {criterion.name!r}", word="RepeatedId")
        seen.add(criterion.name)
    return tuple(kept)


def _words_of_row(
    name: str, amounts: Union[Sequence[Amount], Mapping[str, Amount]], criteria: Sequence[Criterion]
) -> List[str]:
    if isinstance(amounts, Mapping):
        names = {criterion.name for criterion in criteria}
        lacking, besides = names - set(amounts), set(amounts) - names
        if lacking:
            raise TableError(f"{name!r} has no performance on {sorted(lacking)[0]!r}", word="MissingPerformance")
        if besides:
            raise TableError(f"{name!r} has a performance on {sorted(map(str, besides))[0]!r}, which is no criterion", word="BadLine")
        row = [amounts[criterion.name] for criterion in criteria]
    else:
        if isinstance(amounts, (str, bytes, AbstractSet)) or not isinstance(amounts, Iterable):
            raise TableError(f"the performances of {name!r} are no list in the order of the criteria: {amounts!r}", word="BadLine")
        row = list(amounts)
        if len(row) != len(criteria):
            word = "MissingPerformance" if len(row) < len(criteria) else "BadLine"
            raise TableError(f"{name!r} has {len(row)} performances, and there are {len(criteria)} criteria", word=word)
    words = []
    for amount, criterion in zip(row, criteria):
        try:
            words.append(_word_of_amount(amount))
        except TableError as error:
            raise TableError(f"{name!r} on {criterion.name!r}: {error}", word="BadNumber") from None
    return words


@dataclass(frozen=True)
class _ParsedTable:
    criteria: Tuple[Criterion, ...]
    rows: Dict[str, Tuple[Fraction, ...]]
    classes: int


def _lines(data: bytes) -> List[bytes]:
    """The lines of a table or a session; one CR just before an LF belongs to the end of the line."""
    *lines, last = data.split(b"\n")
    return [line[:-1] if line.endswith(b"\r") else line for line in lines] + ([last] if last else [])


def _cut_lines(data: bytes) -> List[List[str]]:
    """The words of each line; none where the line is passed over."""
    kept = []
    for line in _lines(data):
        words = [word.decode("utf-8", "replace") for word in re.split(rb"[ \t]+", line) if word]
        kept.append([] if words and words[0].startswith("#") else words)
    return kept


def _parse_table(data: bytes) -> _ParsedTable:
    """What a plain table says, for those who look at it from Python. What counts is how the program reads it."""
    criteria: Dict[str, Criterion] = {}
    rows: Dict[str, Tuple[Fraction, ...]] = {}
    version, classes = 0, 0

    def refuse(word: str, line: int) -> NoReturn:
        raise TableError(f"bad table: {word} line {line}", word=word, line=line)

    try:
        data.decode("utf-8")
    except UnicodeDecodeError as error:
        refuse("NotUtf8", data.count(b"\n", 0, error.start) + 1)
    for number, words in enumerate(_cut_lines(data), 1):
        if not words:
            continue
        form, named, rest = words[0], len(words) > 1 and _name_fault(words[1]) is None, words[2:]
        if not version:
            if form != "ror-table" or words[1:] not in (["1"], ["2"], ["3"]):
                refuse("Form", number)
            version = int(words[1])
        elif re.search("[\0-\x1f\x7f]", "".join(words)):
            refuse("BadLine", number)
        elif form == "criterion" and named and not classes and not rows and rest[:1] in (["max"], ["min"]) and (
            not rest[1:] or version == 3 and rest[1:] == ["linear"]
        ):
            if words[1] in criteria:
                refuse("RepeatedId", number)
            criteria[words[1]] = Criterion(words[1], rest[0], len(rest) == 2)
        elif form == "classes" and len(words) == 2 and not classes and not rows:
            if not re.fullmatch(r"[0-9]{1,9}", words[1]) or not int(words[1]):
                refuse("BadNumber", number)
            classes = int(words[1])
        elif form == "alternative" and named and len(rest) <= len(criteria):
            if words[1] in rows:
                refuse("RepeatedId", number)
            if len(rest) < len(criteria):
                refuse("MissingPerformance", number)
            amounts = [_amount_of_word(word) for word in rest if version > 1 or not re.search("[./]", word)]
            rows[words[1]] = tuple(amount for amount in amounts if amount is not None)
            if len(rows[words[1]]) != len(criteria):
                refuse("BadNumber", number)
        else:
            refuse("BadLine", number)
    if not criteria or not rows:
        refuse("Empty" if version else "Form", 0 if version else 1)
    return _ParsedTable(tuple(criteria.values()), rows, classes)


# ---- sessions

_FORMS = {"prefer": 2, "atleast": 2, "same": 2, "stronger": 4, "asstrong": 4, "equal": 4}


def _statement(form: str, operands: Sequence[Union[str, int]], on: Optional[str]) -> str:
    """The words of a statement."""
    if form == "class":
        if len(operands) != 3:
            raise SessionError("a class statement has an alternative, a lowest and a highest class", word="BadLine")
        if on is not None:
            raise SessionError("a class statement is over all criteria", word="BadLine")
        name, lowest, highest = operands
        return f"class {_name(name)} {_count(lowest, 'a class')} {_count(highest, 'a class')}"
    if form not in _FORMS:
        raise SessionError(f"no form of a statement: {form!r}", word="BadLine")
    if len(operands) != _FORMS[form]:
        raise SessionError(f"{form} has {_FORMS[form]} alternatives, and {len(operands)} are given", word="BadLine")
    words = [form, *(_name(name) for name in operands)]
    if on is not None:
        if _FORMS[form] != 4:
            raise SessionError(f"{form} is over all criteria", word="BadLine")
        words += ["on", _name(on)]
    return " ".join(words)


class Desk:
    """The place of one judge in a session. What is said at a desk counts for the questions at this desk alone.

    Each method adds one line to the session and gives the line's number, by which the report is asked later.
    """

    def __init__(self, session: Session, name: str) -> None:
        fault = _word_fault(name) if isinstance(name, str) else f"is a {type(name).__name__}, not a text"
        if name != "" and fault is not None:
            raise SessionError(f"the name of a desk {fault}: {name!r}", word="BadLine")
        self._to = session
        self._name = name

    @property
    def name(self) -> str:
        """The judge's name; empty for the desk without one."""
        return self._name

    def _say(self, line: str) -> int:
        return self._to._add(f"@{self._name} {line}" if self._name else line)

    def prefer(self, a: str, b: str) -> int:
        """States that a is worth more than b."""
        return self._say(_statement("prefer", (a, b), None))

    def atleast(self, a: str, b: str) -> int:
        """States that a is worth at least as much as b."""
        return self._say(_statement("atleast", (a, b), None))

    def same(self, a: str, b: str) -> int:
        """States that a is worth as much as b."""
        return self._say(_statement("same", (a, b), None))

    def stronger(self, a: str, b: str, c: str, d: str, on: Optional[str] = None) -> int:
        """States that a is preferred to b more strongly than c to d, over all criteria or on one."""
        return self._say(_statement("stronger", (a, b, c, d), on))

    def asstrong(self, a: str, b: str, c: str, d: str, on: Optional[str] = None) -> int:
        """States that a is preferred to b at least as strongly as c to d, over all criteria or on one."""
        return self._say(_statement("asstrong", (a, b, c, d), on))

    def equal(self, a: str, b: str, c: str, d: str, on: Optional[str] = None) -> int:
        """States that a is preferred to b as strongly as c to d, over all criteria or on one."""
        return self._say(_statement("equal", (a, b, c, d), on))

    def assign(self, a: str, lowest: int, highest: Optional[int] = None) -> int:
        """States that a belongs to one of the classes from lowest to highest; without highest, to this one. Class 1 is the worst."""
        return self._say(_statement("class", (a, lowest, lowest if highest is None else highest), None))

    def withdraw(self, number: int) -> int:
        """Takes back the statement with this number, which the report has (`Report.standing`)."""
        return self._say(f"withdraw {_count(number, 'a statement')}")

    def replace(self, number: int, form: str, *operands: Union[str, int], on: Optional[str] = None) -> int:
        """Puts a statement in the place of another: `replace(2, "atleast", "a", "b")`, `replace(2, "class", "a", 1, 2)`."""
        return self._say(f"replace {_count(number, 'a statement')} {_statement(form, operands, on)}")

    def repair(self) -> int:
        """Withdraws each statement that contradicts those kept before it."""
        return self._say("repair")

    def undo(self) -> int:
        """Takes the last change at this desk back."""
        return self._say("undo")

    def ask_consistent(self) -> int:
        """Asks whether some value function agrees with all statements."""
        return self._say("ask consistent")

    def ask_necessary(
        self, a: str, b: str, c: Optional[str] = None, d: Optional[str] = None, on: Optional[str] = None
    ) -> int:
        """Asks whether a is worth at least as much as b by every function that agrees; with c and d, whether a is preferred to b at
        least as strongly as c to d, over all criteria or on one."""
        return self._ask("necessary", a, b, c, d, on)

    def ask_possible(
        self, a: str, b: str, c: Optional[str] = None, d: Optional[str] = None, on: Optional[str] = None
    ) -> int:
        """Asks the same as `ask_necessary` of some function that agrees."""
        return self._ask("possible", a, b, c, d, on)

    def _ask(self, kind: str, a: str, b: str, c: Optional[str], d: Optional[str], on: Optional[str]) -> int:
        if (c is None) != (d is None):
            raise SessionError("strengths are compared of two pairs: c and d go together", word="BadLine")
        if on is not None and c is None:
            raise SessionError("on one criterion only strengths are compared: c and d are missing", word="BadLine")
        words = ["ask", kind, *(_name(name) for name in (a, b, c, d) if name is not None)]
        return self._say(" ".join(words + (["on", _name(on)] if on is not None else [])))

    def ask_relation(self) -> int:
        """Asks both questions of each ordered pair of alternatives."""
        return self._say("ask relation")

    def ask_classes(self, a: str) -> int:
        """Asks to which classes a may belong, by some function and by every one."""
        return self._say(f"ask classes {_name(a)}")

    def ask_possible_class(self, a: str, number: int) -> int:
        """Asks whether some function that agrees leaves a this class."""
        return self._say(f"ask possible-class {_name(a)} {_count(number, 'a class')}")

    def ask_necessary_class(self, a: str, number: int) -> int:
        """Asks whether every function that agrees leaves a this class."""
        return self._say(f"ask necessary-class {_name(a)} {_count(number, 'a class')}")


class Session(Desk):
    """What the judges state and the analyst asks, a line each, in order. Its own methods speak at the desk without a name.

    Lines may also be given as texts: `Session(["prefer a b", "@anna ask relation"])`. The program reads them when the session is
    replayed, and faults are raised then.
    """

    def __init__(self, lines: Iterable[str] = ()) -> None:
        self._data = bytearray()
        self._count = 0
        super().__init__(self, "")
        if isinstance(lines, str):
            raise SessionError("the lines are one text, not a list", word="BadLine")
        for line in lines:
            self.add_line(line)

    @classmethod
    def from_bytes(cls, data: bytes) -> Session:
        """A session from the bytes of its file, which are kept as they are."""
        session = cls()
        session._data = bytearray(data)
        session._count = len(_lines(data))
        return session

    @classmethod
    def read(cls, path: Union[str, os.PathLike[str]]) -> Session:
        """A session from a file."""
        return cls.from_bytes(_read(path))

    def to_bytes(self) -> bytes:
        """The bytes that the program reads."""
        return bytes(self._data)

    def write(self, path: Union[str, os.PathLike[str]]) -> None:
        """Writes these bytes to a file."""
        _write(path, self._data)

    def desk(self, name: str) -> Desk:
        """The desk of a judge, whose methods add lines to this session."""
        return Desk(self, name)

    def add_line(self, line: str) -> int:
        """Adds a line as it is, and gives its number."""
        return self._add(line)

    def comment(self, text: str) -> int:
        """Adds a line that is passed over."""
        return self._add("# " + text)

    @property
    def lines(self) -> Tuple[str, ...]:
        """The lines, the first of which has the number 1."""
        return tuple(line.decode("utf-8", "replace") for line in _lines(bytes(self._data)))

    def _add(self, line: str) -> int:
        if not isinstance(line, str):
            raise SessionError(f"a line is a {type(line).__name__}, not a text: {line!r}", word="BadLine")
        if "\n" in line or "\r" in line:
            raise SessionError(f"a line has the end of a line in it: {line!r}", word="BadLine")
        try:
            data = line.encode("utf-8")
        except UnicodeEncodeError:
            raise SessionError(f"a line has no form in UTF-8: {line!r}", word="NotUtf8") from None
        if self._data and not self._data.endswith(b"\n"):
            self._data += b"\n"
        self._data += data + b"\n"
        self._count += 1
        return self._count

    def __repr__(self) -> str:
        return f"<ror.Session of {self._count} lines>"


# ---- programs


@dataclass(frozen=True)
class Program:
    """Where the two programs are, and after how many seconds a call of one is ended (None: never)."""

    ror: str
    ror_show: str
    timeout: Optional[float] = None

    def __post_init__(self) -> None:
        object.__setattr__(self, "ror", os.path.abspath(self.ror))
        object.__setattr__(self, "ror_show", os.path.abspath(self.ror_show))

    @staticmethod
    def find(given: Union[None, str, os.PathLike[str], Program] = None) -> Program:
        """Finds the programs: by what is given (the path of `ror`, or of the folder that has both), by the environment variables ROR
        and ROR_SHOW, beside this file, in the folder above it, or on the search path."""
        if isinstance(given, Program):
            return given
        if given is not None:
            path = Path(given)
            return _program_at(path / "ror" if path.is_dir() else path, None, "the argument")
        named = os.environ.get("ROR")
        if named:
            return _program_at(Path(named), os.environ.get("ROR_SHOW"), "the environment variable ROR")
        here = Path(__file__).resolve().parent
        for folder in (here / "ror_programs", here.parent):
            if (folder / "ror").is_file() and (folder / "ror_show").is_file():
                return Program(str(folder / "ror"), str(folder / "ror_show"))
        found = shutil.which("ror")
        if found is not None and (Path(found).parent / "ror_show").is_file():
            return _program_at(Path(found), None, "the search path")
        raise ProgramError(
            "the program ror is not found: name it by the argument `program` or the environment variable ROR, as /path/to/ror"
        )


def _program_at(ror: Path, show: Optional[str], source: str) -> Program:
    if not ror.is_file():
        raise ProgramError(f"{source} names no file: {str(ror)!r}")
    beside = Path(show) if show else ror.parent / "ror_show"
    if not beside.is_file():
        raise ProgramError(f"the program ror_show is not found: {str(beside)!r} is no file (ROR_SHOW may name another one)")
    return Program(str(ror), str(beside))


ProgramLike = Union[None, str, "os.PathLike[str]", Program]


class _Runner:
    """Calls the programs on one table and one session, each time in a folder of its own."""

    def __init__(self, table: Table, session: Optional[Session], program: ProgramLike) -> None:
        if not isinstance(table, Table):
            raise TableError(f"no Table: {table!r}")
        if session is not None and not isinstance(session, Session):
            raise SessionError(f"no Session: {session!r}")
        self.table = table
        self.program = Program.find(program)
        self.files: Dict[str, bytes] = {"table.xml" if table.is_xmcda else "table.txt": table.to_bytes()}
        if session is not None:
            self.files["session.txt"] = session.to_bytes()
        self.options = ["--best-first"] if table.best_first else []

    def call(self, page: bool, words: Sequence[str], more: Mapping[str, bytes]) -> Tuple[int, bytes, str]:
        """The status, the output and the errors of a call; its words are the command and what stands behind the files."""
        files = {**self.files, **more}
        program = self.program.ror_show if page else self.program.ror
        return _call(program, [words[0], *files, *words[1:], *self.options], files, self.program.timeout)

    def ror(self, words: Sequence[str], more: Mapping[str, bytes] = {}) -> Tuple[int, bytes]:
        """The status (0 or 9) and the output of `ror`; any other status is raised, with the advice of `ror_show`."""
        status, output, errors = self.call(False, words, more)
        if status not in (0, 9):
            _raise(status, errors, self._advice(words[0], status, more))
        return status, output

    def show(self, words: Sequence[str], more: Mapping[str, bytes] = {}) -> bytes:
        """A page of `ror_show`."""
        status, output, errors = self.call(True, words, more)
        if status != 0:
            _raise(status, errors, _behind_first_line(errors))
        return output

    def _advice(self, command: str, status: int, more: Mapping[str, bytes]) -> str:
        try:
            if status in (3, 4):
                return _behind_first_line(self.call(True, ["read"], {})[2])
            if status == 5 and command == "check":
                return _behind_first_line(self.call(True, ["standing"], more)[2])
        except ProgramError:
            pass
        return ""


def _call(
    program: str, words: Sequence[str], files: Mapping[str, bytes], timeout: Optional[float]
) -> Tuple[int, bytes, str]:
    try:
        with tempfile.TemporaryDirectory(prefix="ror-") as folder:
            for name, data in files.items():
                Path(folder, name).write_bytes(data)
            done = subprocess.run([program, *words], cwd=folder, stdin=subprocess.DEVNULL, capture_output=True, timeout=timeout)
    except subprocess.TimeoutExpired as error:
        raise ProgramError(f"the program was ended after {timeout} seconds: {program}") from error
    except OSError as error:
        raise ProgramError(f"the program can't run here: {program}: {error.strerror}") from error
    return done.returncode, done.stdout, done.stderr.decode("utf-8", "replace")


def _behind_first_line(errors: str) -> str:
    return errors.partition("\n")[2].strip("\n")


_FAULT = re.compile(
    r"(?:bad \w+|rejected|unsuited session): (?:(block|certificate) ([0-9]+) )?"
    r"(.*?)(?: ?(?:line |(?<=BadLine )|(?<=BadNumber ))([0-9]+))?"
)
_KINDS: Dict[int, Type[RorError]] = {
    2: UsageError, 3: TableError, 4: SessionError, 5: ReportError, 6: FileError, 7: OutputError, 8: MemoryShortError,
    10: UnsuitedError, 11: LevelsError,
}


def _raise(status: int, errors: str, advice: str) -> NoReturn:
    """Raises what a status other than 0 and 9 says."""
    said = errors.partition("\n")[0]
    if status < 0:
        raise ProgramError(f"a signal ended the program: {-status}", status=status, said=said)
    if status not in _KINDS:
        raise ProgramError(errors.strip() or f"status {status}", status=status, said=said)
    found = _FAULT.fullmatch(said)
    kind, place, word, line = found.groups() if found else (None, None, "", None)
    where = {kind: int(place)} if kind and place else {}
    word = "Unsuited" if status == 10 else word or ""
    raise _KINDS[status](
        said or f"status {status}", status=status, said=said, word=word, line=int(line) if line else None, advice=advice, **where
    )


def _accepted(output: bytes) -> Tuple[int, int]:
    """The two counts that a check prints."""
    counts = re.fullmatch(rb"accepted ([0-9]+) wide ([0-9]+)\n", output)
    if counts is None:
        raise ProgramError(f"a check printed something else than its counts: {output[:80]!r}")
    return int(counts.group(1)), int(counts.group(2))


def _width(bits: Optional[int]) -> List[str]:
    if bits not in (None, 15, 31, 63, 127):
        raise UsageError(f"bits are 15, 31, 63 or 127: {bits!r}")
    return [] if bits is None else ["--bits", str(bits)]


# ---- rows


Row = TypeVar("Row")


def _pandas() -> Any:
    try:
        return importlib.import_module("pandas")
    except ImportError as error:
        raise RorError("to_frame needs pandas, which isn't here") from error


class Listing(Sequence[Row], Generic[Row]):
    """A list of values that can also be seen as rows, and as a data frame."""

    def __init__(self, rows: Iterable[Row], columns: Sequence[str]) -> None:
        self._rows = tuple(rows)
        self.columns = tuple(columns)

    def __len__(self) -> int:
        return len(self._rows)

    @overload
    def __getitem__(self, place: int) -> Row: ...

    @overload
    def __getitem__(self, place: slice) -> Tuple[Row, ...]: ...

    def __getitem__(self, place: Union[int, slice]) -> Union[Row, Tuple[Row, ...]]:
        return self._rows[place]

    def __iter__(self) -> Iterator[Row]:
        return iter(self._rows)

    def records(self) -> List[Dict[str, Any]]:
        """The rows as mappings from the columns."""
        return [{name: getattr(row, name) for name in self.columns} for row in self._rows]

    def to_frame(self) -> Any:
        """The rows as a data frame of pandas."""
        return _pandas().DataFrame(self.records(), columns=list(self.columns), dtype=object)

    def __repr__(self) -> str:
        return f"<ror.{type(self).__name__} of {len(self._rows)}: {', '.join(self.columns)}>"

    def _repr_html_(self) -> str:
        """The first hundred rows as a table, for a notebook."""
        cells = [[_shown(getattr(row, name)) for name in self.columns] for row in self._rows[:100]]
        rows = [f"<tr>{''.join(f'<td>{html.escape(cell)}</td>' for cell in row)}</tr>" for row in cells]
        head = f"<tr>{''.join(f'<th>{name}</th>' for name in self.columns)}</tr>"
        more = f"<p>and {len(self) - 100} more</p>" if len(self) > 100 else ""
        return f"<table>{head}{''.join(rows)}</table>{more}"


def _shown(value: object) -> str:
    if isinstance(value, tuple):
        return ", ".join(map(_shown, value))
    return value.text if isinstance(value, Statement) else "" if value is None else str(value)


def _columns_of(kind: Any) -> Tuple[str, ...]:
    return tuple(field.name for field in fields(kind))


# ---- what a table says, as the program read it


@dataclass(frozen=True)
class SheetCriterion:
    """A criterion with its levels from worst to best."""

    name: str
    direction: str
    linear: bool
    levels: Tuple[Fraction, ...]


@dataclass(frozen=True)
class Sheet:
    """What the program read of a table: criteria with their levels, alternatives, classes, and the statements that the file brings."""

    criteria: Tuple[SheetCriterion, ...]
    alternatives: Tuple[str, ...]
    classes: int
    statements: Tuple[str, ...]


def read_sheet(table: Table, program: ProgramLike = None) -> Sheet:
    """What the program reads of a table, plain or in XMCDA: the sheet that `ror_show read` writes."""
    return _sheet_of(_Runner(table, None, program).show(["read"]))


def _brought(runner: _Runner) -> Tuple[str, ...]:
    """The statements that the table's file brings, which each desk begins with."""
    return read_sheet(runner.table, runner.program).statements if runner.table.is_xmcda else ()


class _Words:
    """The words of a text, one after another."""

    def __init__(self, data: bytes) -> None:
        self._words = [word.decode("utf-8") for word in re.split(rb"[ \n]+", data) if word]
        self._next = 0

    def take(self) -> str:
        if self._next == len(self._words):
            raise ProgramError("the sheet of a table ends too early")
        self._next += 1
        return self._words[self._next - 1]

    def expect(self, words: str) -> None:
        for word in words.split(" "):
            came = self.take()
            if came != word:
                raise ProgramError(f"the sheet of a table has {came!r} where {word!r} should stand")


def _sheet_of(page: bytes) -> Sheet:
    words = _Words(page)
    words.expect("criteria")
    count = int(words.take().rstrip(","))
    words.expect("each with its levels from worst to best; columns")
    words.take()
    words.expect("(one for each step, or one for a linear criterion)")
    criteria = []
    for _ in range(count):
        name, direction = words.take(), words.take()
        linear = not direction.endswith(",")
        if linear:
            words.expect("linear,")
        words.expect("steps")
        levels = tuple(Fraction(words.take()) for _ in range(int(words.take()) + 1))
        criteria.append(SheetCriterion(name, direction.rstrip(","), linear, levels))
    words.expect("alternatives")
    alternatives = tuple(words.take() for _ in range(int(words.take())))
    words.expect("classes")
    word = words.take()
    classes = 0 if word == "none" else int(word.rstrip(","))
    if classes:
        words.expect(f"1 is the worst and {classes} the best")
    words.expect("statements that the file brings, at every desk:")
    statements = []
    for number in range(1, int(words.take()) + 1):
        words.expect(str(number))
        form = words.take()
        size = 3 if form == "class" else _FORMS.get(form, 0)
        statements.append(" ".join([form, *(words.take() for _ in range(size))]))
    return Sheet(tuple(criteria), alternatives, classes, tuple(statements))


# ---- value functions


@dataclass(frozen=True)
class _Marginal:
    """A row of a value function."""

    criterion: str
    level: Fraction
    marginal: Fraction


class ValueFunction:
    """A value function: what each level of each criterion is worth, as a share of the value of all best levels.

    `marginals` has, for each criterion, the marginal value of each level from worst to best, exactly. `total` is the whole number by
    which the report's numbers were divided. `label` says which function it is: `base`, or the question that it decides with the
    verdict. `line` and `place` say which answer has it (None for a most discriminating function).
    """

    def __init__(
        self,
        label: str,
        total: int,
        marginals: Dict[str, Dict[Fraction, Fraction]],
        line: Optional[int] = None,
        place: Optional[int] = None,
    ) -> None:
        self.label = label
        self.total = total
        self.marginals = marginals
        self.line = line
        self.place = place

    @property
    def weights(self) -> Dict[str, Fraction]:
        """The weight of each criterion: the marginal value of its best level."""
        return {name: list(levels.values())[-1] for name, levels in self.marginals.items()}

    def value(self, performances: Mapping[str, Amount]) -> Fraction:
        """The value of an alternative with these performances, each of which has to be a level of the table."""
        value = Fraction(0)
        for name, levels in self.marginals.items():
            if name not in performances:
                raise TableError(f"there is no performance on {name!r}", word="MissingPerformance")
            level = Fraction(_word_of_amount(performances[name]))
            if level not in levels:
                raise TableError(f"{performances[name]} is no level of {name!r}, so the function says nothing of it")
            value += levels[level]
        return value

    def values(self, table: Table) -> Dict[str, Fraction]:
        """The value of each alternative of a plain table."""
        return {name: self.value(table.performances(name)) for name in table.alternatives}

    @property
    def rows(self) -> Listing[_Marginal]:
        """A row for each level of each criterion."""
        return Listing(
            (_Marginal(name, level, share) for name, levels in self.marginals.items() for level, share in levels.items()),
            _columns_of(_Marginal),
        )

    def to_frame(self) -> Any:
        """These rows as a data frame of pandas."""
        return self.rows.to_frame()

    def _repr_html_(self) -> str:
        return self.rows._repr_html_()

    def __repr__(self) -> str:
        return f"<ror.ValueFunction {self.label}>"


# ---- reports

@dataclass(frozen=True)
class Answer:
    """An answer of a report: the session's line that asked, its place among the answers to this line (from 1), the desk, the
    question and the verdict, which is `yes`, `no`, `contradiction` or `wide`.

    `kind` is the first word of the question, `alternatives` are those that it names, `criterion` is the one behind `on`, and `number`
    the class.
    """

    line: int
    place: int
    desk: str
    question: str
    verdict: str
    kind: str
    alternatives: Tuple[str, ...]
    criterion: Optional[str] = None
    number: Optional[int] = None

    @property
    def holds(self) -> bool:
        """Whether the answer is *yes*. A wide answer is raised, and so is a contradiction, unless the question is `consistent`."""
        if self.kind == "consistent" and self.verdict == "contradiction":
            return False
        return _holds(self.verdict, self.question, self.line)


def _holds(verdict: str, question: str, line: Optional[int]) -> bool:
    where = f"line {line}, {question}" if line else question
    if verdict == "contradiction":
        raise ContradictionError(f"{where}: no value function agrees with the statements", word=verdict, line=line)
    if verdict == "wide":
        raise WideError(f"{where}: a number passed the bits, so nothing is concluded", word=verdict, line=line, status=9)
    return verdict == "yes"


@dataclass(frozen=True)
class Statement:
    """A statement that stands at a desk: its number, its words, and the line of the session that said it, which is None where
    the table's file brings it."""

    number: int
    text: str
    line: Optional[int]
    desk: str


@dataclass(frozen=True)
class Line:
    """What came of a line of the session.

    `outcome` is `added`, `withdrawn`, `replaced`, `undone`, `refused`, `repaired`, `repair-wide` or `answered`. `statement` is the
    number of the statement that was added, withdrawn or replaced, or at which a repair became too wide. `refusal` is the reason why a
    line was refused, `dropped` has the numbers that a repair withdrew, and `answers` the answers.
    """

    number: int
    desk: str
    text: str
    outcome: str
    statement: Optional[int] = None
    refusal: Optional[str] = None
    dropped: Tuple[int, ...] = ()
    answers: Tuple[Answer, ...] = ()


@dataclass(frozen=True)
class Repair:
    """A repair, and the statements that it withdrew: each contradicts those that were kept before it."""

    line: int
    desk: str
    dropped: Tuple[Statement, ...]


@dataclass(frozen=True)
class Pair:
    """An ordered pair of alternatives: is the first at least as good as the second, by all functions that agree and by some one?"""

    first: str
    second: str
    necessary: str
    possible: str


class Relation(Listing[Pair]):
    """The answers to `ask relation`: a `Pair` for each ordered pair of different alternatives."""

    def __init__(self, line: int, desk: str, pairs: Iterable[Pair]) -> None:
        super().__init__(pairs, _columns_of(Pair))
        self.line = line
        self.desk = desk
        self._by_names = {(pair.first, pair.second): pair for pair in self._rows}

    @property
    def necessary(self) -> Tuple[Tuple[str, str], ...]:
        """The pairs whose first alternative is at least as good as the second by every function that agrees. Where no function
        agrees, or an answer is wide, this is raised."""
        return tuple((it.first, it.second) for it in self if self._said(it, "necessary"))

    @property
    def possible(self) -> Tuple[Tuple[str, str], ...]:
        """The same by some function that agrees."""
        return tuple((it.first, it.second) for it in self if self._said(it, "possible"))

    def is_necessary(self, first: str, second: str) -> bool:
        """Whether the first alternative is at least as good as the second by every function that agrees."""
        return self._said(self.pair(first, second), "necessary")

    def is_possible(self, first: str, second: str) -> bool:
        """The same by some function that agrees."""
        return self._said(self.pair(first, second), "possible")

    def pair(self, first: str, second: str) -> Pair:
        """The two verdicts on two alternatives."""
        if (first, second) not in self._by_names:
            raise NoAnswerError(f"line {self.line} has no answer on {first!r} and {second!r}", line=self.line)
        return self._by_names[first, second]

    def _said(self, pair: Pair, kind: str) -> bool:
        return _holds(str(getattr(pair, kind)), f"{kind} {pair.first} {pair.second}", self.line)


@dataclass(frozen=True)
class ClassRange:
    """The answers to `ask classes` on an alternative: for each class from 1 on, whether some function leaves it the class, and
    whether every one does, as verdicts."""

    line: int
    desk: str
    alternative: str
    possible_verdicts: Tuple[str, ...]
    necessary_verdicts: Tuple[str, ...]

    @property
    def possible(self) -> Tuple[int, ...]:
        """The classes that some function leaves it."""
        return self._those(self.possible_verdicts, "possible-class")

    @property
    def necessary(self) -> Tuple[int, ...]:
        """The classes that every function leaves it."""
        return self._those(self.necessary_verdicts, "necessary-class")

    @property
    def lowest(self) -> Optional[int]:
        """The lowest class that some function leaves it; None where there is none."""
        return min(self.possible, default=None)

    @property
    def highest(self) -> Optional[int]:
        """The highest one."""
        return max(self.possible, default=None)

    def _those(self, verdicts: Tuple[str, ...], kind: str) -> Tuple[int, ...]:
        return tuple(
            number for number, verdict in enumerate(verdicts, 1) if _holds(verdict, f"{kind} {self.alternative} {number}", self.line)
        )


@dataclass(frozen=True)
class Reason:
    """Statements that carry an answer, of which none can be spared: without one of them the others don't carry it. Other
    statements may carry it too."""

    line: int
    place: int
    desk: str
    question: str
    verdict: str
    statements: Tuple[Statement, ...]

    @property
    def numbers(self) -> Tuple[int, ...]:
        """The numbers of the statements."""
        return tuple(statement.number for statement in self.statements)


class Report:
    """A report that `check` accepted. `replay` and `check` make it.

    `plain` has the bytes that were accepted. `status` is 0, or 9 where something is too wide. `accepted` counts the proved answers,
    `wide` the answers and repairs that conclude nothing.
    """

    def __init__(self, runner: _Runner, plain: bytes) -> None:
        self.plain = plain
        self.status, output = runner.ror(["check"], {"report.txt": plain})
        self.accepted, self.wide = _accepted(output)
        self._runner = runner
        self.lines: Listing[Line] = Listing(_lines_of(plain, runner.files["session.txt"]), _columns_of(Line)[:-1])
        self._by_number = {line.number: line for line in self.lines}

    # what came of the lines

    def line(self, number: int) -> Line:
        """What came of a line of the session."""
        if number not in self._by_number:
            raise NoAnswerError(f"line {number} of the session says nothing, or isn't there", line=number)
        return self._by_number[number]

    @property
    def desks(self) -> Tuple[str, ...]:
        """The names of the desks, in the order in which they first speak; empty for the desk without a name."""
        return tuple(dict.fromkeys(line.desk for line in self.lines))

    def answers(self, line: Optional[int] = None) -> Listing[Answer]:
        """The answers to a line, or to all lines, with their verdicts."""
        lines = list(self.lines) if line is None else [self._answered(line)]
        return Listing((answer for it in lines for answer in it.answers), _columns_of(Answer))

    def answer(self, line: int) -> Answer:
        """The answer to a line that asks one question."""
        answers = self._answered(line).answers
        if len(answers) != 1:
            raise NoAnswerError(f"line {line} has {len(answers)} answers", line=line)
        return answers[0]

    @property
    def refused(self) -> Listing[Line]:
        """The lines that were refused: they changed nothing and have no answer. `refusal` says why."""
        return Listing((line for line in self.lines if line.outcome == "refused"), ("number", "desk", "text", "refusal"))

    @property
    def repairs(self) -> Listing[Repair]:
        """The repairs, with the statements that they withdrew."""
        lines = [line for line in self.lines if line.outcome == "repaired"]
        before = self._stood({line.number for line in lines}, before=True)
        return Listing(
            (Repair(it.number, it.desk, tuple(before[it.number][number] for number in it.dropped)) for it in lines),
            _columns_of(Repair),
        )

    def standing(self, line: Optional[int] = None, desk: str = "") -> Listing[Statement]:
        """What stands after a line, at the line's desk; or, without a line, at the end at the desk with this name."""
        if line is None:
            if self.lines and desk not in self.desks:
                raise NoAnswerError(f"the session has no desk {desk!r}, but {', '.join(map(repr, self.desks))}")
            stood = self._stood(set(), last_of=desk)[0]
        else:
            stood = self._stood({self.line(line).number})[line]
        return Listing((stood[number] for number in sorted(stood)), _columns_of(Statement))

    # values

    def relation(self, line: Optional[int] = None) -> Relation:
        """The necessary and possible relation that a line with `ask relation` asked for. The line may be left out if there is one."""
        asked = self._one_line(line, "ask relation")
        rows = []
        for one, other in zip(asked.answers[0::2], asked.answers[1::2]):
            first, second = one.alternatives
            rows.append(Pair(first, second, one.verdict, other.verdict))
        return Relation(asked.number, asked.desk, rows)

    def classes(self, line: Optional[int] = None) -> Listing[ClassRange]:
        """What the lines with `ask classes` (or one of them) say, a row for each."""
        lines = [self._answered(line)] if line is not None else list(self.lines)
        rows = []
        for it in lines:
            if it.outcome == "answered" and it.text.split(" ")[:2] == ["ask", "classes"]:
                possible = tuple(answer.verdict for answer in it.answers[0::2])
                necessary = tuple(answer.verdict for answer in it.answers[1::2])
                rows.append(ClassRange(it.number, it.desk, it.text.split(" ")[2], possible, necessary))
        if line is not None and not rows:
            raise NoAnswerError(f"line {line} doesn't ask for classes", line=line)
        if not rows:
            raise NoAnswerError("`ask classes` isn't answered")
        return Listing(rows, _columns_of(ClassRange))

    def functions(self, line: int) -> Tuple[ValueFunction, ...]:
        """The value functions in the answers to a line, by the page of functions of `ror_show`.

        An answer has its own function `base` only if the previous answer hasn't the same. A function whose total passes 127 bits is
        left out.
        """
        self._answered(line)
        page = self._runner.show(["functions", "--line", str(line), "--as", "csv"], {"report.txt": self.plain})
        return _functions_of(page, line)

    def certificates(self, line: Optional[int] = None) -> bytes:
        """The certificates of reasons that `ror_show why` writes for a line, or for all, once `check-why` accepted them."""
        if line is not None:
            self._answered(line)
        words = ["why", "--as", "certificates"] + (["--line", str(line)] if line is not None else [])
        found = self._runner.show(words, {"report.txt": self.plain})
        self._runner.show(["check-why"], {"report.txt": self.plain, "certificates.txt": found})
        return found

    def reasons(self, line: Optional[int] = None) -> Listing[Reason]:
        """Why the answers to a line, or to all lines, are what they are: the statements that carry them.

        An answer that no statement carries, since one function decides it, has no reason here: see `functions`. Nor has one whose
        reason has too wide a number, or a repair.
        """
        found = []
        for words in (it.split(" ") for it in self.certificates(line).decode("utf-8").split("\n") if it.startswith("reduct ")):
            found.append((int(words[1]), int(words[2]), [int(word) for word in words[3:]]))
        stood = self._stood({number for number, _, _ in found})
        rows = []
        for number, place, numbers in found:
            answer = self.line(number).answers[place - 1]
            statements = tuple(stood[number][it] for it in numbers)
            rows.append(Reason(number, place, answer.desk, answer.question, answer.verdict, statements))
        return Listing(rows, ("line", "place", "desk", "question", "verdict", "numbers"))

    # how it is found

    def _answered(self, number: int) -> Line:
        line = self.line(number)
        if line.outcome == "refused":
            raise NoAnswerError(f"line {number} is refused: {line.refusal}", word=str(line.refusal), line=number)
        if line.outcome != "answered":
            raise NoAnswerError(f"line {number} asks nothing: {line.text}", line=number)
        return line

    def _one_line(self, number: Optional[int], text: str) -> Line:
        if number is not None:
            line = self._answered(number)
            if line.text != text:
                raise NoAnswerError(f"line {number} says something else than `{text}`: {line.text}", line=number)
            return line
        lines = [it for it in self.lines if it.outcome == "answered" and it.text == text]
        if len(lines) != 1:
            which = ", ".join(str(it.number) for it in lines)
            raise NoAnswerError(f"`{text}` is answered {len(lines)} times: name a line, {which}" if lines else f"`{text}` isn't answered")
        return lines[0]

    def _stood(self, wanted: set[int], before: bool = False, last_of: Optional[str] = None) -> Dict[int, Dict[int, Statement]]:
        """What stood after these lines (or before them) at their desks; under 0, what stands in the end at one desk."""
        brought = _brought(self._runner)
        desks: Dict[str, _History] = {}
        found: Dict[int, Dict[int, Statement]] = {}

        def history_of(name: str) -> _History:
            if name not in desks:
                opening = (Statement(number, text, None, name) for number, text in enumerate(brought, 1))
                desks[name] = _History({statement.number: statement for statement in opening})
            return desks[name]

        for line in self.lines:
            history = history_of(line.desk)
            if before and line.number in wanted:
                found[line.number] = dict(history.standing)
            history.take(line)
            if not before and line.number in wanted:
                found[line.number] = dict(history.standing)
        if last_of is not None:
            found[0] = dict(history_of(last_of).standing)
        return found

    def __repr__(self) -> str:
        return f"<ror.Report accepted {self.accepted} wide {self.wide} refused {len(self.refused)}>"


class _History:
    """What stands at a desk, and what each change took away and put there, so that an undo can reverse it."""

    def __init__(self, standing: Dict[int, Statement]) -> None:
        self.standing = standing
        self._changes: List[Tuple[List[Statement], Optional[int]]] = []

    def take(self, line: Line) -> None:
        if line.outcome in ("added", "replaced") and line.statement is not None:
            words = line.text.split(" ")[2 if line.outcome == "replaced" else 0 :]
            if words[0] == "class":
                words[2:] = [str(int(word)) for word in words[2:]]
            said = Statement(line.statement, " ".join(words), line.number, line.desk)
            self._change([line.statement] if line.outcome == "replaced" else [], said)
        elif line.outcome == "withdrawn" and line.statement is not None:
            self._change([line.statement], None)
        elif line.outcome == "repaired":
            self._change(line.dropped, None)
        elif line.outcome == "undone":
            gone, came = self._changes.pop()
            if came is not None:
                del self.standing[came]
            self.standing.update({statement.number: statement for statement in gone})

    def _change(self, gone: Iterable[int], came: Optional[Statement]) -> None:
        self._changes.append(([self.standing.pop(number) for number in gone], came.number if came else None))
        if came is not None:
            self.standing[came.number] = came


def _rows(text: bytes) -> Iterator[List[str]]:
    """The words of each line of a report, but for the bases and parts of its proofs."""
    for line in io.BytesIO(text):
        if not line.startswith((b"base ", b"part ")):
            yield line.rstrip(b"\n").decode("utf-8").split(" ")


def _desk_and_words(words: List[str]) -> Tuple[str, List[str]]:
    return (words[0][1:], words[1:]) if words and words[0].startswith("@") else ("", words)


def _lines_of(plain: bytes, session: bytes) -> Iterator[Line]:
    """What came of each line of a session, by an accepted report."""
    blocks: List[Tuple[int, List[List[str]]]] = []
    for words in _rows(plain):
        if words[0] == "line":
            blocks.append((int(words[1]), []))
        elif blocks and words[0] not in ("wide", "end"):
            blocks[-1][1].append(words)
    said = _cut_lines(session)
    for number, body in blocks:
        desk, words = _desk_and_words(said[number - 1])
        kind, *operands = body[0] if body else ["answer"]
        yield Line(
            number,
            desk,
            " ".join(words),
            "answered" if kind == "answer" else kind,
            statement=int(operands[0]) if kind in ("added", "withdrawn", "replaced", "repair-wide") else None,
            refusal=operands[0] if kind == "refused" else None,
            dropped=tuple(int(it[1]) for it in body if it[0] == "dropped"),
            answers=tuple(
                _answer_of(number, place, desk, " ".join(it[1:-1]), it[-1]) for place, it in enumerate(body, 1) if it[0] == "answer"
            ),
        )


def _answer_of(line: int, place: int, desk: str, question: str, verdict: str) -> Answer:
    kind, *rest = question.split(" ")
    criterion: Optional[str] = None
    number: Optional[int] = None
    if kind.endswith("-class"):
        number = int(rest.pop())
    elif len(rest) == 6:
        criterion = rest[5]
        rest = rest[:4]
    return Answer(line, place, desk, question, verdict, kind, tuple(rest), criterion, number)


# ---- a report in JSON is turned into plain text, which is checked before anything of it is shown


def _proof_text(proof: Mapping[str, Any]) -> str:
    if "solution" in proof:
        return " ".join(["solution", *proof["solution"]])
    return " ".join(["multipliers", *proof["multipliers"]["weak"], "|", *proof["multipliers"]["strict"]])


def _wide_text(wide: Mapping[str, Any]) -> str:
    words = ["wide", wide["system"], *wide["place"], "path", *(f"{column}:{row}" for column, row in wide["path"])]
    return " ".join(map(str, words))


def _body_of(block: Mapping[str, Any]) -> Iterator[str]:
    """The lines of a block's body."""
    if "undone" in block:
        yield "undone"
    if "repaired" in block:
        dropped = block["repaired"]["dropped"]
        yield f"repaired {len(dropped)}"
        yield from (f"dropped {it['number']} {_proof_text(it)}" for it in dropped)
        yield f"base {_proof_text(block['repaired']['base'])}"
    if "repair-wide" in block:
        yield f"repair-wide {block['repair-wide']['number']}"
        yield _wide_text(block["repair-wide"]["wide"])
    for kind in ("added", "withdrawn", "replaced", "refused"):
        if kind in block:
            yield f"{kind} {block[kind]}"
    for answer in block.get("answers", ()):
        yield f"answer {answer['question']} {answer['verdict']}"
        if "wide" in answer:
            yield _wide_text(answer["wide"])
        else:
            yield f"base {_proof_text(answer['base'])}"
            yield from (f"part {it['at']} {_proof_text(it)}" for it in answer["parts"])


def _plain_of(data: bytes) -> bytes:
    """The plain text of a report in JSON that `check-json` accepted."""
    blocks = json.loads(data.decode("utf-8"))["blocks"]
    lines = ["ror-report 1"]
    for block in blocks:
        lines += [f"line {block['line']}", *_body_of(block)]
    return "\n".join([*lines, f"end {len(blocks)}\n"]).encode("utf-8")


def replay(table: Table, session: Session, *, bits: Optional[int] = None, program: ProgramLike = None) -> Report:
    """Answers a session over a table, and checks the report. `bits` is 15, 31, 63 or 127, and 127 without it."""
    runner = _Runner(table, session, program)
    return _told(Report(runner, runner.ror(["replay", *_width(bits)])[1]))


def check(
    table: Table, session: Session, report: Union[bytes, bytearray, str, os.PathLike[str]], *, program: ProgramLike = None
) -> Report:
    """Checks a report of `replay` or `replay-json`, whoever wrote it, given as bytes or by the path of its file. One that isn't
    accepted is raised as a `ReportError`."""
    runner = _Runner(table, session, program)
    data = bytes(report) if isinstance(report, (bytes, bytearray)) else _read(report)
    if data.lstrip(b" \t\r\n").startswith(b"{"):
        runner.ror(["check-json"], {"report.json": data})
        data = _plain_of(data)
    return _told(Report(runner, data))


def _told(report: Report) -> Report:
    """The report, after a warning to the caller's caller if lines were refused."""
    if report.refused:
        told = ", ".join(f"{it.number} ({it.refusal})" for it in report.refused[:5]) + (", .." if len(report.refused) > 5 else "")
        warnings.warn(f"lines that are refused, change nothing and have no answer: {told}", RefusedWarning, stacklevel=3)
    return report


# ---- groups, functions to show, levels, generated sessions


@dataclass(frozen=True)
class GroupPair:
    """What the judges say together of an ordered pair, as words: `yes`, `no`, `contradiction` or `wide`.

    Is the first at least as good as the second by every function, for every judge (`necessary_for_all`) and for some judge; and by
    some function, for every judge and for some? `necessary` and `possible` have the verdicts of each judge.
    """

    first: str
    second: str
    necessary_for_all: str
    necessary_for_some: str
    possible_for_all: str
    possible_for_some: str
    necessary: Dict[str, str]
    possible: Dict[str, str]


class Group(Listing[GroupPair]):
    """What all judges say together, over what stands at their desks in the end: a `GroupPair` for each ordered pair."""

    def __init__(self, plain: bytes, desks: Sequence[str], pairs: Iterable[GroupPair], counts: Tuple[int, int]) -> None:
        super().__init__(pairs, _columns_of(GroupPair)[:6])
        self.plain = plain
        self.desks = tuple(desks)
        self.accepted, self.wide = counts

    def those(self, column: str) -> Tuple[Tuple[str, str], ...]:
        """The pairs with `yes` in a column, such as `necessary_for_all`; a contradiction or a wide word is raised."""
        if column not in self.columns[2:]:
            raise NoAnswerError(f"no column of a group: {column!r}")
        return tuple(
            (it.first, it.second) for it in self if _holds(getattr(it, column), f"{column} {it.first} {it.second}", None)
        )


def _checked(runner: _Runner, command: str, bits: Optional[int], more: Dict[str, bytes]) -> Tuple[bytes, Tuple[int, int]]:
    """A report of a command and its counts, once the command's check accepted it."""
    text = runner.ror([command, *_width(bits)], more)[1]
    return text, _accepted(runner.ror([f"check-{command}"], {**more, "report.txt": text})[1])


def _without_questions(runner: _Runner) -> Report:
    """A report of the session's other lines, for commands that pass questions over and don't say which lines they refuse."""
    data = runner.files["session.txt"]
    lines = data.split(b"\n")
    for place, words in enumerate(_cut_lines(data)):
        if _desk_and_words(words)[1][:1] == ["ask"]:
            lines[place] = b"#"
    runner = _Runner(runner.table, Session.from_bytes(b"\n".join(lines)), runner.program)
    return Report(runner, runner.ror(["replay"])[1])


def group(table: Table, session: Session, *, bits: Optional[int] = None, program: ProgramLike = None) -> Group:
    """What the judges of a session say together. A line with `repair` is raised as an `UnsuitedError`."""
    runner = _Runner(table, session, program)
    text, counts = _checked(runner, "group", bits, {})
    _told(_without_questions(runner))
    desks: List[str] = []
    pairs: List[GroupPair] = []
    names: Tuple[str, str] = ("", "")
    verdicts: List[str] = []
    for words in _rows(text):
        if words[0] == "desk":
            desks.append("".join(words[1:]))
        elif words[0] == "pair":
            names, verdicts = (words[1], words[2]), []
        elif words[0] == "answer":
            verdicts.append(words[-1])
        elif words[0] == "group":
            necessary, possible = dict(zip(desks, verdicts[0::2])), dict(zip(desks, verdicts[1::2]))
            pairs.append(GroupPair(*names, words[1], words[2], words[3], words[4], necessary, possible))
    return Group(text, desks, pairs, counts)


@dataclass(frozen=True)
class Discrimination:
    """What `discriminate` found at a desk. `outcome` is `margin`, `none` (nothing is said strictly), `contradiction` or `wide`.

    With `margin`, `margin` is the greatest possible least amount by which what is said strictly holds, as a share of the value of all
    best levels, and `function` a function that reaches it. It is one of several, and says nothing of pairs that nobody compared.
    """

    desk: str
    outcome: str
    margin: Optional[Fraction] = None
    function: Optional[ValueFunction] = None


def discriminate(
    table: Table, session: Session, *, bits: Optional[int] = None, program: ProgramLike = None
) -> Listing[Discrimination]:
    """A most discriminating function for each desk, over what stands there in the end."""
    runner = _Runner(table, session, program)
    text, _ = _checked(runner, "discriminate", bits, {})
    _told(_without_questions(runner))
    found: List[Discrimination] = []
    desk, margin, total = "", Fraction(0), 1
    for words in _rows(text):
        if words[0] == "desk":
            desk = "".join(words[1:])
        elif words[0] == "margin":
            margin, total = Fraction(int(words[1]), int(words[2])), int(words[2])
        elif words[0] == "solution":
            found.append(Discrimination(desk, "margin", margin, _function_at(runner, " ".join(words), total)))
        elif words[0] in ("none", "contradiction", "wide"):
            found.append(Discrimination(desk, words[0]))
    return Listing(found, _columns_of(Discrimination))


def _function_at(runner: _Runner, solution: str, total: int) -> ValueFunction:
    """The function of a solution, by the page of functions of `ror_show`.

    The page is of a session that withdraws what the table's file brings, and asks whether the statements are consistent: the answer
    has this solution.
    """
    count = len(_brought(runner))
    own = _Runner(runner.table, Session([*(f"withdraw {it}" for it in range(1, count + 1)), "ask consistent"]), runner.program)
    lines = [f"line {it}\nwithdrawn {it}\n" for it in range(1, count + 1)]
    text = f"ror-report 1\n{''.join(lines)}line {count + 1}\nanswer consistent yes\nbase {solution}\nend {count + 1}\n"
    page = own.show(["functions", "--line", str(count + 1), "--as", "csv"], {"report.txt": text.encode("utf-8")})
    found = _functions_of(page)
    if len(found) != 1 or found[0].total != total:
        raise ProgramError("the page of functions shows another function than the one that was found")
    return ValueFunction("most discriminating", total, found[0].marginals)


def _functions_of(page: bytes, line: Optional[int] = None) -> Tuple[ValueFunction, ...]:
    """The functions on a page of functions in CSV."""
    found: Dict[Tuple[str, str], ValueFunction] = {}
    for row in csv.DictReader(io.StringIO(page.decode("utf-8"), newline="")):
        key = row["answer"], row["function"]
        if key not in found:
            found[key] = ValueFunction(key[1], int(row["total"]), {}, line, int(key[0]))
        levels = found[key].marginals.setdefault(row["criterion"], {})
        levels[Fraction(row["level"])] = Fraction(int(row["marginal"]), found[key].total)
    return tuple(found.values())


@dataclass(frozen=True)
class Span:
    """From which level of confidence on the first alternative is at least as good as the second by every function (`necessary`), up
    to which level by some one (`possible`, 0 for none), and from which level on the statements are contradictory.

    A number past the last level says never. `wide` is the level at which an answer was too wide; then the three others are None.
    """

    first: str
    second: str
    necessary: Optional[int]
    possible: Optional[int]
    contradictory: Optional[int]
    wide: Optional[int] = None


def levels(
    table: Table,
    session: Session,
    count: int,
    put: Optional[Mapping[int, int]] = None,
    *,
    bits: Optional[int] = None,
    program: ProgramLike = None,
) -> Listing[Span]:
    """The span of each ordered pair over levels of confidence from 1, the surest, to `count`.

    `put` says on which level a statement is, by its number; one that isn't named is on level 1.
    """
    lines = ["ror-levels 1", f"count {_count(count, 'the count', LevelsError)}"]
    for number, level in (put or {}).items():
        lines.append(f"put {_count(number, 'a statement', LevelsError)} {_count(level, 'a level', LevelsError)}")
    runner = _Runner(table, session, program)
    text, _ = _checked(runner, "levels", bits, {"levels.txt": ("\n".join(lines) + "\n").encode("utf-8")})
    _told(_without_questions(runner))
    spans: List[Span] = []
    for words in _rows(text):
        if words[0] == "pair" and words[3] == "wide":
            spans.append(Span(words[1], words[2], None, None, None, int(words[4])))
        elif words[0] == "pair":
            spans.append(Span(words[1], words[2], int(words[6]), int(words[8]), int(words[4])))
    return Listing(spans, _columns_of(Span))


@dataclass(frozen=True)
class Generated:
    """What `generate` counted: the lines and the answers of a session made of a number, and what a check of its report accepted."""

    number: int
    lines: int
    yes: int
    no: int
    contradiction: int
    wide: int
    accepted: int


def generate(number: int, *, program: ProgramLike = None) -> Generated:
    """Makes a table and a session of a number, answers it, and checks the answers."""
    found = Program.find(program)
    status, output, errors = _call(found.ror, ["generate", _count(number, "the number", UsageError)], {}, found.timeout)
    if status not in (0, 9):
        _raise(status, errors, "")
    counts = [int(word) for word in re.findall(rb"[0-9]+", output)]
    if len(counts) != 8:
        raise ProgramError(f"generate printed something else than its counts: {output[:80]!r}")
    return Generated(*counts[:7])
