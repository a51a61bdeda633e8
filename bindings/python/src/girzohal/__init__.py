"""Draws diagnostics together with the source code.

>>> from girzohal import Report, Sources, draw
>>> sources = Sources()
>>> cart = sources.add("cart.js", "let total = 1;\\nprint(totl);\\n")
>>> report = Report.error("`totl` isn't defined.", file=cart, help="Did you mean `total`?")
>>> report = report.code("eslint", "no-undef").primary(21, 25, "not found")
>>> print(draw(sources, [report]), end="")
<BLANKLINE>
  × eslint(no-undef): `totl` isn't defined.
   ╭─[cart.js:2:7]
 1 │ let total = 1;
 2 │ print(totl);
   ·       ──┬─
   ·         ╰── not found
   ╰────
  help: Did you mean `total`?

Labels count bytes of UTF-8, unless ``Sources(Unit.CHARACTERS)`` or ``Sources(Unit.UTF16)`` says otherwise.

The package has the library that draws. The variable ``GIRZOHAL_LIBRARY`` names another one.
"""

from __future__ import annotations

import bisect
import ctypes
import dataclasses
import enum
import os
from typing import Any, Callable, List, Optional, Sequence, Tuple, Union

__all__ = [
    "DrawError", "EndBeforeStart", "Label", "Look", "NoDocument", "NoPlace", "OutOfMemory", "Report", "Severity",
    "Sources", "Theme", "Unit", "UnknownFile", "WrongFile", "WrongLook", "WrongReport", "draw", "draw_document", "json",
    "json_document", "version",
]  # fmt: skip

__version__ = "0.1.0"

# ---- the C interface, as bindings/c/girzohal.h declares it

_ABI = 1
_NONE = ctypes.c_size_t(-1).value
_MOST = 2**32 - 1


class _Text(ctypes.Structure):
    _fields_ = [("start", ctypes.c_size_t), ("end", ctypes.c_size_t)]


class _File(ctypes.Structure):
    _fields_ = [("name", _Text), ("source", _Text)]


class _Label(ctypes.Structure):
    _fields_ = [("start", ctypes.c_uint32), ("end", ctypes.c_uint32), ("text", _Text), ("primary", ctypes.c_uint32)]


class _Report(ctypes.Structure):
    _fields_ = [
        ("file", ctypes.c_uint32), ("severity", ctypes.c_uint32), ("message", _Text), ("scope", _Text),
        ("number", _Text), ("help", _Text), ("note", _Text), ("url", _Text), ("first_label", ctypes.c_size_t),
        ("labels", ctypes.c_size_t),
    ]  # fmt: skip


class _Look(ctypes.Structure):
    _fields_ = [
        ("theme", ctypes.c_uint32), ("tabs", ctypes.c_uint32), ("form", ctypes.c_uint32), ("width", ctypes.c_size_t),
    ]  # fmt: skip


class _Answer(ctypes.Structure):
    _fields_ = [
        ("needed", ctypes.c_size_t), ("array", ctypes.c_size_t), ("index", ctypes.c_size_t),
        ("report", ctypes.c_size_t), ("label", ctypes.c_size_t), ("cause", ctypes.c_uint32),
        ("first", ctypes.c_uint64), ("second", ctypes.c_uint64),
    ]  # fmt: skip


_HINT = (
    "Install the wheel for this machine (Linux with glibc on x86-64-v2 or on 64-bit ARM), "
    "or let the variable GIRZOHAL_LIBRARY name a libgirzohal.so of version 0.1."
)


def _load() -> ctypes.CDLL:
    beside = os.path.join(os.path.dirname(os.path.abspath(__file__)), "libgirzohal.so")
    path = os.environ.get("GIRZOHAL_LIBRARY") or (beside if os.path.exists(beside) else "libgirzohal.so.0.1")
    try:
        library = ctypes.CDLL(path)
        size, number, pointer = ctypes.c_size_t, ctypes.c_uint32, ctypes.c_void_p
        library.girzohal_draw.restype = number
        library.girzohal_draw.argtypes = [
            number, pointer, size, ctypes.POINTER(_File), size, ctypes.POINTER(_Report), size, ctypes.POINTER(_Label),
            size, ctypes.POINTER(_Look), pointer, size, ctypes.POINTER(_Answer),
        ]  # fmt: skip
        library.girzohal_document.restype = number
        library.girzohal_document.argtypes = [
            number, ctypes.c_char_p, size, ctypes.POINTER(_Look), pointer, size, ctypes.POINTER(_Answer),
        ]  # fmt: skip
        library.girzohal_version.restype = number
        library.girzohal_version.argtypes = []
    except (OSError, AttributeError) as why:
        raise ImportError(f"girzohal: the library {path} can't be loaded: {why}. {_HINT}") from why
    answer, out = _Answer(), ctypes.create_string_buffer(1)
    status = library.girzohal_document(_ABI, b"", 0, _Look(1, 4, 0, 80), out, 0, answer)
    if (status, answer.array) == (2, 5):
        raise ImportError(f"girzohal: the library {path} is of another version. {_HINT}")
    return library


_library = _load()

# ---- what is drawn


class Severity(enum.IntEnum):
    """How severe a report is."""

    ADVICE = 0
    WARNING = 1
    ERROR = 2


class Theme(enum.IntEnum):
    """The characters and colors of a drawing: colors and lines, lines without colors, or ASCII only."""

    UNICODE = 0
    UNICODE_NOCOLOR = 1
    NONE = 2


class Unit(enum.Enum):
    """The unit in which labels count: bytes of UTF-8, characters as ``str`` counts, or units of UTF-16."""

    BYTES = "bytes"
    CHARACTERS = "characters"
    UTF16 = "utf16"


@dataclasses.dataclass(frozen=True)
class Look:
    """How a drawing looks: tab stops are 1 to 16 columns apart, long texts are filled to ``width`` columns."""

    theme: Theme = Theme.UNICODE_NOCOLOR
    tabs: int = 4
    width: int = 80


@dataclasses.dataclass(frozen=True)
class Label:
    """A part of a file's source, from ``start`` up to ``end`` in the unit of the sources, and a text on it.

    The position of the primary label is in the head of the drawing.
    """

    start: int
    end: int
    text: Optional[str] = None
    primary: bool = False


@dataclasses.dataclass(frozen=True)
class Report:
    """A report on one file: the first that was added, unless ``file`` has the index of another.

    A report doesn't change: each method returns a new one.
    """

    severity: Severity
    message: str
    file: int = 0
    #: The first part of its code, like ``eslint``; never empty.
    scope: Optional[str] = None
    #: The second part of its code, like ``no-undef``; never empty.
    number: Optional[str] = None
    #: How to fix it.
    help: Optional[str] = None
    #: More to know.
    note: Optional[str] = None
    #: Where to read more.
    url: Optional[str] = None
    labels: Tuple[Label, ...] = ()

    def __post_init__(self) -> None:
        object.__setattr__(self, "labels", tuple(self.labels))

    @classmethod
    def error(
        cls, message: str, *, file: int = 0, help: Optional[str] = None, note: Optional[str] = None, url: Optional[str] = None
    ) -> Report:
        """An error."""
        return cls(Severity.ERROR, message, file, help=help, note=note, url=url)

    @classmethod
    def warning(
        cls, message: str, *, file: int = 0, help: Optional[str] = None, note: Optional[str] = None, url: Optional[str] = None
    ) -> Report:
        """A warning."""
        return cls(Severity.WARNING, message, file, help=help, note=note, url=url)

    @classmethod
    def advice(
        cls, message: str, *, file: int = 0, help: Optional[str] = None, note: Optional[str] = None, url: Optional[str] = None
    ) -> Report:
        """Advice."""
        return cls(Severity.ADVICE, message, file, help=help, note=note, url=url)

    def code(self, scope: str, number: str) -> Report:
        """The report with both parts of a code, like ``eslint`` and ``no-undef``. Neither may be empty."""
        return dataclasses.replace(self, scope=scope, number=number)

    def label(self, start: int, end: int, text: Optional[str] = None) -> Report:
        """The report with one more label."""
        return self.with_label(Label(start, end, text))

    def primary(self, start: int, end: int, text: Optional[str] = None) -> Report:
        """The report with one more label, the primary one."""
        return self.with_label(Label(start, end, text, True))

    def with_label(self, label: Label) -> Report:
        """The report with one more label."""
        return dataclasses.replace(self, labels=(*self.labels, label))


# the distance of the marks in bytes; the bytes that begin no character, and those that begin one past U+FFFF
_BLOCK = 1024
_LATER = bytes(range(0x80, 0xC0))
_LONG = bytes(range(0xF0, 0x100))


class Sources:
    """The files that reports are on, and the unit in which labels count.

    They are laid out once and drawn from often: a draw adds only the texts of the reports. Threads may draw from the same
    sources at once.

    >>> sources = Sources(Unit.CHARACTERS)
    >>> sources.add("é.txt", "éé = 1\\n")
    0
    >>> "é.txt:1:1" in draw(sources, [Report.error("oops").label(0, 2, "two characters, four bytes")])
    True
    """

    def __init__(self, unit: Unit = Unit.BYTES) -> None:
        self._unit = Unit(unit)
        self._texts = bytearray()
        self._ends: List[Tuple[int, int, int, int]] = []
        self._files: ctypes.Array[_File] = (_File * 0)()
        self._marks: List[int] = []
        self._rooms: List[bytearray] = []

    @property
    def unit(self) -> Unit:
        """The unit in which labels count."""
        return self._unit

    def add(self, name: str, source: str) -> int:
        """Adds a file, and returns its index, by which reports name it: 0 for the first."""
        name_bytes, source_bytes = name.encode(), source.encode()
        start = len(self._texts)
        middle = start + len(name_bytes)
        end = middle + len(source_bytes)
        self._texts += name_bytes
        self._texts += source_bytes
        self._ends.append((start, middle, middle, end))
        self._rooms = []
        self._set_marks()
        return len(self._ends) - 1

    def __len__(self) -> int:
        return len(self._ends)

    def _structs(self) -> ctypes.Array[_File]:
        if len(self._files) != len(self._ends):
            files = [_File(_Text(*ends[:2]), _Text(*ends[2:])) for ends in self._ends]
            self._files = (_File * len(files))(*files)
        return self._files

    def _take_room(self) -> bytearray:
        """The texts of the files, to which one draw adds those of its reports."""
        try:
            return self._rooms.pop()
        except IndexError:
            return bytearray(self._texts)

    def _keep_room(self, room: bytearray, size: int) -> None:
        """Keeps a room for the next draw, if no file was added meanwhile."""
        try:
            del room[size:]
        except BufferError:  # an exception still has it
            return
        if size == len(self._texts):
            self._rooms.append(room)

    def _units(self, texts: bytes) -> int:
        """How many units the characters have that start in a part of the texts."""
        count = len(texts.translate(None, _LATER))
        return count + len(texts) - len(texts.translate(None, _LONG)) if self._unit is Unit.UTF16 else count

    def _set_marks(self) -> None:
        """At each ``_BLOCK`` bytes of the texts: how many units come before."""
        if self._unit is Unit.BYTES:
            return
        self._marks = self._marks or [0]
        for at in range((len(self._marks) - 1) * _BLOCK, len(self._texts) - _BLOCK + 1, _BLOCK):
            self._marks.append(self._marks[-1] + self._units(self._texts[at : at + _BLOCK]))

    def _byte_of(self, file: int, offset: int) -> int:
        """The byte of a file's source at an offset in units.

        The greatest number of 32 bits, which is past the end of every source, if there is none: the library then says
        that it is no place.
        """
        if offset < 0:
            return _MOST
        if self._unit is Unit.BYTES or not 0 <= file < len(self._ends):
            return min(offset, _MOST)
        start, end = self._ends[file][2:]
        block = start // _BLOCK
        wanted = self._marks[block] + self._units(self._texts[block * _BLOCK : start]) + offset
        block = bisect.bisect_right(self._marks, wanted) - 1
        at, rest = block * _BLOCK, wanted - self._marks[block]
        while at < end and self._texts[at] & 0xC0 == 0x80:
            at += 1
        # four more bytes, so that the block's last character is whole
        text = self._texts[at : at + _BLOCK + 4].decode(errors="ignore")
        try:
            before = text[:rest] if self._unit is Unit.CHARACTERS else text.encode("utf-16-le")[: 2 * rest].decode("utf-16-le")
        except UnicodeDecodeError:
            return _MOST
        before_bytes = before.encode()
        byte = at + len(before_bytes)
        return byte - start if self._units(before_bytes) == rest and byte <= end else _MOST


# ---- why nothing is drawn


class DrawError(Exception):
    """Why nothing was drawn. Files, reports and labels are named by their indices, from 0."""


class WrongFile(DrawError):
    """A file's source has 4,294,967,295 bytes or more."""

    def __init__(self, file: int) -> None:
        super().__init__(f"file {file}: its source is too long")
        self.file = file


class WrongReport(DrawError):
    """A report is on a file that isn't there, or the scope or the number of its code is empty."""

    def __init__(self, report: int) -> None:
        super().__init__(f"report {report}: there is no such file, or a part of its code is empty")
        self.report = report


class WrongLook(DrawError):
    """The look's tab stops aren't 1 to 16 columns apart, or it has an unknown theme: ``field`` says which."""

    def __init__(self, field: str) -> None:
        super().__init__("tab stops aren't 1 to 16 columns apart" if field == "tabs" else f"the look's {field} is wrong")
        self.field = field


class NoDocument(DrawError):
    """The bytes are no document."""

    def __init__(self) -> None:
        super().__init__("not a document")


class UnknownFile(DrawError):
    """A report of a document is on a file that isn't there."""

    def __init__(self, report: int) -> None:
        super().__init__(f"report {report}: there is no such file")
        self.report = report


class NoPlace(DrawError):
    """A label's start, or its end, is outside its file's source, inside a character, or at a row or column that isn't there."""

    def __init__(self, report: int, label: int, at_end: bool) -> None:
        super().__init__(f"report {report}: label {label}: its {'end' if at_end else 'start'} is no place in the source")
        self.report, self.label, self.at_end = report, label, at_end


class EndBeforeStart(DrawError):
    """A label ends before it starts. ``start`` and ``end`` are in the unit of the sources, of a document in bytes."""

    def __init__(self, report: int, label: int, start: int, end: int) -> None:
        super().__init__(f"report {report}: label {label}: its end {end} is before its start {start}")
        self.report, self.label, self.start, self.end = report, label, start, end


class OutOfMemory(DrawError, MemoryError):
    """There was no memory."""

    def __init__(self) -> None:
        super().__init__("out of memory")


def _error(status: int, answer: _Answer) -> DrawError:
    if status == 2:
        wrong: Any = {1: WrongFile, 2: WrongReport}.get(answer.array)
        return wrong(answer.index) if wrong else WrongLook(("theme", "tabs", "form")[answer.index])
    if status == 3:
        return NoDocument()
    if status == 1 and answer.cause == 1:
        return UnknownFile(answer.report)
    if status == 1 and answer.cause == 4:
        return EndBeforeStart(answer.report, answer.label, answer.first, answer.second)
    if status == 1:
        return NoPlace(answer.report, answer.label, answer.cause == 3)
    return OutOfMemory()


# ---- the calls


def draw(sources: Sources, reports: Sequence[Report], look: Look = Look()) -> str:
    """The drawings of reports, one after another.

    Raises a ``DrawError`` that names the first file, report or label that is wrong; then nothing is drawn.
    """
    return _write(sources, reports, _numbers(look, 0))


def json(sources: Sources, reports: Sequence[Report]) -> str:
    """A line of JSON for each report; spans in it are in bytes. Raises what ``draw`` raises."""
    return _write(sources, reports, _numbers(Look(), 1))


def draw_document(document: Union[str, bytes], look: Look = Look()) -> str:
    """The drawings of the reports of a document, one after another: JSON with files and reports on them.

    Its keys are in docs/DOCUMENT.md of the repository; its labels may have rows and columns.
    Raises ``NoDocument`` if the text is no such JSON, and a ``DrawError`` that names the first report that is refused.

    >>> source = "let total = 1;\\nprint(totl);\\n"
    >>> label = {"start": [2, 7], "end": [2, 11], "text": "not found", "primary": True}
    >>> report = {"file": 0, "message": "`totl` isn't defined.", "labels": [label]}
    >>> import json
    >>> document = json.dumps({"files": [{"name": "cart.js", "source": source}], "reports": [report]})
    >>> print(draw_document(document), end="")
    <BLANKLINE>
      × `totl` isn't defined.
       ╭─[cart.js:2:7]
     1 │ let total = 1;
     2 │ print(totl);
       ·       ──┬─
       ·         ╰── not found
       ╰────
    """
    return _write_document(document, _numbers(look, 0))


def json_document(document: Union[str, bytes]) -> str:
    """A line of JSON for each report of a document. Raises what ``draw_document`` raises."""
    return _write_document(document, _numbers(Look(), 1))


def version() -> Tuple[int, int, int]:
    """The version of the library: major, minor and patch."""
    number = _library.girzohal_version()
    return number >> 16 & 255, number >> 8 & 255, number & 255


def _number(value: int) -> int:
    """A number that 32 bits can't hold is as wrong as the greatest that they can."""
    return value if 0 <= value <= _MOST else _MOST


def _numbers(look: Look, form: int) -> _Look:
    return _Look(_number(look.theme), _number(look.tabs), form, min(max(look.width, 0), _NONE))


def _put(texts: bytearray, text: Optional[str]) -> _Text:
    if text is None:
        return _Text(_NONE, _NONE)
    start = len(texts)
    texts += text.encode()
    return _Text(start, len(texts))


def _write(sources: Sources, reports: Sequence[Report], look: _Look) -> str:
    room = sources._take_room()
    size = len(room)
    try:
        made = _write_in(room, sources, reports, look)
    finally:
        sources._keep_room(room, size)
    if isinstance(made, EndBeforeStart):
        label = reports[made.report].labels[made.label]
        made = EndBeforeStart(made.report, made.label, label.start, label.end)
    return _text_or_raise(made)


def _write_in(texts: bytearray, sources: Sources, reports: Sequence[Report], look: _Look) -> Union[str, DrawError]:
    said: List[_Report] = []
    labels: List[_Label] = []
    for report in reports:
        first = len(labels)
        for label in report.labels:
            start, end = (sources._byte_of(report.file, at) for at in (label.start, label.end))
            labels.append(_Label(start, end, _put(texts, label.text), bool(label.primary)))
        parts = [_put(texts, it) for it in (report.message, report.scope, report.number, report.help, report.note, report.url)]
        said.append(_Report(_number(report.file), _number(report.severity), *parts, first, len(labels) - first))
    files = sources._structs()
    # (an empty bytearray has no address)
    bytes_ = (ctypes.c_char * len(texts)).from_buffer(texts) if texts else ctypes.create_string_buffer(1)
    arrays = (
        _ABI, bytes_, len(texts), files, len(files), (_Report * len(said))(*said), len(said),
        (_Label * len(labels))(*labels), len(labels), look,
    )  # fmt: skip
    return _fill(2 * len(texts) + 256 * len(said) + 4096, _library.girzohal_draw, arrays)


def _write_document(document: Union[str, bytes], look: _Look) -> str:
    said = document.encode() if isinstance(document, str) else document
    return _text_or_raise(_fill(2 * len(said) + 4096, _library.girzohal_document, (_ABI, said, len(said), look)))


def _text_or_raise(made: Union[str, DrawError]) -> str:
    if isinstance(made, DrawError):
        raise made
    return made


def _fill(room: int, call: Callable[..., int], arguments: Tuple[Any, ...]) -> Union[str, DrawError]:
    """The text that a call writes: into a buffer of this size, and again if that was too small."""
    answer = _Answer()
    out = ctypes.create_string_buffer(room)
    status = call(*arguments, out, room, answer)
    if status == 10:
        room = answer.needed
        out = ctypes.create_string_buffer(room)
        status = call(*arguments, out, room, answer)
    if status != 0:
        return _error(status, answer)
    return ctypes.string_at(out, answer.needed).decode()
