"""Unicode collation (UTS #10): sort keys and comparison over a weight table and a data file.

    with uca.Collator.of_language("zh") as collator:
        words.sort(key=collator.key)

The command ``uca-files`` finds the files of a language. Or name your own: Collator("allkeys.txt", "data.txt").

With a book, keys are compact: Collator("allkeys.txt", "data.txt", book="general.book"). With numeric=True, numbers are
ordered by their values: "Band 2" comes before "Band 10". After a new edition of the table, an Upgrade says which stored
keys have to be made again, and mends the others. :func:`tailor`, :func:`audit`, :func:`find_changes` and :func:`run` do what
the command ``uca`` does, over files in memory.

The work is done by libuca.so.1, whose contracts are proved. Nothing is proved of this module. The library is the file that
the environment's UCA_LIBRARY names, or else the one beside this module, or else the one that the system finds.
"""
from __future__ import annotations

import copy
import ctypes
import operator
import os
import re
import subprocess
import sys
import sysconfig
import threading
import types
import warnings
from typing import Any, Callable, Dict, List, Mapping, NamedTuple, Optional, Sequence, Set, Tuple, Type, TypeVar, Union

__all__ = [
    "AuditError",
    "Changes",
    "Collator",
    "CommandError",
    "Comparison",
    "ClosedError",
    "DigitsError",
    "FileError",
    "FingerprintError",
    "KeyRange",
    "LanguageError",
    "LanguageWarning",
    "NoBookError",
    "Run",
    "StoredKeyError",
    "Tailoring",
    "TextError",
    "UcaError",
    "Upgrade",
    "Verdict",
    "audit",
    "audit_changes",
    "compare_keys",
    "find_changes",
    "library_version",
    "run",
    "tailor",
]

#: the version of this module
__version__ = "0.1.0"

_ABI = 1

_OK, _CLOSED, _ARGUMENT, _TABLE, _DATA, _MEMORY, _SMALL, _BOOK, _NO_BOOK, _NO_KEY = 0, 1, 3, 4, 5, 6, 10, 11, 12, 13
_TOO_LONG, _FILE, _NO_IMAGE, _DIGITS = 8, 14, 16, 17
#: the status of uca_run where memory ran out before the command began
_RUN_MEMORY = 257
_ROLES = {_TABLE: "table", _DATA: "data", _BOOK: "book"}
_TEXT_ERRORS = {7: "Utf8", 8: "TooLong", 9: "LongRun"}
_STORED_KEY_ERRORS = {"uca_compact": "OtherKey", "uca_expand": "NoCompactKey", "uca_rekey": "NoImage"}
_KINDS = ["", "Line", "Order", "CodePoint", "Weight", "DuplicateKey", "Range", "Limit", "Read", "Memory"]
_KINDS += ["Map Empty", "Map NotRising", "Map OutOfRange", "Map Fixed"]
#: the files of an upgrade, and the conditions of its audit, by their numbers from 1 on
_UPGRADE_ROLES = ["", "old table", "old data", "new table", "new data", "changes", "certificate"]
_CONDITIONS = ["", "OldIllFormed", "NewIllFormed", "RangeChanged", "Uncovered", "RowChanged", "RowMissing", "RowExtra", "PointChanged", "SettingChanged"]
_PLACES = ["", "old row", "new row", "code point"]
_WEIGHTINGS = {None: 0, "non-ignorable": 1, "shifted": 2}
#: the parts of a depth
_IDENTICAL, _NUMERIC = 1, 2
_MEMORY_KIND = 9
#: the range of keys whose level 1 begins with some letters; that of as many first levels has their number
_BEGINS = 3
_LOW, _HIGH = 0, 1

_UNCHECKED = "unchecked"

#: CPython without its lock (a free-threaded build) and other interpreters run threads side by side, also in calls of PyDLL.
_HAS_INTERPRETER_LOCK = sys.implementation.name == "cpython" and not sysconfig.get_config_var("Py_GIL_DISABLED")

Bytes = Union[bytes, bytearray, memoryview]
File = Union[Bytes, str, "os.PathLike[Any]"]
Text = Union[str, Bytes]
_Self = TypeVar("_Self", bound="Collator")
_Upgraded = TypeVar("_Upgraded", bound="Upgrade")


class UcaError(Exception):
    """Something was rejected."""


class FileError(UcaError, ValueError):
    """A file is rejected."""

    def __init__(self, role: str, line: int, kind: str) -> None:
        #: "table", "data" or "book"; of an upgrade "old table", "old data", "new table", "new data", "changes" or "certificate"
        self.role = role
        #: the line, counted from 1
        self.line = line
        #: why, as docs/FORMATS.md names it: "Line", "Order", "CodePoint", "Weight", "DuplicateKey", "Range", "Limit", or "Map NotRising"
        self.kind = kind
        super().__init__(role, line, kind)

    def __str__(self) -> str:
        return f"{self.role}: line {self.line}: {self.kind}"


class DigitsError(UcaError, ValueError):
    """Numbers are to be ordered by value, and a table does not order them. Each of the digits 0 to 9 needs a row of one element
    that is not variable. Their primary weights rise, and no other key has a digit."""

    def __init__(self, role: str, row: int) -> None:
        #: "table"; of an upgrade "old table" or "new table"
        self.role = role
        #: the row to blame, counted from 1; 0 if a digit has no row
        self.row = row
        super().__init__(role, row)

    def __str__(self) -> str:
        return f"{self.role}: row {self.row}: Digits" if self.row else f"{self.role}: Digits"


class FingerprintError(UcaError, ValueError):
    """The files or the settings are not those that were asked for."""

    def __init__(self, wanted: str, found: str) -> None:
        #: the fingerprint that was asked for
        self.wanted = wanted
        #: that of the files and the settings
        self.found = found
        super().__init__(wanted, found)

    def __str__(self) -> str:
        return f"the files and settings have the fingerprint {self.found}, and {self.wanted} is wanted"


class AuditError(UcaError, ValueError):
    """The files of an upgrade are read, and the audit rejects them, as ``uca audit-changes`` does."""

    def __init__(self, condition: str, place: str, number: int) -> None:
        #: the first condition that is not met, as docs/FORMATS.md names it: "RowChanged"
        self.condition = condition
        #: what the number counts: "old row", "new row" or "code point"; "" if there is no position
        self.place = place
        #: the first position where it is not met: a row from 1 on, or a code point; 0 if there is none
        self.number = number
        super().__init__(condition, place, number)

    def __str__(self) -> str:
        number = f"{self.number:04X}" if self.place == "code point" else str(self.number)
        return f"{self.condition} {self.place} {number}" if self.place else self.condition


class TextError(UcaError, ValueError):
    """A text is rejected."""

    def __init__(self, kind: str, position: Optional[int] = None, side: str = "") -> None:
        #: why: "Utf8", "TooLong" or "LongRun"
        self.kind = kind
        #: where, from 0 on. "Utf8": the first byte that is not UTF-8; of a str, it is a byte of its UTF-8. "LongRun": the code
        #: point, in Normalization Form D of what is read of the text, at which the run begins. It is None for "TooLong", and where
        #: an Upgrade rejects a text. Upgrade.affected says how to find it then
        self.position = position
        #: "left" or "right" if two texts were compared, else ""
        self.side = side
        super().__init__(kind, position, side)

    def __str__(self) -> str:
        text = f"{self.side} text" if self.side else "text"
        return f"{text}: {self.kind}" if self.position is None else f"{text}: {self.kind} at {self.position}"


class ClosedError(UcaError, ValueError):
    """The collator or the upgrade is closed."""

    def __str__(self) -> str:
        return "the collator or the upgrade is closed"


class NoBookError(UcaError, ValueError):
    """The collator has no book, so it knows no compact keys."""

    def __str__(self) -> str:
        return "the collator has no book"


class StoredKeyError(UcaError, ValueError):
    """The bytes are no key."""

    def __init__(self, kind: str) -> None:
        #: "OtherKey": no whole key of the weighting and the depth; "NoCompactKey": no whole key has this compact key by the book;
        #: "NoImage": a weight of the key has no image under the upgrade, or it is no key of its weighting and depth
        self.kind = kind
        super().__init__(kind)

    def __str__(self) -> str:
        return f"key: {self.kind}"


class CommandError(UcaError, ValueError):
    """The command ``uca`` has an error, such as a file that is rejected."""

    def __init__(self, status: int, message: str) -> None:
        #: its status, from 1 on, as docs/MESSAGES.md has them
        self.status = status
        #: its error lines, as it prints them but for the line of help: "rules byte 5: EmptyText"
        self.message = message
        super().__init__(status, message)

    def __str__(self) -> str:
        return self.message


class LanguageError(UcaError, ValueError):
    """The command ``uca-files`` has no files of a language."""

    def __init__(self, tag: str, message: str) -> None:
        #: the tag that was asked for
        self.tag = tag
        #: the sentence of the command, or why it was not run
        self.message = message
        super().__init__(tag, message)

    def __str__(self) -> str:
        return self.message


class LanguageWarning(UserWarning):
    """What the command ``uca-files`` says of a language whose files it has: that its order is the root's."""


class Run(NamedTuple):
    """What a command did."""

    #: its status, from 0 on, as docs/MESSAGES.md has them
    status: int
    #: what it printed to standard output
    output: bytes
    #: its error lines
    errors: str
    #: the file that it made, or None
    made: Optional[bytes]


class Tailoring(NamedTuple):
    """A tailored table."""

    #: the file of the table
    table: bytes
    #: the certificate, which :func:`audit` takes
    certificate: bytes


class Changes(NamedTuple):
    """What a new table and data file change."""

    #: the file of changes
    changes: bytes
    #: the certificate
    certificate: bytes


class Verdict(NamedTuple):
    """What an audit says. It is true exactly if the audit accepts."""

    #: whether it accepts
    accepted: bool
    #: "accepted", or "refused" and the first condition that is not met: "refused 9 NotPlaced relation 1"
    text: str

    def __bool__(self) -> bool:
        return self.accepted


class Comparison(NamedTuple):
    """How two texts or two keys compare."""

    #: -1 if the left one comes first, 1 if the right one does, 0 if they are equal
    order: int
    #: the first level at which they differ, from 1 on, or 0
    level: int


class KeyRange(NamedTuple):
    """A range of keys: those from ``low`` up to, and without, ``high``, as bytes compare."""

    #: no key of the range is less
    low: bytes
    #: each key of the range is less
    high: bytes


class _Handle(ctypes.Structure):
    _fields_ = [("inside", ctypes.c_void_p), ("is_kept", ctypes.c_bool)]


class _Collator(ctypes.Structure):
    """A collator of the library, and by what it was opened. It is closed when nothing uses it any more."""

    _fields_ = [("handle", _Handle), ("is_open", ctypes.c_bool)]

    #: the paths of the table and the data file, and of the book if there is one; None for bytes
    paths: Tuple[Optional[str], ...] = (None, None)
    #: the weighting, whether it is identical, and whether it is numeric
    settings: Tuple[Optional[str], bool, bool] = (None, False, False)
    #: the fingerprint, or "" if it was never open
    fingerprint = ""
    #: the error of a use while it is not open: that it is closed, or why a copy could not be opened
    error: Exception = ClosedError()
    #: uca_close, which takes no lock, since nothing else uses the collator. The interpreter clears a module's names when it ends,
    #: so it is kept here.
    close_unused: Callable[[_Collator], None]

    def __del__(self) -> None:
        self.close_unused(self)

    def new_error(self) -> Exception:
        """The error of one use. A raised error keeps where that was, so each use gets another one."""
        return copy.copy(self.error)


class _Upgrade(ctypes.Structure):
    """An upgrade of the library. It is closed when nothing uses it any more."""

    _fields_ = [("handle", _Handle), ("is_open", ctypes.c_bool)]

    #: the fingerprints of the old keys and of the new ones, or "" if it was never open
    fingerprints: Tuple[str, str] = ("", "")
    #: uca_close_upgrade, which takes no lock, as that of a collator
    close_unused: Callable[[_Upgrade], None]

    def __del__(self) -> None:
        self.close_unused(self)

    def new_error(self) -> Exception:
        """The error of one use while it is not open."""
        return ClosedError()


class _Error(ctypes.Structure):
    _fields_ = [("line", ctypes.c_uint32), ("kind", ctypes.c_uint32)]


class _UpgradeError(ctypes.Structure):
    _fields_ = [(it, ctypes.c_uint32) for it in ("file", "line", "kind", "condition", "place", "number")]


class _Lengths(ctypes.Structure):
    _fields_ = [(it, ctypes.c_size_t) for it in ("out", "err", "kept", "files")]


class _Comparison(ctypes.Structure):
    _fields_ = [("order", ctypes.c_int32), ("level", ctypes.c_uint32)]


def _loaded(path: str) -> ctypes.PyDLL:
    try:
        # PyDLL keeps the interpreter's lock during a call, so that a collator is in one call at a time.
        return ctypes.PyDLL(path)
    except OSError as error:
        raise ImportError(
            f"the library of uca cannot be loaded ({error}): set the environment variable UCA_LIBRARY to its path, or install it and run ldconfig"
        ) from None


def _declare(library: ctypes.PyDLL, path: str) -> None:
    """Gives the calls of the library their types."""
    data, size, number, out = ctypes.c_char_p, ctypes.c_size_t, ctypes.c_uint32, ctypes.c_void_p
    collator, comparison, error = ctypes.POINTER(_Collator), ctypes.POINTER(_Comparison), ctypes.POINTER(_Error)
    files, settings, written = [data, size, data, size], [number, number], [out, size, ctypes.POINTER(size)]
    upgrade, upgrade_error = ctypes.POINTER(_Upgrade), ctypes.POINTER(_UpgradeError)
    calls = {
        "uca_abi": ([], number),
        "uca_version": ([], number),
        "uca_collator_size": ([], size),
        "uca_open": ([collator, *files, *settings, error], number),
        "uca_open_compact": ([collator, *files, data, size, *settings, error], number),
        "uca_fingerprint": ([*files, *settings, out, error], number),
        "uca_compact_fingerprint": ([data, data, size, out], None),
        "uca_share": ([collator, collator], number),
        "uca_key": ([collator, data, size, *written], number),
        "uca_key_beginning": ([collator, data, size, *written], number),
        "uca_key_bound": ([collator, size, ctypes.POINTER(size)], number),
        "uca_compact": ([collator, data, size, *written], number),
        "uca_expand": ([collator, data, size, *written], number),
        "uca_range": ([collator, data, size, number, number, *written], number),
        "uca_check_text": ([collator, data, size, ctypes.POINTER(size)], number),
        "uca_compare": ([collator, data, size, data, size, comparison], number),
        "uca_order": ([collator, data, size, data, size, ctypes.POINTER(ctypes.c_int32)], number),
        "uca_compare_keys": ([data, size, data, size, ctypes.c_uint8, comparison], None),
        "uca_close": ([collator], None),
        "uca_upgrade_size": ([], size),
        "uca_open_upgrade": ([upgrade, *files, *files, *files, *settings, upgrade_error], number),
        "uca_affected": ([upgrade, data, size, ctypes.POINTER(number)], number),
        "uca_rekey": ([upgrade, data, size, *written], number),
        "uca_upgrade_fingerprints": ([upgrade, out, out], number),
        "uca_close_upgrade": ([upgrade], None),
        "uca_run": ([*[data, size] * 9, *[out, size] * 3, ctypes.POINTER(_Lengths)], number),
    }
    for name, (arguments, result) in calls.items():
        try:
            call = getattr(library, name)
        except AttributeError:
            raise ImportError(
                f"{path} has no {name}, so it is older than this module, or no library of uca: install one of this version, or name it in UCA_LIBRARY"
            ) from None
        call.argtypes, call.restype = arguments, result


#: the calls that take a collator or an upgrade
_CALLS_IN_TURN = ["uca_open", "uca_open_compact", "uca_share", "uca_key", "uca_key_beginning", "uca_key_bound", "uca_compact", "uca_expand"]
_CALLS_IN_TURN += ["uca_range", "uca_check_text", "uca_compare", "uca_order", "uca_close"]
_CALLS_IN_TURN += ["uca_open_upgrade", "uca_affected", "uca_rekey", "uca_upgrade_fingerprints", "uca_close_upgrade"]


def _in_turn(call: Callable[..., Any], lock: Any) -> Callable[..., Any]:
    """The call, which waits until the lock is free."""

    def call_in_turn(*arguments: Any) -> Any:
        with lock:
            return call(*arguments)

    return call_in_turn


def _take_turns(library: ctypes.PyDLL) -> None:
    """Lets one thread at a time into the calls that take a collator or an upgrade, as the interpreter's lock does where there is one.

    A handler of a signal may make a key while its thread holds the lock, so a thread may take it again. A process that is forked
    holds it, so that no other thread is in a call then.
    """
    lock = threading.RLock()
    os.register_at_fork(before=lock.acquire, after_in_parent=lock.release, after_in_child=lock.release)
    for name in _CALLS_IN_TURN:
        setattr(library, name, _in_turn(getattr(library, name), lock))


def _need_numbers(library: ctypes.PyDLL, path: str) -> None:
    """An earlier library has all calls, and says that there is no such depth."""
    status = library.uca_fingerprint(b"", 0, b"", 0, 0, _NUMERIC, (ctypes.c_char * 32)(), _Error())
    if status == _ARGUMENT:
        raise ImportError(
            f"{path} has no numbers by value, so it is older than this module: "
            "install one of this version, or name it in UCA_LIBRARY"
        )


def _load() -> ctypes.PyDLL:
    """The library, with the types of its calls."""
    beside = os.path.join(os.path.dirname(os.path.abspath(__file__)), "libuca.so.1")
    path = os.environ.get("UCA_LIBRARY") or (beside if os.path.exists(beside) else "libuca.so.1")
    library = _loaded(path)
    _declare(library, path)
    # A command may take long, and shares nothing with other calls. So the interpreter's lock is free while it runs.
    types_of_run, library.uca_run = library.uca_run, ctypes.CDLL(path).uca_run
    library.uca_run.argtypes, library.uca_run.restype = types_of_run.argtypes, types_of_run.restype
    sizes = [library.uca_collator_size(), library.uca_upgrade_size()]
    if library.uca_abi() != _ABI or sizes != [ctypes.sizeof(_Collator), ctypes.sizeof(_Upgrade)]:
        raise ImportError(f"{path} has another interface than this module")
    _need_numbers(library, path)
    _Collator.close_unused = library.uca_close
    _Upgrade.close_unused = library.uca_close_upgrade
    if not _HAS_INTERPRETER_LOCK:
        _take_turns(library)
    return library


_library = _load()

#: the version of the library, as (major, minor, patch)
library_version = (_library.uca_version() // 1000000, _library.uca_version() // 1000 % 1000, _library.uca_version() % 1000)


#: what a collator or an upgrade is before it is opened
_CLOSED_COLLATOR, _CLOSED_UPGRADE = _Collator(), _Upgrade()

#: the types of rooms for keys, each of twice as many bytes as the one before
_ROOMS = [ctypes.c_char * (1 << it) for it in range(21)]


def _room_for(length: int) -> ctypes.Array[ctypes.c_char]:
    """Room for the key of a text of so many bytes. Most keys fit, and none has to."""
    return _ROOMS[min((8 * length + 63).bit_length(), 20)]()


def _bytes_of(buffer: Bytes) -> bytes:
    """The bytes of a buffer. One whose items are not single bytes, in one dimension, is a TypeError, and so is all else."""
    if type(buffer) is bytes:
        return buffer
    with memoryview(buffer) as view:
        if view.ndim != 1 or view.itemsize != 1 or view.format[-1] not in "Bbc":
            raise TypeError(f"a buffer of bytes is required, and not one of the format {view.format!r} in {view.ndim} dimensions")
        return view.tobytes()


def _read(file: File) -> Tuple[bytes, Optional[str]]:
    """The content of a file, and its path unless it was given as bytes."""
    if not isinstance(file, (str, os.PathLike)):
        return _bytes_of(file), None
    path = os.fsdecode(file)
    with open(path, "rb") as it:
        return it.read(), path if os.path.isabs(path) else os.path.join(os.getcwd(), path)


def _encoded(text: Text) -> bytes:
    """The text as UTF-8. A lone surrogate of a str becomes bytes that are not UTF-8."""
    return str.encode(text, "utf-8", "surrogatepass") if isinstance(text, str) else _bytes_of(text)


def _check_files(status: int, error: _Error) -> None:
    """Raises the error of a status of a call with files."""
    if status == _MEMORY or error.kind == _MEMORY_KIND:
        raise MemoryError
    if status == _DIGITS:
        raise DigitsError("table", error.line)
    if status != _OK:
        raise FileError(_ROLES[status], error.line, _KINDS[error.kind])


def _checked_settings(weighting: Optional[str], identical: bool, numeric: bool, fingerprint: str) -> Tuple[int, int]:
    """The numbers of the weighting and of the depth."""
    if not isinstance(weighting, (str, type(None))) or weighting not in _WEIGHTINGS:
        raise ValueError('weighting is None, "non-ignorable" or "shifted"')
    if not isinstance(identical, bool):
        raise TypeError("identical is True or False")
    if not isinstance(numeric, bool):
        raise TypeError("numeric is True or False")
    if not isinstance(fingerprint, str):
        raise TypeError("fingerprint is a str")
    if fingerprint != _UNCHECKED and not re.fullmatch("[0-9a-f]{64}", fingerprint):
        raise ValueError("fingerprint has 64 lower-case hexadecimal digits")
    return _WEIGHTINGS[weighting], _IDENTICAL * identical + _NUMERIC * numeric


def _opened(files: List[bytes], settings: Tuple[int, int]) -> _Collator:
    """A collator of the table, the data file, and perhaps the book. It has its fingerprint."""
    table, data, *books = files
    first = (table, len(table), data, len(data))
    digest, error, collator = (ctypes.c_char * 32)(), _Error(), _Collator()
    _check_files(_library.uca_fingerprint(*first, *settings, digest, error), error)
    if books:
        book, whole, digest = books[0], digest, (ctypes.c_char * 32)()
        _library.uca_compact_fingerprint(whole.raw, book, len(book), digest)
        _check_files(_library.uca_open_compact(collator, *first, book, len(book), *settings, error), error)
    else:
        _check_files(_library.uca_open(collator, *first, *settings, error), error)
    collator.fingerprint = digest.raw.hex()
    return collator


def _slots(kind: type) -> Set[str]:
    """The names of the slots of a class. Attributes in these are not in ``vars`` of an object."""
    return {name for it in kind.__mro__ for name, member in vars(it).items() if isinstance(member, types.MemberDescriptorType)}


def _opened_upgrade(files: List[bytes], settings: Tuple[int, int]) -> _Upgrade:
    """An upgrade by its six files. It has its fingerprints."""
    error, upgrade = _UpgradeError(), _Upgrade()
    status = _library.uca_open_upgrade(upgrade, *(it for file in files for it in (file, len(file))), *settings, error)
    if status == _MEMORY or error.kind == _MEMORY_KIND:
        raise MemoryError
    if status == _FILE:
        raise FileError(_UPGRADE_ROLES[error.file], error.line, _KINDS[error.kind])
    if status == _DIGITS:
        raise DigitsError(_UPGRADE_ROLES[error.file], error.line)
    if status != _OK:
        raise AuditError(_CONDITIONS[error.condition], _PLACES[error.place], error.number)
    old, new = (ctypes.c_char * 32)(), (ctypes.c_char * 32)()
    _library.uca_upgrade_fingerprints(upgrade, old, new)
    upgrade.fingerprints = (old.raw.hex(), new.raw.hex())
    return upgrade


def _checked_text(opened: _Collator, text: bytes) -> Tuple[int, Optional[int]]:
    """Whether a text is accepted, as a status, and the position of its error."""
    position = ctypes.c_size_t()
    status = _library.uca_check_text(opened, text, len(text), position)
    return status, position.value if status in _TEXT_ERRORS and status != _TOO_LONG else None


def _text_error(status: int, opened: Union[_Collator, _Upgrade], texts: Sequence[bytes]) -> TextError:
    """The error of a status of a call with one text or two."""
    if isinstance(opened, _Collator):
        for side, text in zip(("left", "right") if len(texts) == 2 else ("",), texts):
            found, position = _checked_text(opened, text)
            if found == status:
                return TextError(_TEXT_ERRORS[status], position, side)
    return TextError(_TEXT_ERRORS[status])


def _raise(status: int, opened: Union[_Collator, _Upgrade], name: str, *texts: bytes) -> None:
    """Raises the error of a status of the call of this name with texts or keys."""
    if status == _CLOSED:
        raise opened.new_error()
    if status == _MEMORY:
        raise MemoryError
    if status == _NO_BOOK:
        raise NoBookError
    if status in (_NO_KEY, _NO_IMAGE):
        raise StoredKeyError(_STORED_KEY_ERRORS[name])
    raise _text_error(status, opened, texts)


def _made(opened: Union[_Collator, _Upgrade], name: str, given: bytes, *numbers: int) -> bytes:
    """What the call of this name writes for these bytes and numbers."""
    # The room is of this call alone: between any two steps another thread, or a handler of a signal, may make a key.
    call, out, needed = getattr(_library, name), _room_for(len(given)), ctypes.c_size_t()
    status = call(opened, given, len(given), *numbers, out, len(out), needed)
    if status == _SMALL:
        out = ctypes.create_string_buffer(needed.value)
        status = call(opened, given, len(given), *numbers, out, len(out), needed)
    if status != _OK:
        _raise(status, opened, name, given)
    return out[: needed.value]


def _checked_length(length: int) -> int:
    count = operator.index(length)
    if not 0 <= count <= sys.maxsize:
        raise ValueError("length is a number from 0 to sys.maxsize")
    return count


def _checked_levels(levels: int) -> int:
    count = operator.index(levels)
    if count not in (1, 2):
        raise ValueError("levels is 1 or 2")
    return count


def compare_keys(left: Bytes, right: Bytes, levels: int) -> Comparison:
    """How two whole keys of so many levels compare: 3, one more under "shifted", and one more at the identical level.

    Compact keys are compared as bytes instead.
    """
    first, second, count, found = _bytes_of(left), _bytes_of(right), operator.index(levels), _Comparison()
    if not 0 <= count <= 255:
        raise ValueError("levels is a number from 0 to 255")
    _library.uca_compare_keys(first, len(first), second, len(second), count, found)
    return Comparison(found.order, found.level)


def _argument(text: str) -> bytes:
    """A text for a command. A lone surrogate is an error, at the byte where it would begin."""
    try:
        return str.encode(text)
    except UnicodeEncodeError as error:
        raise TextError("Utf8", len(str.encode(text[: error.start]))) from None


def _list_of(texts: Sequence[str], what: str) -> bytes:
    """Texts with a NUL between two of them."""
    for it in texts:
        if not isinstance(it, str):
            raise TypeError(f"{what} are texts")
        if "\0" in it:
            raise ValueError(f"{what} have no NUL")
    return b"\0".join(map(_argument, texts))


def _ran(words: bytes, names: bytes, files: Sequence[bytes], lines: bytes, rooms: Tuple[int, int, int]) -> Tuple[int, _Lengths, List[Any]]:
    """The status of a command, the lengths, and what it wrote where there is so much room."""
    made, lengths = [(ctypes.c_char * room)() for room in rooms], _Lengths()
    given = [words, names, *files, *[b""] * (6 - len(files)), lines]
    arguments = [part for it in given for part in (it, len(it))]
    status = _library.uca_run(*arguments, *(part for it in made for part in (it, len(it))), lengths)
    return status, lengths, made


def run(arguments: Sequence[str], files: Mapping[str, File], lines: Bytes = b"") -> Run:
    """Runs the command ``uca`` with these arguments, which is ``["sort", "table", "data"]`` without the program's name.

    It reads files by their names: ``files`` has at most six, which are bytes, or paths. ``lines`` is its standard input. It does
    what the program does, and touches no other file. One that it makes is :attr:`Run.made`, and may have any name but that of a
    file that it reads. Other threads run meanwhile. It takes up to 640 KB of the stack. Where the output has more bytes than a
    first guess, the command runs once more.

    Raises :class:`TextError` where an argument or a name of a file has a lone surrogate; MemoryError where memory runs out
    before the command begins. Afterwards that is a status.
    """
    if isinstance(arguments, str):
        raise TypeError("arguments are a list of texts, and not one text")
    named = list(files.items())
    if len(named) > 6:
        raise ValueError("a command reads at most six files")
    words, names, given = _list_of(["uca", *arguments], "arguments"), _list_of([name for name, _ in named], "names of files"), _bytes_of(lines)
    read = [_read(it)[0] for _, it in named]
    size = sum(map(len, read)) + len(given)
    rooms = (2 * size + 65536, 65536, size + 65536)
    while True:
        status, lengths, made = _ran(words, names, read, given, rooms)
        wanted = (lengths.out, lengths.err, lengths.kept)
        if all(it <= room for it, room in zip(wanted, rooms)):
            break
        rooms = tuple(map(max, wanted, rooms))
    if status == _RUN_MEMORY:
        raise MemoryError
    out, err, kept = (it[:length] for it, length in zip(made, wanted))
    return Run(status, out, err.decode(), kept if lengths.files else None)


def _done(ended: Run, most: int) -> Run:
    """What a command did. A status above `most` is an error, and so is one with error lines."""
    if ended.status > most or ended.errors:
        raise CommandError(ended.status, ended.errors.partition("\nhelp: ")[0].rstrip("\n"))
    return ended


def tailor(table: File, data: File, rules: File) -> Tailoring:
    """A table that is tailored by rules (UTS #35 Part 5), and its certificate. It does what ``uca tailor`` does.

    The files are bytes, or paths. Raises :class:`CommandError` and MemoryError.
    """
    ended = _done(run(["tailor", "table", "data", "rules", "certificate"], {"table": table, "data": data, "rules": rules}), 0)
    return Tailoring(ended.output, ended.made or b"")


def audit(base: File, data: File, rules: File, tailored: File, certificate: File) -> Verdict:
    """Whether the audit of a tailored table accepts it. It does what ``uca audit`` does.

    The files are bytes, or paths. Raises :class:`CommandError` for a file that is rejected, and MemoryError.
    """
    files = {"base": base, "data": data, "rules": rules, "tailored": tailored, "certificate": certificate}
    ended = _done(run(["audit", *files], files), 1)
    return Verdict(ended.status == 0, ended.output.decode().rstrip("\n"))


def find_changes(old_table: File, old_data: File, new_table: File, new_data: File) -> Changes:
    """What a new table and its data file change. It does what ``uca changes`` does, and an :class:`Upgrade` takes both files.

    The new table may be that of a new edition, or the old one tailored. The files are bytes, or paths. Raises
    :class:`CommandError` where a file is rejected, or no change between the two is accepted; MemoryError.
    """
    files = {"old": old_table, "old-data": old_data, "new": new_table, "new-data": new_data}
    ended = _done(run(["changes", *files, "certificate"], files), 0)
    return Changes(ended.output, ended.made or b"")


def audit_changes(old_table: File, old_data: File, new_table: File, new_data: File, changes: File, certificate: File) -> Verdict:
    """Whether the audit of changes accepts them. It does what ``uca audit-changes`` does.

    The files are bytes, or paths. Raises :class:`CommandError` for a file that is rejected, and MemoryError.
    """
    files = {"old": old_table, "old-data": old_data, "new": new_table, "new-data": new_data, "changes": changes, "certificate": certificate}
    ended = _done(run(["audit-changes", *files], files), 1)
    return Verdict(ended.status == 0, ended.output.decode().rstrip("\n"))


def _language_paths(tag: str, edition: Optional[str], book: bool) -> List[str]:
    """The paths that ``uca-files`` prints for a language: the table, the data file, and the book if it is wanted."""
    if not isinstance(tag, str) or not isinstance(edition, (str, type(None))):
        raise TypeError("the tag and the edition of a language are texts")
    if not isinstance(book, bool):
        raise TypeError("book is True or False")
    if not re.fullmatch("[A-Za-z0-9][A-Za-z0-9_-]*", tag):
        raise LanguageError(tag, f"{tag!r} is no tag of a language: a tag has letters, digits and hyphens")
    program = os.environ.get("UCA_FILES") or "uca-files"
    words = [program, *(["--book"] if book else []), *([f"--edition={edition}"] if edition is not None else []), tag]
    try:
        ran = subprocess.run(words, stdin=subprocess.DEVNULL, stdout=subprocess.PIPE, stderr=subprocess.PIPE, check=False)
    except (OSError, ValueError) as error:
        raise LanguageError(tag, f"the command {program} is not run ({error}): install it, or name it in UCA_FILES") from error
    said = ran.stderr.decode(errors="replace").strip()
    if ran.returncode:
        raise LanguageError(tag, said or f"the command {program} ended with the status {ran.returncode}")
    paths = os.fsdecode(ran.stdout).splitlines()
    if len(paths) != 2 + book or not all(map(os.path.isabs, paths)):
        raise LanguageError(tag, f"the command {program} did not print the {2 + book} paths of a language")
    if said:
        warnings.warn(said, LanguageWarning, stacklevel=3)
    return paths


class Collator:
    """A table and a data file, by which texts get their sort keys and are compared. With a book, keys are compact.

    It has memory of its own until it is closed: by :meth:`close`, at the end of a ``with``, or when it is collected.

    Threads may share it, and so may handlers of signals and the child of a fork. One that was opened by paths can be pickled and
    copied. The copy is opened by the same paths and settings. If that is an error, as for other files a
    :class:`FingerprintError`, the copy is not open, and each use of it raises this error.
    """

    _collator = _CLOSED_COLLATOR

    def __init__(
        self,
        table: File,
        data: File,
        weighting: Optional[str] = None,
        identical: bool = False,
        *,
        numeric: bool = False,
        book: Optional[File] = None,
        fingerprint: str = _UNCHECKED,
    ) -> None:
        """Reads a table (allkeys.txt), a data file and perhaps a book, which are bytes, or paths of files.

        ``weighting`` is "non-ignorable" or "shifted", or None for that of the table. With ``identical``, texts that are not
        canonically equivalent differ, by one more level. With ``numeric``, numbers are ordered by their values, so "9"
        comes before "10". A number is a run of the digits U+0030 to U+0039. "7" and "007" differ with ``identical``
        alone. By a ``book``, keys are compact; None is no book. ``fingerprint`` is that of stored keys, or "unchecked"
        if there are none.

        Raises :class:`FileError` if the table, or else the data file, or else the book, is rejected; :class:`DigitsError` if
        the table does not order numbers that are to be; :class:`FingerprintError` if the fingerprint is another one; MemoryError.
        """
        self._open(table, data, weighting, identical, fingerprint, book, numeric)

    @classmethod
    def of_language(
        cls: Type[_Self],
        tag: str,
        *,
        weighting: Optional[str] = None,
        identical: bool = False,
        numeric: bool = False,
        book: bool = False,
        edition: Optional[str] = None,
        fingerprint: str = _UNCHECKED,
    ) -> _Self:
        """A collator of a language, such as "pl", "zh" or "de-u-co-phonebk": of the files whose paths ``uca-files`` prints.

        The command is the program that the environment's UCA_FILES names, or else ``uca-files``. The call waits until it ends.
        It keeps what it has made, so the order stays the same. ``edition`` asks for one of several editions that are kept. With
        ``book``, keys are compact by the book of the language. The other arguments are those of the constructor. Without
        ``weighting`` it is that of the language. A copy of the collator is opened by the paths, and runs no command.

        Raises :class:`LanguageError` if there are no files of the language, with the sentence of the command, and what the
        constructor raises. A sentence of a command that has files is a :class:`LanguageWarning`.
        """
        table, data, *books = _language_paths(tag, edition, book)
        settings = {"numeric": numeric, "book": books[0] if books else None, "fingerprint": fingerprint}
        return cls(table, data, weighting, identical, **settings)

    def _open(
        self,
        table: File,
        data: File,
        weighting: Optional[str],
        identical: bool,
        fingerprint: str,
        book: Optional[File] = None,
        numeric: bool = False,
    ) -> None:
        settings = _checked_settings(weighting, identical, numeric, fingerprint)
        files = [_read(it) for it in ((table, data) if book is None else (table, data, book))]
        collator = _opened([content for content, _ in files], settings)
        if fingerprint not in (collator.fingerprint, _UNCHECKED):
            raise FingerprintError(fingerprint, collator.fingerprint)
        collator.paths, collator.settings = tuple(path for _, path in files), (weighting, identical, numeric)
        if vars(self).setdefault("_collator", collator) is not collator:
            raise RuntimeError("a Collator is opened once")

    @property
    def fingerprint(self) -> str:
        """What keys are made by, as 64 hexadecimal digits: all files and settings. Keep it beside stored keys."""
        if not self._collator.fingerprint:
            raise self._collator.new_error()
        return self._collator.fingerprint

    def __getstate__(self) -> Dict[str, Any]:
        """What a copy is opened by, and the attributes of a subclass."""
        if not self.is_open:
            raise self._collator.new_error()
        table, data, *books = self._collator.paths
        if None in (table, data, *books):
            raise TypeError("a Collator of bytes cannot be pickled or copied: open it by paths")
        weighting, identical, numeric = self._collator.settings
        book = books[0] if books else None
        in_slots = {name: getattr(self, name) for name in _slots(type(self)) if hasattr(self, name)}
        opened_by = (table, data, weighting, identical, self.fingerprint, book, numeric)
        return {**in_slots, **vars(self), "_collator": opened_by}

    def __setstate__(self, state: Dict[str, Any]) -> None:
        try:
            self._open(*state["_collator"])
        except (UcaError, OSError, MemoryError) as error:
            # A worker of a pool that cannot read a task ends, and the pool with it. So each use of the copy raises the error.
            failed = _Collator()
            failed.error = copy.copy(error)
            if vars(self).setdefault("_collator", failed) is not failed:
                raise
        slots = _slots(type(self))
        for name, it in state.items():
            if name in slots:
                object.__setattr__(self, name, it)
            elif name != "_collator":
                vars(self)[name] = it

    def key(self, text: Text, levels: Optional[int] = None) -> bytes:
        """The sort key of a text, which is compact if there is a book. Keys of one collator compare as bytes as their texts do.

        With ``levels``, 1 or 2, it is the key through so many levels. Two of these are equal exactly if the texts have the same
        letters (1), or the same letters and accents (2). They compare with each other, and not with other keys.

        Raises :class:`TextError`, :class:`ClosedError` and MemoryError.
        """
        if levels is None:
            return _made(self._collator, "uca_key", _encoded(text))
        return _made(self._collator, "uca_range", _encoded(text), _checked_levels(levels), _LOW)

    def key_beginning(self, text: Text, length: int) -> bytes:
        """The first ``length`` bytes of ``key(text)``, or the whole key if it is shorter.

        An index that sorts by the first bytes, and looks at the rest where these are equal, needs no more. ``length`` is from 0 to
        sys.maxsize.

        Raises :class:`TextError`, :class:`ClosedError` and MemoryError; ValueError for another length.
        """
        wanted, encoded, needed = _checked_length(length), _encoded(text), ctypes.c_size_t()
        out = ctypes.create_string_buffer(min(wanted, 8 * len(encoded) + 64))
        status = _library.uca_key_beginning(self._collator, encoded, len(encoded), out, len(out), needed)
        if len(out) < min(wanted, needed.value):
            out = ctypes.create_string_buffer(min(wanted, needed.value))
            status = _library.uca_key_beginning(self._collator, encoded, len(encoded), out, len(out), needed)
        if status != _OK:
            _raise(status, self._collator, "uca_key_beginning", encoded)
        return out[: min(wanted, needed.value)]

    def key_bound(self, length: int) -> int:
        """How many bytes the key of a text of at most ``length`` bytes has at most.

        ``length`` counts the bytes of the text in UTF-8, and is from 0 to sys.maxsize. Most keys are far shorter. Without a book the
        bound is 518 times ``length``, and 8 more. With a book it is twice that, and one more. It is at most 2 * sys.maxsize + 1,
        the greatest size_t of C.

        Raises :class:`ClosedError`, and ValueError for another length.
        """
        bound = ctypes.c_size_t()
        status = _library.uca_key_bound(self._collator, _checked_length(length), bound)
        if status != _OK:
            _raise(status, self._collator, "uca_key_bound")
        return bound.value

    def range(self, text: Text, levels: int = 1) -> KeyRange:
        """The range that has exactly the keys with the same letters as this text (1), or the same letters and accents (2).

        Raises :class:`TextError`, :class:`ClosedError` and MemoryError.
        """
        return self._ends(_encoded(text), _checked_levels(levels))

    def prefix_range(self, text: Text) -> KeyRange:
        """The range of the keys whose level 1 begins with the letters of this text.

        With ``numeric``, a number is found as a whole: the range of "Band 1" has "Band 1a", and not "Band 10". Of whole
        keys, it has none in which the weight FFFF comes after these letters. No table has such a letter as a rule.

        Raises :class:`TextError`, :class:`ClosedError` and MemoryError.
        """
        return self._ends(_encoded(text), _BEGINS)

    def _ends(self, encoded: bytes, of: int) -> KeyRange:
        return KeyRange(_made(self._collator, "uca_range", encoded, of, _LOW), _made(self._collator, "uca_range", encoded, of, _HIGH))

    def compact(self, key: Bytes) -> bytes:
        """The compact key of a whole key, by the book.

        Raises :class:`StoredKeyError` if the bytes are no whole key of the weighting and the depth; :class:`NoBookError`;
        :class:`ClosedError`; MemoryError.
        """
        return _made(self._collator, "uca_compact", _bytes_of(key))

    def expand(self, key: Bytes) -> bytes:
        """The whole key of a compact key, by the book.

        Raises :class:`StoredKeyError` if no whole key has this compact key; :class:`NoBookError`; :class:`ClosedError`; MemoryError.
        """
        return _made(self._collator, "uca_expand", _bytes_of(key))

    def compare(self, left: Text, right: Text) -> Comparison:
        """How two texts compare, without keys.

        Raises :class:`TextError` for the left text, or else for the right one; :class:`ClosedError`; MemoryError.
        """
        first, second, found = _encoded(left), _encoded(right), _Comparison()
        status = _library.uca_compare(self._collator, first, len(first), second, len(second), found)
        if status != _OK:
            _raise(status, self._collator, "uca_compare", first, second)
        return Comparison(found.order, found.level)

    def check(self, text: Text) -> Optional[TextError]:
        """Why a text is rejected, and where; or None if it is accepted. This finds the texts of a list that have no key.

        The error is returned. It is the one that :meth:`key` raises for this text.

        Raises :class:`ClosedError` and MemoryError.
        """
        status, position = _checked_text(self._collator, _encoded(text))
        if status == _OK:
            return None
        if status not in _TEXT_ERRORS:
            _raise(status, self._collator, "uca_check_text")
        return TextError(_TEXT_ERRORS[status], position)

    def order(self, left: Text, right: Text) -> int:
        """The order of any two texts or bytes: -1 if the left one comes first, 1 if the right one does, or else 0.

        Texts that are accepted are in their order, as :meth:`compare` says. All others come after them, in the order of their
        bytes. So no text is rejected, and ``sorted(texts, key=functools.cmp_to_key(collator.order))`` places each of them.

        Raises :class:`ClosedError` and MemoryError.
        """
        first, second, found = _encoded(left), _encoded(right), ctypes.c_int32()
        status = _library.uca_order(self._collator, first, len(first), second, len(second), found)
        if status != _OK:
            _raise(status, self._collator, "uca_order")
        return found.value

    def share(self) -> Collator:
        """One more collator with the same keys, ranges, comparisons and fingerprint. No file is read for it.

        Both share the table and the data file, whose memory is given back with the last of them. Either may be closed first. What a
        collator finds out about code points is its own. The new one is a :class:`Collator`, also where this one is of a subclass,
        and can be pickled if this one can.

        Threads need no collator of their own. They take turns also with one each, since one call at a time uses any collator.

        Raises :class:`ClosedError` and MemoryError.
        """
        own, other, shared = self._collator, _Collator(), Collator.__new__(Collator)
        status = _library.uca_share(own, other)
        if status != _OK:
            _raise(status, own, "uca_share")
        other.paths, other.settings, other.fingerprint = own.paths, own.settings, own.fingerprint
        shared._collator = other
        return shared

    def close(self) -> None:
        """Gives back all memory. A collator that is closed stays so."""
        _library.uca_close(self._collator)

    @property
    def is_open(self) -> bool:
        """Whether it can be used."""
        return self._collator.is_open

    def __enter__(self: _Self) -> _Self:
        return self

    def __exit__(self, kind: Optional[Type[BaseException]], error: Optional[BaseException], trace: object) -> None:
        self.close()


class Upgrade:
    """The step from an old table and its data file to new ones, for stored keys.

    It is opened only if the audit accepts the step, as ``uca audit-changes`` does. It has memory of its own until it is closed: by
    :meth:`close`, at the end of a ``with``, or when it is collected. Threads may share it, as they may share a collator.
    """

    _upgrade = _CLOSED_UPGRADE

    def __init__(
        self,
        old_table: File,
        old_data: File,
        new_table: File,
        new_data: File,
        changes: File,
        certificate: File,
        weighting: Optional[str] = None,
        identical: bool = False,
        *,
        numeric: bool = False,
        fingerprint: str = _UNCHECKED,
    ) -> None:
        """Reads the six files, which are bytes, or paths of files. ``uca changes`` makes the last two of the others.

        The weighting, ``identical`` and ``numeric`` are those that the stored keys were made with. ``fingerprint`` is
        that of these keys, or "unchecked". It has to be :attr:`old_fingerprint`.

        Raises :class:`FileError` for the first file that is rejected; :class:`DigitsError` if a table does not order numbers
        that are to be; :class:`AuditError` if the audit rejects the step;
        :class:`FingerprintError` if the stored keys were made by other files or settings; MemoryError.
        """
        settings = _checked_settings(weighting, identical, numeric, fingerprint)
        files = [_read(it)[0] for it in (old_table, old_data, new_table, new_data, changes, certificate)]
        upgrade = _opened_upgrade(files, settings)
        if fingerprint not in (upgrade.fingerprints[0], _UNCHECKED):
            raise FingerprintError(fingerprint, upgrade.fingerprints[0])
        if vars(self).setdefault("_upgrade", upgrade) is not upgrade:
            raise RuntimeError("an Upgrade is opened once")

    @property
    def old_fingerprint(self) -> str:
        """The fingerprint of the keys that :meth:`rekey` takes: that of a collator of the old files, without a book."""
        return self._fingerprint(0)

    @property
    def new_fingerprint(self) -> str:
        """The fingerprint of the keys that :meth:`rekey` makes: that of a collator of the new files, without a book."""
        return self._fingerprint(1)

    def _fingerprint(self, at: int) -> str:
        if not self._upgrade.fingerprints[at]:
            raise self._upgrade.new_error()
        return self._upgrade.fingerprints[at]

    def __reduce__(self) -> str:
        raise TypeError("an Upgrade cannot be pickled or copied: open it again")

    def affected(self, text: Text) -> bool:
        """Whether the key of a text has to be made again, by a collator of the new files.

        With ``numeric``, what is read of the text is judged. "10" is read as "210", so a change of the digit 2 affects
        it.

        Raises :class:`TextError`, whose position is None; :class:`ClosedError`; MemoryError. The text is judged by the new files.
        So :meth:`Collator.check` of a collator of these, with the same ``numeric``, tells the position.
        """
        encoded, found = _encoded(text), ctypes.c_uint32()
        status = _library.uca_affected(self._upgrade, encoded, len(encoded), found)
        if status != _OK:
            _raise(status, self._upgrade, "uca_affected", encoded)
        return bool(found.value)

    def rekey(self, key: Bytes) -> bytes:
        """The new key of the old key of a text that is not :meth:`affected`.

        Give it whole keys of :attr:`old_fingerprint` alone. That of an affected text becomes other bytes here, or has no image.
        Between collators with books, it is ``new.compact(upgrade.rekey(old.expand(key)))``.

        Raises :class:`StoredKeyError`, :class:`ClosedError` and MemoryError.
        """
        return _made(self._upgrade, "uca_rekey", _bytes_of(key))

    def close(self) -> None:
        """Gives back all memory. An upgrade that is closed stays so."""
        _library.uca_close_upgrade(self._upgrade)

    @property
    def is_open(self) -> bool:
        """Whether it can be used."""
        return self._upgrade.is_open

    def __enter__(self: _Upgraded) -> _Upgraded:
        return self

    def __exit__(self, kind: Optional[Type[BaseException]], error: Optional[BaseException], trace: object) -> None:
        self.close()
