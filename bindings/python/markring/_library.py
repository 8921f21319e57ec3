"""Finds and loads the library, and declares its functions."""
from __future__ import annotations

import ctypes
import os
from ctypes import POINTER, c_char_p, c_int, c_int64, c_size_t, c_uint8, c_uint16, c_uint32, c_uint64, c_void_p
from pathlib import Path

NAME = "libmarkring.so"
# The number of the binary interface, in the names of the system's libraries.
INTERFACE = 1


class Handle(ctypes.Structure):
    """One pointer that the library owns, null if the handle is empty."""

    _fields_ = [("at", c_void_p)]


class RawRef(ctypes.Structure):
    _fields_ = [("node", c_uint8), ("slot", c_uint32), ("generation", c_uint64)]


class RawAnswer(ctypes.Structure):
    _fields_ = [
        ("kind", c_uint8),
        ("node", c_uint8),
        ("colour", c_uint8),
        ("done", c_uint8),
        ("label", c_uint32),
        ("count", c_uint32),
        ("number", c_uint64),
        ("sum", c_int64),
        ("reference", RawRef),
    ]


class RawShape(ctypes.Structure):
    _fields_ = [
        ("slots", c_uint32),
        ("bytes", c_uint32),
        ("registers", c_uint16),
        ("nodes", c_uint8),
        ("places", c_uint8),
        ("wide", c_uint8),
    ]


class RawState(ctypes.Structure):
    _fields_ = [
        ("nodes", c_uint8),
        ("own", c_uint8),
        ("colour", c_uint8),
        ("has_token", c_uint8),
        ("registers", c_uint16),
        ("places", c_uint8),
        ("wide", c_uint8),
        ("slots", c_uint32),
        ("live", c_uint32),
        ("cycle", c_uint64),
        ("ended", c_uint64),
        ("swept", c_uint64),
        ("earlier", c_int64),
        ("recent", c_int64),
        ("grey", c_uint64),
        ("letters", c_uint64),
        ("bytes", c_uint32),
    ]


class RawLink(ctypes.Structure):
    _fields_ = [
        ("appended", c_uint64),
        ("released", c_uint64),
        ("acknowledged", c_uint64),
        ("received", c_uint64),
        ("received_saved", c_uint64),
    ]


class RawObject(ctypes.Structure):
    _fields_ = [
        ("reference", RawRef),
        ("word", c_uint64),
        ("bytes", c_uint32),
        ("places", c_uint8),
        ("marked", c_uint8),
        ("shared", c_uint8),
        ("age", c_uint8),
    ]


class RawFreed(ctypes.Structure):
    _fields_ = [("reference", RawRef), ("word", c_uint64)]


class RawWork(ctypes.Structure):
    _fields_ = [
        ("received", c_uint64),
        ("scanned", c_uint64),
        ("freed", c_uint32),
        ("passed", c_uint8),
        ("swept", c_uint8),
        ("more", c_uint8),
    ]


U8, U16, U32, U64, SIZE = c_uint8, c_uint16, c_uint32, c_uint64, c_size_t
TO_SIZE, TO_NUMBER, TO_FLAG = POINTER(c_size_t), POINTER(c_uint64), POINTER(c_uint8)
ANSWER, AT = POINTER(RawAnswer), POINTER(Handle)

# The arguments after the handle, for nodes and cells alike.
EVENTS = {
    "alloc": (U16, U8),
    "copy": (U16, U16),
    "drop": (U16,),
    "load": (U16, U16, U8),
    "store": (U16, U8, U16),
    "clear": (U16, U8),
    "word": (U16,),
    "set_word": (U16, U64),
    "set_bytes": (U16, c_char_p, SIZE),
    "patch": (U16, U32, c_char_p, SIZE),
    "give": (U8, U32, U16),
    "post": (U8, U32, U16, U8, c_char_p, SIZE),
    "accept": (U16,),
    "letter": (),
    "accept_into": (U16, c_char_p, SIZE, TO_SIZE),
    "put": (U16, U8, U16),
    "get": (U16, U8, U32),
    "fetch": (U16, U32, U32, U32),
    "resolve": (U16, POINTER(RawRef)),
    "reclaim": (),
    "reclaim_young": (),
    "begin": (),
    "scan": (),
    "pass": (),
    "sweep": (U32,),
    "next": (U8,),
}
BOTH = {
    **{name: (*words, ANSWER) for name, words in EVENTS.items()},
    "work": (U32, U32, POINTER(RawWork)),
    "free": (),
    "image_size": (TO_SIZE,),
    "image": (c_char_p, SIZE, TO_SIZE, TO_NUMBER),
    "state": (POINTER(RawState),),
    "link": (U8, POINTER(RawLink)),
    "register": (U16, POINTER(RawRef)),
    "bytes": (U16, U32, U32, c_char_p, SIZE, TO_SIZE),
    "bytes_length": (U16, POINTER(U32)),
    "letter_bytes": (c_char_p, SIZE, TO_SIZE),
    "slots": (POINTER(U32),),
    "object": (U32, POINTER(RawObject)),
    "place": (U32, U8, POINTER(RawRef)),
    "bytes_at": (U32, U32, U32, c_char_p, SIZE, TO_SIZE),
    "unsaved": (TO_FLAG,),
    "track_freed": (U8,),
    "freed": (POINTER(RawFreed), SIZE, TO_SIZE),
}
FUNCTIONS = {
    "node": {
        **BOTH,
        "new": (U8, U16, U32, U8, U64),
        "make": (POINTER(RawShape), U8, U64),
        "take": (c_char_p, SIZE, ANSWER),
        "frame_at": (U8, U8, c_char_p, SIZE, TO_SIZE),
        "ack_for": (U8, c_char_p, SIZE, TO_SIZE),
        "frames": (U8, U64, c_char_p, SIZE, TO_SIZE, TO_SIZE),
        "kept": (U64,),
        "release": (),
        "from_image": (c_char_p, SIZE, U64),
        "log": (U8,),
        "batch_size": (TO_SIZE,),
        "batch": (c_char_p, SIZE, TO_SIZE, TO_NUMBER),
        "from_batches": (c_char_p, SIZE, c_char_p, SIZE, U64),
        "waiting": (U8, TO_NUMBER),
    },
    "space": {
        "new": (U8, U16, U32, U8),
        "make": (POINTER(RawShape), U8),
        "disk": (U8, c_char_p, SIZE),
        "open": (TO_FLAG, TO_FLAG),
        "cell": (U8, AT),
        "watch": (AT,),
        "collect": (SIZE, U64, TO_FLAG),
        "free": (),
    },
    "cell": {
        **BOTH,
        "receive": (U8, ANSWER),
        "send": (U8, TO_FLAG),
        "save": (U64,),
        "reopen": (),
        "raise": (TO_NUMBER,),
    },
    "watch": {"look": (TO_NUMBER,), "free": ()},
}
# The functions by their types of handles and their names, and the widths of their numbers in bits.
CALLS: dict[str, dict[str, object]] = {}
WIDTHS: dict[str, dict[str, tuple[int, ...]]] = {}


def path(name: str, variable: str) -> str:
    """The file of a library: the one that the variable names, or else one in the package, beside it, or in the folder above.
    (In the last one a prefix has it.) The system's has the number of its interface in its name."""
    named = os.environ.get(variable)
    if named:
        return named
    package = Path(__file__).resolve().parent
    for folder in (package, package.parent, package.parent.parent):
        if (folder / name).exists():
            return str(folder / name)
    return f"{name}.{INTERFACE}"


def open_library(loader: type[ctypes.CDLL], name: str, variable: str, package: str) -> ctypes.CDLL:
    """Loads a library, in which a name that it lacks is an ImportError too."""
    try:
        return loader(path(name, variable))
    except OSError as error:
        raise ImportError(f"{error}; install {package}, or set {variable} to the path of {name}") from error


def function(library: ctypes.CDLL, name: str):
    """A function of the library. An older library may lack it."""
    try:
        return getattr(library, name)
    except AttributeError as error:
        raise ImportError(f"{error}; the library is older than this package") from error


def load() -> None:
    """Loads the library and declares its functions."""
    # Calls keep the interpreter's lock, so two threads are never in the library at the same time. No call waits.
    library = open_library(ctypes.PyDLL, NAME, "MARKRING_LIBRARY", "libmarkring1")
    numbers = (U8, U16, U32, U64, SIZE)
    for kind, functions in FUNCTIONS.items():
        CALLS[kind], WIDTHS[kind] = {}, {}
        for name, words in functions.items():
            call = function(library, f"markring_{kind}_{name}")
            call.argtypes, call.restype = (AT, *words), c_int
            CALLS[kind][name] = call
            WIDTHS[kind][name] = tuple(8 * ctypes.sizeof(it) if it in numbers else 0 for it in words)


load()
