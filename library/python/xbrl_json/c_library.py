"""The C library, by ctypes: its types, its calls, and buffers of Python objects as its texts."""
from __future__ import annotations

import ctypes
import mmap
import os
from functools import lru_cache
from typing import Any, List, Union

Buffer = Union[bytes, bytearray, memoryview, mmap.mmap]

NAME = "libxbrl_json.so.0"


class Text(ctypes.Structure):
    """A text: `xbrl_json_text`. The library does not take a null pointer, even for no bytes."""

    _fields_ = [("at", ctypes.c_void_p), ("len", ctypes.c_size_t)]


class File(ctypes.Structure):
    """A file: `xbrl_json_file`."""

    _fields_ = [("path", Text), ("bytes", Text)]


class Answer(ctypes.Structure):
    """An answer: `xbrl_json_answer`."""

    _fields_ = [("status", ctypes.c_uint32), ("document", Text), ("lines", Text), ("faults", Text)]


class View(ctypes.Structure):
    """A view of a buffer: Python's own `Py_buffer`."""

    _fields_ = [("buf", ctypes.c_void_p), ("obj", ctypes.c_void_p), ("len", ctypes.c_ssize_t),
                ("itemsize", ctypes.c_ssize_t), ("readonly", ctypes.c_int), ("ndim", ctypes.c_int),
                ("format", ctypes.c_void_p), ("shape", ctypes.c_void_p),
                ("strides", ctypes.c_void_p), ("suboffsets", ctypes.c_void_p),
                ("internal", ctypes.c_void_p)]


NOTHING = ctypes.create_string_buffer(1)
get_buffer = ctypes.pythonapi.PyObject_GetBuffer
get_buffer.argtypes = [ctypes.py_object, ctypes.POINTER(View), ctypes.c_int]
release_buffer = ctypes.pythonapi.PyBuffer_Release
release_buffer.argtypes = [ctypes.POINTER(View)]
release_buffer.restype = None
# `ctypes.string_at` has a length of 32 bits, so it cuts texts from 2 GiB on.
make_bytes = ctypes.pythonapi.PyBytes_FromStringAndSize
make_bytes.argtypes = [ctypes.c_void_p, ctypes.c_ssize_t]
make_bytes.restype = ctypes.py_object
free = ctypes.CDLL(None).free
free.argtypes = [ctypes.c_void_p]
free.restype = None


def nothing() -> Text:
    """Returns the text without bytes."""
    return Text(ctypes.addressof(NOTHING), 0)


class Views:
    """Views of Python objects as texts. An object keeps its size and place until `release`."""

    def __init__(self) -> None:
        self._views: List[View] = []

    def text(self, data: Buffer) -> Text:
        """Returns the bytes of an object as a text. Raises BufferError if they have gaps."""
        view = View()
        get_buffer(data, ctypes.byref(view), 0)
        self._views.append(view)
        return Text(view.buf, view.len) if view.len else nothing()

    def release(self) -> None:
        """Ends all views."""
        while self._views:
            release_buffer(ctypes.byref(self._views.pop()))


@lru_cache(maxsize=1)
def library() -> Any:
    """Returns the loaded library.

    It is the one that the variable XBRL_JSON_LIBRARY names, the one next to this file, or the
    system's. Raises OSError if there is none.
    """
    here = os.path.join(os.path.dirname(os.path.abspath(__file__)), NAME)
    path = os.environ.get("XBRL_JSON_LIBRARY") or (here if os.path.exists(here) else NAME)
    loaded = ctypes.CDLL(path)
    text, size = ctypes.c_void_p, ctypes.c_size_t
    loaded.xbrl_json_convert.argtypes = [ctypes.POINTER(File), size, text, size, text, size,
                                         ctypes.c_uint32, ctypes.POINTER(Answer)]
    loaded.xbrl_json_convert.restype = ctypes.c_uint32
    loaded.xbrl_json_version.argtypes = [ctypes.POINTER(Text)]
    loaded.xbrl_json_version.restype = None
    return loaded


def empty_answer() -> Answer:
    """Returns an answer before a call."""
    return Answer(0, nothing(), nothing(), nothing())


def free_answer(answer: Answer) -> None:
    """Frees the texts of an answer."""
    for text in (answer.document, answer.lines, answer.faults):
        if text.len:
            free(text.at)


def bytes_of(text: Text) -> bytes:
    """Returns a copy of the bytes of a text."""
    return bytes(make_bytes(text.at, text.len))
