"""Buffers, lent to a call where they are: no image is ever copied.

CPython's own buffer calls tell where the bytes of a buffer lie, those of one that is
only for reading among them, and keep them there: meanwhile a bytearray cannot be
resized, and an mmap cannot be closed.
"""

from __future__ import annotations

import ctypes
import mmap
from types import TracebackType
from typing import Final, List, NamedTuple, Optional, Tuple, Type, Union

#: What can be read as an image; other buffers of bytes in one piece can, too.
Image = Union[bytes, bytearray, memoryview, mmap.mmap]

#: What can be changed as an image, if it is not for reading only.
WritableImage = Union[bytearray, memoryview, mmap.mmap]


class _View(ctypes.Structure):
    """CPython's Py_buffer."""

    _fields_ = [
        ("buf", ctypes.c_void_p),
        ("obj", ctypes.c_void_p),
        ("len", ctypes.c_ssize_t),
        ("itemsize", ctypes.c_ssize_t),
        ("readonly", ctypes.c_int),
        ("ndim", ctypes.c_int),
        ("format", ctypes.c_void_p),
        ("shape", ctypes.c_void_p),
        ("strides", ctypes.c_void_p),
        ("suboffsets", ctypes.c_void_p),
        ("internal", ctypes.c_void_p),
    ]


_get_buffer = ctypes.PYFUNCTYPE(
    ctypes.c_int, ctypes.py_object, ctypes.POINTER(_View), ctypes.c_int
)(("PyObject_GetBuffer", ctypes.pythonapi))

_release_buffer = ctypes.PYFUNCTYPE(None, ctypes.POINTER(_View))(
    ("PyBuffer_Release", ctypes.pythonapi)
)

# How a buffer is asked for: PyBUF_SIMPLE and PyBUF_WRITABLE, bytes in one piece.
_SIMPLE: Final = 0
_WRITABLE: Final = 1


def _view_of(buffer: object, what: str, writable: bool) -> _View:
    """The bytes of a buffer, kept where they are until the view is released."""
    view = _View()
    try:
        _get_buffer(buffer, ctypes.byref(view), _WRITABLE if writable else _SIMPLE)
    except (TypeError, BufferError) as error:
        must = (
            "is written to, and must be a writable buffer such as a bytearray or a "
            "writable mmap"
            if writable
            else "must be a buffer such as bytes, a bytearray, an mmap or a memoryview"
        )
        raise TypeError(f"{what} {must}: {error}") from error
    return view


class _Loan(NamedTuple):
    """Bytes that a call was lent, and what they are to it."""

    view: _View
    what: str

    @property
    def start(self) -> int:
        """Where they begin; a buffer of no bytes may be nowhere."""
        return int(self.view.buf or 0)

    @property
    def end(self) -> int:
        """Where they end."""
        return self.start + int(self.view.len)

    def meets(self, other: _Loan) -> bool:
        """Whether two loans have a byte in common."""
        return max(self.start, other.start) < min(self.end, other.end)


class Lending:
    """What one call is lent. It is given back where a `with` of it ends."""

    def __init__(self) -> None:
        self._loans: List[_Loan] = []

    def __enter__(self) -> Lending:
        return self

    def __exit__(
        self,
        kind: Optional[Type[BaseException]],
        error: Optional[BaseException],
        traceback: Optional[TracebackType],
    ) -> None:
        while self._loans:
            _release_buffer(ctypes.byref(self._loans.pop().view))

    def lend(self, buffer: object, what: str, writable: bool) -> Tuple[int, int]:
        """Where the bytes of a buffer begin, and how many they are.

        No two buffers may have a byte in common: of any two that a call is lent, it
        writes to one at least.
        """
        loan = _Loan(_view_of(buffer, what, writable), what)
        earlier = list(self._loans)
        self._loans.append(loan)
        for other in earlier:
            if loan.meets(other):
                raise ValueError(
                    f"{other.what} and {what} have bytes in common, and are written to"
                )
        return loan.start, loan.end - loan.start


def part(image: Image, start: int, length: int) -> memoryview:
    """Bytes of an image, for reading: the image's own, and not a copy."""
    view = memoryview(image).cast("B").toreadonly()
    end = start + length
    if not 0 <= start <= end <= len(view):
        raise ValueError(f"the image's {len(view)} bytes do not have {start} to {end}")
    return view[start:end]
