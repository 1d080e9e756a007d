"""The functions of the library, declared as it exports them, and their call."""

from __future__ import annotations

import ctypes
import os
from dataclasses import dataclass
from pathlib import Path
from typing import Any, Callable, Dict, Final, List, Tuple, Union

from ._answer import Refusal, Refused
from ._lending import Lending
from ._numbers import LONG, WORD, checked

#: An answer as the library writes it: number, place, ten value words.
Words = ctypes.c_uint64 * 12


@dataclass(frozen=True)
class Slice:
    """Bytes that a call reads, or also writes: they pass as pointer and length."""

    name: str
    writable: bool = False

    @property
    def types(self) -> Tuple[Any, ...]:
        """What is passed, as ctypes names it."""
        return (ctypes.c_void_p, ctypes.c_size_t)

    def passed(self, value: object, lending: Lending) -> Tuple[int, ...]:
        """A buffer as the call takes it."""
        return lending.lend(value, self.name, self.writable)


@dataclass(frozen=True)
class Number:
    """A number of 16 or of 32 bits: at most WORD, or at most LONG."""

    name: str
    most: int

    @property
    def types(self) -> Tuple[Any, ...]:
        """What is passed, as ctypes names it."""
        return (ctypes.c_uint16 if self.most == WORD else ctypes.c_uint32,)

    def passed(self, value: object, _: Lending) -> Tuple[int, ...]:
        """A number as the call takes it; ctypes would cut one that is too large."""
        return (checked(value, self.most, self.name),)


Argument = Union[Slice, Number]

_IMAGE: Final = Slice("image")
_CHANGED: Final = Slice("image", writable=True)
_AREAS: Final = (Slice("blocks", writable=True), Slice("headers", writable=True))
_NUMBER: Final = Number("number", WORD)
_ID: Final = (_NUMBER, Number("sequence", WORD), Number("volume", WORD))
_NAME: Final = (
    Number("name1", WORD),
    Number("name2", WORD),
    Number("name3", WORD),
    Number("typ", WORD),
    Number("version", WORD),
)
_RIGHTS: Final = (Number("owner", WORD), Number("protection", WORD))
_VBN: Final = Number("vbn", LONG)
_PLACE: Final = Number("place", LONG)

#: What each function takes, but for the answer's words, which are always last.
DECLARED: Final[Dict[str, Tuple[Argument, ...]]] = {
    "ods1_open_volume": (_IMAGE,),
    "ods1_open_file": (_IMAGE, *_ID),
    "ods1_map": (_IMAGE, *_ID, _VBN),
    "ods1_block": (_IMAGE, *_ID, _VBN),
    "ods1_look_up": (_IMAGE, *_ID, *_NAME),
    "ods1_next_record": (_IMAGE, *_ID, _PLACE),
    "ods1_judge": (_IMAGE, *_AREAS),
    "ods1_create": (_CHANGED, *_NAME, *_RIGHTS, *_AREAS),
    "ods1_extend": (_CHANGED, *_ID, Number("count", LONG), *_AREAS),
    "ods1_delete": (_CHANGED, *_ID, *_AREAS),
    "ods1_text_to_name": (Slice("text"),),
    "ods1_name_to_text": (*_NAME, Slice("text", writable=True)),
    "ods1_geometry": (_IMAGE,),
    "ods1_label": (_IMAGE,),
    "ods1_header": (_IMAGE, _NUMBER),
    "ods1_pointer": (_IMAGE, _NUMBER, _PLACE),
    "ods1_attributes": (_IMAGE, *_ID),
    "ods1_extent": (_IMAGE, *_ID, _VBN),
    "ods1_free_run": (_IMAGE, Number("from", LONG)),
}

#: Where build.sh writes the library.
_BUILT: Final = Path(__file__).resolve().parents[3] / "target" / "python" / "libods1.so"


def _argument_types(arguments: Tuple[Argument, ...]) -> List[Any]:
    """The types of what a function takes, the answer's words last."""
    types = [kind for argument in arguments for kind in argument.types]
    return [*types, ctypes.POINTER(Words)]


def _load() -> Dict[str, Callable[..., None]]:
    """The functions of the library, ready to be called.

    A call keeps the interpreter's lock (that is PyDLL), so that no other thread changes
    what it was lent.
    """
    path = os.environ.get("ODS1_LIBRARY") or str(_BUILT)
    functions: Dict[str, Callable[..., None]] = {}
    try:
        library = ctypes.PyDLL(path)
        for name, arguments in DECLARED.items():
            function = getattr(library, name)
            function.argtypes = _argument_types(arguments)
            function.restype = None
            functions[name] = function
    except (OSError, AttributeError) as error:
        raise ImportError(
            f"the library of ods1 cannot be loaded ({error}): run "
            "bindings/python/build.sh in the repository, which writes "
            "target/python/libods1.so, or name the library in ODS1_LIBRARY"
        ) from error
    return functions


FUNCTIONS: Final = _load()


def call(name: str, *given: object) -> Tuple[int, ...]:
    """Calls a function: the ten value words of its answer, or `Refused`."""
    words = Words()
    with Lending() as lending:
        passed: List[int] = []
        for argument, value in zip(DECLARED[name], given):
            passed.extend(argument.passed(value, lending))
        FUNCTIONS[name](*passed, words)
    number, place, *values = words
    if number != 0:
        raise Refused(Refusal(number), place)
    return tuple(values)
