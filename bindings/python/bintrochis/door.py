"""The functions of the proved library, as include/bintrochis.h says them, by ctypes.

ctypes cuts a number that is too large for its C type without a word, so every number is tested here first. A length or a place has 64 bits
on every processor, also on one whose size_t has 32.
"""

import ctypes
import os
import pathlib

NUMBERS = 15
STATE = 28
NO_LIMIT = 65535
NO_FAULT = 2**64 - 1
DONE = 0
VERSION = 200  # 0.2.0


def _library():
    """The shared library: the one that BINTROCHIS_LIBRARY names, one beside this file, as a wheel has it, or the repository's."""
    here = pathlib.Path(__file__).resolve().parent
    named = os.environ.get("BINTROCHIS_LIBRARY")
    places = [pathlib.Path(named)] if named else [here / "libbintrochis.so"]
    if not named:
        places += [top / "target/native/libbintrochis.so" for top in here.parents[2:3]]
    for place in places:
        if place.is_file():
            library = ctypes.CDLL(str(place))
            break
    else:
        raise ImportError(
            "There is no library %s. In the repository, scripts/native-lib builds it and scripts/wheel writes a wheel that has it; "
            "BINTROCHIS_LIBRARY may name another." % places[-1]
        )
    library.bintrochis_version.restype = ctypes.c_uint32
    if library.bintrochis_version() != VERSION:
        raise ImportError("%s has version %d, and this module needs %d." % (place, library.bintrochis_version(), VERSION))
    return library


_u8, _u16, _u32, _u64, _bool = ctypes.c_uint8, ctypes.c_uint16, ctypes.c_uint32, ctypes.c_uint64, ctypes.c_bool
_BITS = {_u8: 8, _u16: 16, _u32: 32, _u64: 64, _bool: 1}
_IN = object()  # bytes that are read
_OUT = object()  # a bytearray that is written to
_TELLS = object()  # numbers that are written to

_timing = (_u32, _u32, _u32, _u16, _bool, _u16)  # P2, P2*, overall, limit, addressed, listens
_lent = (_IN, _OUT, _IN, _IN, _TELLS)  # arguments or data, request, events, replies, answer
_begins = (_u32, _u32, _u32, _u16, _u16, _IN, _OUT, _TELLS)  # P2, P2*, overall, limit, listens, arguments or data, request, state
_functions = {
    "bintrochis_door_call": (_u8, (_u8, _u8, _u16, _u8, _u8, _u8) + _timing + _lent),
    "bintrochis_door_call_alfid": (_u8, (_u8, _u8, _u16, _u64, _u64, _u64, _u64, _bool) + _timing + _lent),
    "bintrochis_door_begin": (_u8, (_u8, _u8, _u16, _u8, _u8, _u8) + _begins),
    "bintrochis_door_begin_alfid": (_u8, (_u8, _u8, _u16, _u64, _u64, _u64, _u64, _bool) + _begins),
    "bintrochis_door_event": (_u8, (_TELLS, _IN, _u32, _u16, _u16, _u16, _u16, _IN)),
    "bintrochis_door_tick": (_u8, (_TELLS, _u64)),
    "bintrochis_door_line": (_u64, (_IN, _OUT)),
    "bintrochis_door_block": (_u8, (_IN, _u64, _u64, _TELLS)),
    "bintrochis_door_faults": (_u64, (_u8, _IN)),
    "bintrochis_door_fault": (_u64, (_u8, _IN, _u64)),
    "bintrochis_door_respond": (_u8, (_OUT, _IN, _OUT, _TELLS)),
    "bintrochis_name_number": (_u8, (_u8,)),
}


def _declared(library, name):
    result, kinds = _functions[name]
    function = getattr(library, name)
    function.restype = result
    types = []
    for kind in kinds:
        if kind in (_IN, _OUT):
            types += [ctypes.c_void_p, _u64]
        else:
            types.append(ctypes.POINTER(_u64) if kind is _TELLS else kind)
    function.argtypes = types
    return function, kinds


_library = _library()
_door = {name: _declared(_library, name) for name in _functions}


def door(name, *words):
    """Calls a function: bytes for a slice that is read, a bytearray for one that is written, an array of numbers for what is told. What is
    read is copied first, but for a memoryview of a bytearray, which is lent as it is."""
    function, kinds = _door[name]
    passed, kept = [], []
    for kind, word in zip(kinds, words, strict=True):
        if kind is _IN or kind is _OUT:
            size = len(word)
            # a slice is never null; ctypes keeps no bytes alive, so `kept` does
            room = (ctypes.c_uint8 * max(size, 1))
            lent = kind is _OUT or isinstance(word, memoryview) and not word.readonly
            place = room.from_buffer(word) if lent and size else room.from_buffer_copy(bytes(word) or b"\0")
            kept.append(place)
            passed += [ctypes.cast(place, ctypes.c_void_p), size]
        elif kind is _TELLS:
            passed.append(word)
        else:
            if not 0 <= word < 1 << _BITS[kind]:
                raise ValueError("%s: %d is out of range" % (name, word))
            passed.append(word)
    return function(*passed)


def numbers(count):
    return (_u64 * count)()
