"""Fortran files from Python: units whose transfers are pending until they are waited for. docs/LINK.md says what each call does.

    with lukhtame.open("hits.unf") as unit:
        unit.write(array.array("i", range(1000)))

    for hits in lukhtame.records("hits.unf", "i"):
        ...

It stands on ctypes alone. The library is liblukhtame.so beside this file, or what LUKHTAME names.
"""
import array
import atexit
import ctypes
import os
import pathlib

__all__ = ["Condition", "Unit", "lengths", "open", "records"]

_lk = ctypes.CDLL(os.environ.get("LUKHTAME") or str(pathlib.Path(__file__).resolve().parent / "liblukhtame.so"))
_number = ctypes.POINTER(ctypes.c_int32)
for _name, _takes in (("lk_open", [ctypes.c_char_p, ctypes.c_char_p, _number]),
                      ("lk_write", [ctypes.c_int32, ctypes.c_char_p, ctypes.c_int, ctypes.c_void_p, ctypes.c_size_t, _number]),
                      ("lk_read", [ctypes.c_int32, ctypes.c_char_p, ctypes.c_int, ctypes.c_void_p, ctypes.c_size_t, _number]),
                      ("lk_wait", [ctypes.c_int32, ctypes.c_int32]), ("lk_close", [_number])):
    getattr(_lk, _name).argtypes, getattr(_lk, _name).restype = _takes, ctypes.c_int32
_lk.lk_message.argtypes, _lk.lk_message.restype = [ctypes.c_int32, ctypes.c_char_p, ctypes.c_size_t], None


class Condition(Exception):
    """A call met a condition; `iostat` is its number, as IOSTAT= has it."""

    def __init__(self, iostat):
        text = ctypes.create_string_buffer(200)
        _lk.lk_message(iostat, text, len(text))
        super().__init__(f"{text.value.decode()} (IOSTAT {iostat})")
        self.iostat = iostat


def _tell(iostat):
    if iostat:
        raise Condition(iostat)


def _whole(view):
    """An array of integers of 4 or 8 bytes."""
    if view.format.lstrip("@=<") not in ("i", "l", "q") or view.itemsize not in (4, 8):
        raise TypeError(f"integers of 4 or 8 bytes are written and read, and no {view.format}")
    return view


class Unit:
    """A unit that is connected, by OPEN with STATUS='UNKNOWN' and ASYNCHRONOUS='YES'."""

    def __init__(self, file, form="UNFORMATTED"):
        self._number, self._pending = ctypes.c_int32(), {}
        _tell(_lk.lk_open(os.fsencode(file), form.encode(), self._number))
        _connected.add(self)

    def write(self, values, fmt=""):
        """WRITE, pending: the values are those at the call. It returns the identifier."""
        got, view = ctypes.c_int32(), _whole(memoryview(values))
        _tell(_lk.lk_write(self._number, fmt.encode(), view.itemsize, view.tobytes("A"), view.nbytes // view.itemsize, got))
        return got.value

    def read(self, into, fmt=""):
        """READ, pending: what is read stands in `into` after the call that waits for it. It returns the identifier."""
        got, view = ctypes.c_int32(), _whole(memoryview(into))
        if not view.c_contiguous and view.f_contiguous:
            view = memoryview(into.T)
        room = (ctypes.c_char * view.nbytes).from_buffer(view.cast("B"))
        _tell(_lk.lk_read(self._number, fmt.encode(), view.itemsize, room, view.nbytes // view.itemsize, got))
        self._pending[got.value] = room
        return got.value

    def wait(self, identifier=0):
        """WAIT for one transfer, or for all."""
        iostat = _lk.lk_wait(self._number, identifier)
        if identifier and iostat in (0, -2):
            self._pending.pop(identifier, None)
        elif iostat < 1001:
            self._pending.clear()
        _tell(iostat)

    def close(self):
        """CLOSE: the file is written. Where that fails the unit stays as it is, and it may be tried again."""
        iostat = _lk.lk_close(self._number)
        if not self._number.value:
            self._pending.clear()
            _connected.discard(self)
        _tell(iostat)

    def __enter__(self):
        return self

    def __exit__(self, *_):
        self.close()


# A unit is here until it is closed, and with it what its pending READs read into.
_connected = set()


@atexit.register
def _close_all():
    for unit in list(_connected):
        unit.close()


def open(file, form="UNFORMATTED"):
    """OPEN."""
    return Unit(file, form)


def lengths(file):
    """The bytes of each record of an unformatted sequential file, from the marks before them. These are looked at here, and not by the library."""
    found = []
    with pathlib.Path(file).open("rb") as it:
        while mark := it.read(4):
            found.append(int.from_bytes(mark, "little"))
            it.seek(found[-1] + 4, os.SEEK_CUR)
    return found


def records(file, typecode):
    """Each record of an unformatted sequential file, in an array of a typecode of `array`."""
    size = array.array(typecode).itemsize
    with Unit(file) as unit:
        for length in lengths(file):
            values = array.array(typecode, bytes(length // size * size))
            unit.read(values)
            unit.wait()
            yield values
