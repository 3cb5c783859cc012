"""The proved library, called from Python: `scripts/library` puts it together from the archive that `rt lib` writes."""
import ctypes
import pathlib

ROOT = pathlib.Path(__file__).parent.parent
STAMP_UNIT = 1 << 32
JUNK = 0xa5a5a5a5
MERGES_UNIT, REFUSAL_UNIT = 1 << 32, 1 << 40
NO_CLOCK = 1 << 63
NEXT_UNIT, MORE_UNIT, SCAN_REFUSAL_UNIT = 1 << 32, 1 << 48, 1 << 56

_words = ctypes.POINTER(ctypes.c_uint32)
_tables = [_words, ctypes.c_size_t, _words, ctypes.c_size_t]
_library = ctypes.CDLL(str(ROOT / "target" / "libguontrem.so"))
_names = {"check": (0, ctypes.c_uint32), "wake": (0, ctypes.c_uint64), "make": (4, ctypes.c_uint32), "lookup_count": (1, ctypes.c_uint64)}
# The timed calls by the letters of the script: a clock, then the other numbers.
TIMED = {"P": "put", "D": "delete", "R": "delete_range", "Y": "delete_range_dated", "F": "flush", "T": "tick"}
_names |= {name: (numbers, ctypes.c_uint64) for name, numbers in (("put", 4), ("delete", 2), ("delete_range", 3), ("delete_range_dated", 4), ("flush", 1), ("tick", 1))}
for _name, (_numbers, _answer) in _names.items():
    _call = getattr(_library, f"guontrem_{_name}")
    _call.argtypes = _tables + [ctypes.c_uint32] * _numbers
    _call.restype = _answer


class _Row(ctypes.Structure):
    _fields_ = [(name, ctypes.c_uint32) for name in ("docket", "count", "price", "stamp")]


class _CountRow(ctypes.Structure):
    _fields_ = [(name, ctypes.c_uint32) for name in ("docket", "count", "stamp")]


_library.guontrem_lookup.argtypes = _tables + [ctypes.c_uint32, _words]
_library.guontrem_lookup.restype = ctypes.c_uint64
for _name, _kind in (("scan", _Row), ("scan_counts", _CountRow)):
    _call = getattr(_library, f"guontrem_{_name}")
    _call.argtypes = _tables + [ctypes.c_uint32] * 2 + [ctypes.POINTER(_kind), ctypes.c_size_t]
    _call.restype = ctypes.c_uint64


def _lend(call, entries, levels, *numbers):
    """Calls with both tables lent; gives the answer and the words of both as the call left them."""
    e = (ctypes.c_uint32 * max(1, len(entries)))(*entries)
    l = (ctypes.c_uint32 * max(1, len(levels)))(*levels)
    answer = call(e, len(entries), l, len(levels), *numbers)
    return answer, list(e)[:len(entries)], list(l)[:len(levels)]


def _read(call, entries, levels, *numbers):
    """A call that writes nothing."""
    answer, e, l = _lend(call, entries, levels, *numbers)
    assert e == list(entries) and l == list(levels), "a reading call wrote"
    return answer


def make(entries, levels, *settings):
    return _lend(_library.guontrem_make, entries, levels, *settings)


def check(entries, levels):
    return _read(_library.guontrem_check, entries, levels)


def _woken(answer):
    """The refusal, and the clock or None."""
    return (0, answer) if answer < NO_CLOCK else (answer - NO_CLOCK, None)


def wake(entries, levels):
    return _woken(_read(_library.guontrem_wake, entries, levels))


def _counted(answer):
    """The grower's four numbers: refusal, found, count, stamp."""
    stamp, rest = divmod(answer, STAMP_UNIT)
    return (0, 1, rest, stamp) if stamp else (rest, 0, 0, 0)


def _looked_up(call, docket):
    """The hall's five numbers: refusal, found, count, price, stamp. The price is written into a word of junk that lies between others."""
    lent = (ctypes.c_uint32 * 3)(JUNK, JUNK, JUNK)
    refusal, found, count, stamp = _counted(call(docket, ctypes.cast(ctypes.byref(lent, 4), _words)))
    assert lent[0] == lent[2] == JUNK, "a word beside the price was written"
    return refusal, found, count, lent[1], stamp


def lookup(entries, levels, docket):
    return _looked_up(lambda *numbers: _read(_library.guontrem_lookup, entries, levels, *numbers), docket)


def lookup_count(entries, levels, docket):
    return _counted(_read(_library.guontrem_lookup_count, entries, levels, docket))


class Store:
    """Two tables that stay lent from call to call."""

    def __init__(self, entries, levels):
        self._entry_words, self._level_words = len(entries), len(levels)
        self._entries = (ctypes.c_uint32 * max(1, len(entries)))(*entries)
        self._levels = (ctypes.c_uint32 * max(1, len(levels)))(*levels)

    def _call(self, name, *numbers):
        return getattr(_library, f"guontrem_{name}")(self._entries, self._entry_words, self._levels, self._level_words, *numbers)

    def words(self):
        return bytes(self._entries)[:4 * self._entry_words], bytes(self._levels)[:4 * self._level_words]

    def tables(self):
        return list(self._entries)[:self._entry_words], list(self._levels)[:self._level_words]

    def make(self, *settings):
        return self._call("make", *settings)

    def check(self):
        return self._call("check")

    def wake(self):
        return _woken(self._call("wake"))

    def call(self, letter, *numbers):
        """Document 01's three numbers: refusal, merges, purged."""
        answer = self._call(TIMED[letter], *numbers)
        return (answer // REFUSAL_UNIT, answer % REFUSAL_UNIT // MERGES_UNIT, answer % MERGES_UNIT)

    def lookup(self, docket):
        return _looked_up(lambda *numbers: self._call("lookup", *numbers), docket)

    def lookup_count(self, docket):
        return _counted(self._call("lookup_count", docket))

    def _scan(self, name, kind, lo, hi, rows):
        """Document 01's numbers, refusal, count, more and next docket, and the lent rows as the scan left them."""
        lent = (kind * max(1, len(rows)))(*rows)
        answer = self._call(name, lo, hi, lent, len(rows))
        numbers = (answer // SCAN_REFUSAL_UNIT, answer % NEXT_UNIT, answer // MORE_UNIT % 2 == 1, answer // NEXT_UNIT % 65536)
        return numbers, [tuple(getattr(row, name) for name, _ in kind._fields_) for row in lent[:len(rows)]]

    def scan(self, lo, hi, rows):
        """Rows of docket, count, price and stamp."""
        return self._scan("scan", _Row, lo, hi, rows)

    def scan_counts(self, lo, hi, rows):
        """The grower's rows, of docket, count and stamp."""
        return self._scan("scan_counts", _CountRow, lo, hi, rows)
