"""What stands in the files of a random deck, and where its units are.

The bytes of an unformatted record are letters: x for any byte, t for a printable one, L and l for the first and the others of a truth value.
"""
import dataclasses


def letters_of(parts):
    """The bytes of values without a format."""
    each = {"I4": "xxxx", "I8": "x" * 8, "L": "Llll"}
    return "".join(each.get(part.kind, ("t" if part.plain else "x") * part.length) for part in parts)


@dataclasses.dataclass
class Record:
    """A record: its fields, or none where its characters are a processor's own; what list-directed input may read of it, each a kind with
    its characters, and whether there is more of it, or a slash; the group that it and the records after it are, with the places that get values; the bytes of one without a format."""

    pieces: list = None
    listed: list = None
    group: tuple = ()
    comma: bool = None
    slash: bool = False
    more: bool = False
    letters: str = ""

    def width(self):
        return sum(piece.width for piece in self.pieces)


class Records:
    """A file of records in a row. `writing` says that the record at hand is open, `inside` how many of its fields were read, and `short`
    that the last READ met the end of a record."""

    def __init__(self, records=()):
        self.records, self.at, self.ended, self.writing, self.inside, self.short = list(records), 0, False, False, None, False

    def finish(self):
        """Ends a record that output left open."""
        self.at += self.writing
        self.writing = False

    def put(self, records, stays=False):
        """Writes records; the first goes on in an open one."""
        self.short = False
        if self.writing:
            known = None not in (self.records[self.at].pieces, records[0].pieces)
            self.records[self.at].pieces = self.records[self.at].pieces + records[0].pieces if known else None
            records = records[1:]
        else:
            del self.records[self.at:]
        self.records += records
        self.at, self.writing, self.inside = len(self.records) - stays, stays, None

    def skip(self, short=False):
        """Goes after the record at hand."""
        self.at, self.inside, self.short = self.at + 1, None, short

    def backspace(self):
        self.finish()
        self.short = False
        if self.ended:
            self.ended = False
        elif self.inside is not None:
            self.inside = None
        else:
            self.at = max(self.at - 1, 0)

    def rewind(self):
        self.finish()
        self.at, self.ended, self.inside, self.short = 0, False, None, False

    def endfile(self):
        self.finish()
        del self.records[self.at:]
        self.ended = True

    def offset(self, at):
        """How many bytes are before a record of known characters."""
        return sum(record.width() + 1 for record in self.records[:at])

    def letters(self):
        return "".join("xxxx" + it.letters + "xxxx" if it.pieces is None else "t" * it.width() + "x" for it in self.records)


class Numbered:
    """A file of direct access: records by number, and the number after the last one that was touched."""

    def __init__(self, recl, records=None):
        self.recl, self.records, self.next = recl, dict(records or {}), 1

    def letters(self):
        filled = [self.records.get(number) for number in range(1, max(self.records, default=0) + 1)]
        return "".join("x" * self.recl if it is None else "t" * self.recl if it.pieces is not None else it.letters for it in filled)


class Bytes:
    """A file as a stream without a format."""

    def __init__(self, letters=""):
        self.bytes, self.at = letters, 0

    def put(self, letters):
        self.bytes = self.bytes[: self.at] + letters + self.bytes[self.at + len(letters):]
        self.at += len(letters)

    def letters(self):
        return self.bytes


@dataclasses.dataclass
class Connection:
    """A unit with its file and its modes; in an `exact` file both sides have the same bytes."""

    unit: int
    name: str
    access: str
    form: str
    action: str = "READWRITE"
    asynchronous: bool = False
    exact: bool = True
    recl: int = 0
    file: object = None
    modes: dict = dataclasses.field(default_factory=dict)
    pending: list = dataclasses.field(default_factory=list)

    def is_scratch(self):
        return not self.name

    def mode(self, name):
        return self.modes.get(name, {"PAD": "YES", "DECIMAL": "POINT", "DELIM": "NONE", "SIGN": "SUPPRESS", "BLANK": "NULL"}[name])


@dataclasses.dataclass
class Left:
    """A file that no unit is connected to."""

    access: str
    form: str
    file: object
    exact: bool
    recl: int
