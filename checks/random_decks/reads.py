"""READ of records with a format."""
import re

from .files import Record
from .transfers import Items
from .values import Piece, quoted

BAD = [("'12x'", "I3", "I4"), ("'?'", "L1", "L"), ("'99999999999'", "I11", "I4"), ("'zz'", "Z2", "I8"), ("'1 - 2'", "I5", "I4"), ("'12'", "B2", "I4"),
       ("'1x 2'", "*", "I4"), ("'2.5'", "*", "I8"), ("'yes'", "*", "L"), ("'99999999999'", "*", "I4"), ("'&g a=1x /'", "G", ""), ("'&g nix=1 /'", "G", ""),
       ("'&g w(4)=1 /'", "G", "")]


FIELD = re.compile(r"[IBOZLAG](\d+)")


class Reads:
    """What a deck has for READ of records with a format."""

    def read_records(self, unit):
        """A READ of one or more records, or of a part of one."""
        file = unit.file
        if file.writing:
            self.leave("READ after nonadvancing output")
            return self.motion(unit, "REWIND" if unit.access == "STREAM" or self.maybe(0.5) else "BACKSPACE")
        if file.at >= len(file.records):
            return self.read_at_end(unit)
        record, choice = file.records[file.at], self.rng.random()
        if file.inside is None and choice < 0.8 and self.has_group(file, record):
            return self.read_group(unit, record)
        if file.inside is None and record.listed and choice < 0.8:
            return self.read_list(unit, record)
        if record.pieces is None:
            self.say_transfer("READ", unit, self.from_here(unit), self.rng.choice(["'()'", "'(A)'"]), Items())
            return file.skip()
        if choice < 0.45 or file.inside is not None and choice < 0.7:
            return self.read_part(unit, record)
        return self.read_fields(unit)

    def has_group(self, file, record):
        """Whether a group begins here that is still whole, and whose places are free."""
        if not record.group or any(place.held for place in self.variables.group(record.group[0])):
            return False
        here = file.records[file.at: file.at + len(record.group[1])]
        return len(here) == len(record.group[1]) and all(one is other for one, other in zip(here, record.group[1]))

    def from_here(self, unit, at=None):
        """POS= of the record at hand, at times, where the unit is a stream."""
        file = unit.file
        if unit.access != "STREAM" or file.inside is not None or at is None and not self.maybe(0.15):
            return []
        return [f"POS={self.operand(file.offset(file.at if at is None else at) + 1)}"]

    def read_from(self, unit):
        """A READ with POS= of any record of a stream."""
        at = self.rng.randint(0, len(unit.file.records))
        if at == len(unit.file.records) or unit.file.records[at].pieces is None:
            return self.read_records(unit)
        unit.file.at, unit.file.inside = at, None
        return self.read_fields(unit, self.from_here(unit, at))

    def read_at_end(self, unit):
        """A READ that meets the end of the file."""
        free = self.variables.free()
        if not free:
            return
        if unit.access == "STREAM":
            self.leave("the end of a formatted stream after another transfer")
            self.motion(unit, "REWIND")
            unit.file.at = len(unit.file.records)
            free = [place for place in free if place.kind != "L"] or free
        places = self.rng.sample(free, min(len(free), self.rng.randint(1, 2)))
        form = {"I4": "I6", "I8": "I9", "L": "L2", "C": "A"}
        text = self.rng.choice(["'(" + ",".join(form[place.kind] for place in places) + ")'", "*"])
        advance = [f"ADVANCE={self.word('NO')}"] if text != "*" and unit.access != "STREAM" and self.maybe(0.2) else []
        self.say_transfer("READ", unit, advance + self.from_here(unit, unit.file.at), text, Items(places), "end of file", [(place, None) for place in places])
        unit.file.ended = unit.access == "SEQUENTIAL"
        if unit.access == "STREAM":
            self.motion(unit, "REWIND")

    def take(self, piece, used):
        """A place for a field, the descriptor that reads it, and what the place is then; or none."""
        free = [place for place in self.variables.free() if place not in used]
        if self.maybe(0.12) and piece.width:
            texts = [place for place in free if place.kind == "C"]
            if texts:
                return self.rng.choice(texts), f"A{piece.width}", (True, 0, True)
        fitting = [place for place in free if piece.is_for(place)]
        if not fitting:
            return None
        return self.rng.choice(fitting), piece.edit, (True, piece.chars, True)

    def read_pieces(self, pieces, texts, reads, tabs, moves=True, whole=False):
        """Adds descriptors and places for some of these fields, or for all, and answers how many of the fields were passed."""
        gap = column = passed = 0
        for at, piece in enumerate(pieces):
            taken = self.take(piece, [place for place, _ in reads]) if piece.kind and (whole or self.maybe(0.85)) else None
            column += piece.width
            if not taken:
                gap += piece.width
                continue
            if gap and not moves:
                break
            place, edit, after = taken
            if gap:
                texts.append(self.rng.choice([f"{gap}X", f"TR{gap}"] + ([f"T{column - piece.width + 1}"] if tabs else [])))
            gap, passed = 0, at + 1
            texts.append(edit)
            reads.append((place, after))
            if tabs and self.maybe(0.06):
                other = self.take(piece, [place for place, _ in reads])
                if other and piece.width:
                    texts += [f"TL{piece.width}", other[1]]
                    reads.append((other[0], other[2]))
            if not whole and self.maybe(0.06):
                break
        return passed

    def input_modes(self, unit):
        """Modes of a READ, and whether PAD='YES' holds in it."""
        specs, modes = self.changed(unit, ["BLANK", "PAD", "DECIMAL"])
        return specs, modes["PAD"] == "YES"

    def read_fields(self, unit, specs=None):
        """A READ that goes on to the next record."""
        file, texts, reads, tabs = unit.file, [], [], unit.access != "STREAM" and not unit.file.short
        modes, pads = self.input_modes(unit)
        specs = self.from_here(unit) if specs is None else specs
        specs = specs + modes + ([f"ADVANCE={self.word('YES')}"] if self.maybe(0.1) else [])
        if self.maybe(0.1):
            texts.append(self.rng.choice(["BN", "BZ", "BN"]))
        more = self.rng.choice([0, 0, 0, 1, 2])
        while True:
            record = file.records[file.at]
            first = file.inside or 0
            self.read_pieces(record.pieces[first:], texts, reads, first == 0 and tabs, unit.access != "STREAM")
            file.skip()
            if not more or file.at >= len(file.records) or file.records[file.at].pieces is None:
                break
            texts.append("/")
            more -= 1
        if pads and texts and texts[-1] != "/" and tabs and self.maybe(0.08):
            self.read_beyond(record.width(), texts, reads)
        self.say_transfer("READ", unit, specs, quoted(f"({','.join(texts)})"), Items([place for place, _ in reads]), reads=reads)

    def read_beyond(self, width, texts, reads):
        """A field after the end of the record, for which blanks stand."""
        used = [place for place, _ in reads]
        free = [place for place in self.variables.free() if place not in used and place.kind != "L"]
        if free:
            place = self.rng.choice(free)
            texts.append(f"T{width + self.rng.randint(1, 3)}")
            texts.append("A" if place.kind == "C" else self.rng.choice(["I3", "B4", "G5.0"]))
            reads.append((place, (True, 1, True)))

    def read_part(self, unit, record):
        """A READ with ADVANCE='NO', which may meet the end of the record."""
        file, texts, reads = unit.file, [], []
        specs, pads = self.input_modes(unit)
        first = file.inside or 0
        rest = record.pieces[first:]
        ends = self.maybe(0.5)
        if ends and file.at + 1 == len(file.records):
            self.leave("the end of the last record")
            ends = False
        passed = self.read_pieces(rest if ends else rest[: self.rng.randint(1, 3)], texts, reads, False, unit.access != "STREAM", ends)
        due = "fine"
        if ends:
            left = sum(piece.width for piece in rest[passed:])
            used = [place for place, _ in reads]
            free = [place for place in self.variables.free() if place not in used]
            if not free or left:
                return
            place = self.rng.choice(free if not pads else [it for it in free if it.kind != "L"] or free)
            if place.kind == "L" and pads:
                return
            texts.append({"C": "A", "L": "L2"}.get(place.kind, "I3"))
            reads.append((place, (pads, 1, True)))
            due = "end of record"
        if not texts:
            return
        specs = specs + [f"ADVANCE={self.word('NO')}"]
        if self.maybe(0.6):
            counted = self.fresh("N")
            fields = [FIELD.match(text) for text in (texts if due == "fine" else texts[:-1])]
            self.counts[counted] = str(sum(int(field[1]) for field in fields if field))
            if None in fields:
                self.own.add(counted)
                self.leave("SIZE= after moves, in gfortran")
            specs.append(f"SIZE={counted}")
        self.say_transfer("READ", unit, specs, quoted(f"({','.join(texts)})"), Items([place for place, _ in reads]), due, reads)
        if due == "fine":
            file.inside = first + passed
        else:
            file.skip(short=True)

    def for_separator(self, unit, comma):
        """DECIMAL= in a READ, where the text is not for that of the connection."""
        word = "COMMA" if comma else "POINT"
        return [f"DECIMAL={self.word(word)}"] if comma is not None and (unit.mode("DECIMAL") != word or self.maybe(0.1)) else []

    def list_places(self, listed, reads):
        """Adds places for values that list-directed input finds, and answers whether each value has one."""
        for kind, chars in listed:
            is_null, used = kind[:1] in ("", "?"), [place for place, _ in reads]
            kinds = {"I4": ["I4", "I8"], "": ["I4", "I8", "L", "C"]}.get(kind, [kind.strip("=?")])
            fitting = [place for place in self.variables.free() if place.kind in kinds and place not in used and (place.defined or not is_null)]
            if not fitting:
                return False
            place = self.rng.choice(fitting)
            reads.append((place, (True, place.chars, place.plain) if is_null else (True, chars, True)))
        return True

    def read_list(self, unit, record):
        """List-directed input of values of the record at hand, and at times of the next one."""
        file, reads = unit.file, []
        count = self.rng.randint(1, len(record.listed))
        whole = self.list_places(record.listed[:count], reads) and count == len(record.listed)
        if not reads:
            return
        specs = self.from_here(unit) + self.for_separator(unit, record.comma)
        behind = file.records[file.at + 1] if file.at + 1 < len(file.records) else None
        if record.slash and whole and self.maybe(0.5):
            more = [place for place in self.variables.free() if place.defined and place not in [it for it, _ in reads]]
            reads += [(place, (True, place.chars, place.plain)) for place in more[:2]]
        elif whole and not record.more and behind and behind.listed and record.listed[-1][0][:1] not in ("", "?") and record.comma == behind.comma and self.maybe(0.5):
            before = len(reads)
            self.list_places(behind.listed[: self.rng.randint(1, len(behind.listed))], reads)
            file.at += len(reads) > before
        self.say_transfer("READ", unit, specs, "*", Items([place for place, _ in reads]), reads=reads)
        file.skip(short=True)

    def read_group(self, unit, record):
        """Namelist input of the records at hand."""
        name, rows, given = record.group
        specs = self.from_here(unit) + self.for_separator(unit, record.comma if record.comma is not None else False)
        reads = [(place, (place.defined or place in given, given.get(place, place.chars), place in given or place.plain)) for place in self.variables.group(name)]
        self.say_transfer("READ", unit, specs + [f"NML={name}"], None, Items(), reads=reads)
        unit.file.at += len(rows)

    def read_badly(self, unit):
        """Writes a record that is no value of its kind, meets it, and goes to the start."""
        text, edit, kind = self.rng.choice(BAD)
        free = self.variables.free(kind or None)
        if not free or not kind and any(place.held for place in self.variables.group("G")):
            return
        self.write_texts(unit, [text[1:-1]], [Record([Piece(len(text) - 2)])])
        self.motion(unit, "BACKSPACE")
        if kind:
            place = self.rng.choice(free)
            point = ["DECIMAL='POINT'"] if edit == "*" else []
            form = "*" if edit == "*" else f"'({edit})'"
            self.say_transfer("READ", unit, point, form, Items([place]), "an error", [(place, None)])
        else:
            group = [(place, None) for place in self.variables.group("G")]
            self.say_transfer("READ", unit, ["NML=G", "DECIMAL='POINT'"], None, Items(), "an error", group)
        self.motion(unit, "REWIND")
