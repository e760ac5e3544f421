"""READ and WRITE of random decks without a format, and with REC=."""
from .files import Bytes, Record, Records, letters_of
from .transfers import Items
from .values import MOST, Piece, format_out, quoted


class Unformatted:
    """What a deck has for frames, numbered records and streams of bytes."""

    def read_bytes(self, letters):
        """Places that these bytes are read into, from the first on, with what they are then, and how many bytes they take."""
        reads, at = [], 0
        for _ in range(self.rng.randint(1, 4)):
            used = [place for place, _ in reads]
            free = [place for place in self.variables.free() if place not in used and at + place.bytes() <= len(letters)
                    and (place.kind != "L" or letters[at: at + 4] == "Llll")]
            if not free:
                break
            same = [place for place in free if letters[at: at + place.bytes()] == "t" * place.bytes() or place.kind == "L"]
            place = self.rng.choice(same or free)
            plain = place.kind != "C" or set(letters[at: at + place.length]) <= {"t"}
            reads.append((place, (True, MOST.get(place.kind, 0), plain)))
            at += place.bytes()
        return reads, at

    def frames(self, unit):
        """A transfer of sequential access without a format."""
        file = unit.file
        if file.ended:
            return self.behind_the_end(unit)
        at_end = file.at >= len(file.records)
        if unit.action == "WRITE" or unit.action == "READWRITE" and self.maybe(0.85 if at_end else 0.2):
            items = self.output(5, plain=False)
            self.say_transfer("WRITE", unit, [], None, items)
            return file.put([Record(letters=letters_of(items.parts))])
        if at_end:
            places = self.rng.sample(self.variables.free(), min(1, len(self.variables.free())))
            self.say_transfer("READ", unit, [], None, Items(places), "end of file", [(place, None) for place in places])
            file.ended = True
            return None
        letters = file.records[file.at].letters
        reads, taken = self.read_bytes(letters)
        more = [place for place in self.variables.free() if place not in [it for it, _ in reads] and taken + place.bytes() > len(letters)]
        if more and self.maybe(0.08):
            reads.append((more[0], None))
            self.say_transfer("READ", unit, [], None, Items([place for place, _ in reads]), "an error", reads)
            return self.motion(unit, "REWIND")
        self.say_transfer("READ", unit, [], None, Items([place for place, _ in reads]), reads=reads)
        return file.skip()

    def numbered(self, unit):
        """A transfer of direct access."""
        file, known = unit.file, sorted(unit.file.records)
        if unit.action == "WRITE" or unit.action == "READWRITE" and self.maybe(0.4 if known else 0.9):
            return self.write_formatted(unit) if unit.form == "FORMATTED" else self.write_unformatted(unit)
        if not known or self.maybe(0.12):
            number = self.rng.choice([max(known, default=0) + self.rng.randint(1, 5), 0, -3])
            places = self.rng.sample(self.variables.free(), min(1, len(self.variables.free())))
            form = "'(" + ",".join({"C": "A", "L": "L1"}.get(place.kind, "I3") for place in places) + ")'" if unit.form == "FORMATTED" else None
            return self.say_transfer("READ", unit, [f"REC={self.operand(number)}"], form, Items(places), "an error", [(place, None) for place in places])
        number = self.rng.choice(known)
        texts, form, last = [], None, number
        if unit.form == "FORMATTED":
            reads = []
            self.read_pieces(file.records[number].pieces, texts, reads, True)
            if number + 1 in known and not any(text[-1] == "X" or text[0] == "T" for text in texts) and self.maybe(0.3):
                texts.append("/")
                self.read_pieces(file.records[number + 1].pieces, texts, reads, False)
                last += 1
            form = quoted(f"({','.join(texts)})")
        else:
            reads, _ = self.read_bytes(file.records[number].letters)
        self.say_transfer("READ", unit, [f"REC={self.operand(number)}"], form, Items([place for place, _ in reads]), reads=reads)
        file.next = last + 1
        return None

    def write_formatted(self, unit):
        """A WRITE of numbered records with a format, after or over those that are there."""
        file = unit.file
        items = self.output(3)
        text, records = format_out(self.rng, items.parts, unit.mode("SIGN") == "PLUS")
        widths = [sum(piece.width for piece in pieces) for pieces in records]
        if max(widths) > unit.recl:
            return None
        number = self.rng.randint(1, max(file.records, default=0) + 1)
        self.say_transfer("WRITE", unit, [f"REC={self.operand(number)}"], quoted(text), items)
        for at, pieces in enumerate(records):
            file.records[number + at] = Record(list(pieces) + [Piece(unit.recl - widths[at])])
        file.next = number + len(records)
        return None

    def write_unformatted(self, unit):
        """A WRITE of a numbered record without a format, also after a gap."""
        file = unit.file
        items = self.output(4, plain=False)
        letters = letters_of(items.parts)
        if len(letters) > unit.recl:
            return None
        most = max(file.records, default=0)
        number = self.rng.randint(1, most + self.rng.choice([1, 1, 3]))
        self.say_transfer("WRITE", unit, [f"REC={self.operand(number)}"], None, items)
        for missing in range(most + 1, number):
            file.records[missing] = Record(letters="x" * unit.recl)
        file.records[number] = Record(letters=letters + "x" * (unit.recl - len(letters)))
        file.next = number + 1
        return None

    def byte_stream(self, unit):
        """A transfer of a stream without a format."""
        file = unit.file
        start, specs = file.at, []
        if self.maybe(0.4):
            start = self.rng.randint(0, len(file.bytes))
            specs = [f"POS={self.operand(start + 1)}"]
        if unit.action == "WRITE" or unit.action == "READWRITE" and self.maybe(0.45):
            items = self.output(4, plain=False)
            self.say_transfer("WRITE", unit, specs, None, items)
            file.at = start
            return file.put(letters_of(items.parts))
        reads, taken = self.read_bytes(file.bytes[start:])
        more = [place for place in self.variables.free() if place not in [it for it, _ in reads] and start + taken + place.bytes() > len(file.bytes)]
        if more and self.maybe(0.1) or not reads:
            reads += [(place, None) for place in more[:1]]
            if reads:
                self.say_transfer("READ", unit, specs, None, Items([place for place, _ in reads]), "end of file", reads)
                self.motion(unit, "REWIND")
            return None
        self.say_transfer("READ", unit, specs, None, Items([place for place, _ in reads]), reads=reads)
        file.at = start + taken
        return None

    # what a connection is not for

    def behind_the_end(self, unit):
        """Behind the endfile record: a motion, or a transfer that is an error."""
        if self.maybe(0.6):
            return self.motion(unit, self.rng.choice(["BACKSPACE", "REWIND"] if unit.action != "WRITE" else ["REWIND"]))
        form = "'(A)'" if unit.form == "FORMATTED" else None
        texts = self.variables.free("C")
        if unit.action == "READ" or unit.action == "READWRITE" and self.maybe(0.4):
            if texts:
                self.say_transfer("READ", unit, [], form, Items(texts[:1]), "an error", [(texts[0], None)])
        else:
            self.say_transfer("WRITE", unit, [], form, self.output(2), "an error")
        return self.motion(unit, "REWIND")

    def misfit(self, unit):
        """A transfer that the connection is not for."""
        file = unit.file
        own, other = ("'(A)'", None) if unit.form == "FORMATTED" else (None, "'(A)'")
        rec = [f"REC={self.operand(1)}"] if unit.access == "DIRECT" else []
        kinds = [(rec, other)]
        if unit.access == "SEQUENTIAL":
            kinds += [(["REC=1"], own), (["POS=1"], own)]
        elif unit.access == "DIRECT":
            kinds += [([], own)]
        if unit.action == "READ":
            kinds += [(rec, own)] * 2
        specs, form = self.rng.choice(kinds)
        texts = self.variables.free("C")
        if unit.action == "READ" or unit.access == "DIRECT" or unit.access == "SEQUENTIAL" and not file.ended and file.at >= len(file.records):
            verb, items = "WRITE", self.output(2)
        elif unit.action == "READWRITE" and texts and (unit.access, unit.form) != ("STREAM", "FORMATTED") and not (isinstance(file, Records) and file.writing):
            verb, items = "READ", Items(texts[:1])
            texts[0].defined = False
        else:
            return self.leave("a transfer that a connection is not for, where gfortran changes the file")
        line = self.call(verb, unit.unit, specs + self.status("an error"), form, "\0")
        self.say(line.replace("\0", ", ".join(items.texts)), line.replace("\0", ", ".join(items.theirs)))
        self.settle(unit)
        if unit.access != "DIRECT":
            self.motion(unit, "REWIND")

    def transfer(self, unit):
        """A READ or a WRITE that goes with what stands in the file."""
        file = unit.file
        if self.maybe(0.05):
            return self.misfit(unit)
        if unit.access == "DIRECT":
            return self.numbered(unit)
        if isinstance(file, Bytes):
            return self.byte_stream(unit)
        if unit.form == "UNFORMATTED":
            return self.frames(unit)
        if file.ended and unit.access == "SEQUENTIAL":
            return self.behind_the_end(unit)
        at_end = file.writing or file.at >= len(file.records)
        if unit.access == "STREAM" and not at_end and self.maybe(0.1):
            return self.motion(unit, "REWIND")
        if file.inside is not None or unit.action == "READ" or unit.action == "READWRITE" and self.maybe(0.12 if at_end else 0.85):
            if unit.action == "WRITE":
                return None
            return self.read_from(unit) if unit.access == "STREAM" and not file.writing and self.maybe(0.3) else self.read_records(unit)
        if unit.access == "SEQUENTIAL" and unit.action == "READWRITE" and not file.writing and self.maybe(0.05):
            return self.read_badly(unit)
        return self.write_records(unit)
