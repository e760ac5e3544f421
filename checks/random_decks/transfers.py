"""READ and WRITE of random decks: items, and records with a format."""
from .files import Record
from .texts import group_text, list_text, number_text
from .values import GROUPS, Piece, format_out, literal, quoted

PADDED = {"I4": 11, "I8": 20, "L": 1}


class Items:
    """The items of a statement: their texts in both languages, and their places and literals in order."""

    def __init__(self, places=()):
        self.texts, self.theirs, self.parts = [], [], []
        for place in places:
            self.add(place.text, place.theirs, [place])

    def add(self, text, theirs, parts):
        self.texts.append(text)
        self.theirs.append(theirs)
        self.parts += parts


class Transfers:
    """What a deck has for transfers with a format."""

    def output(self, most, plain=True, width=10**6):
        """Items of a WRITE, which list-directed output has within a width."""
        known = [place for place in self.variables.known() if place.plain or not plain]
        arrays = [(name, places) for name, places in self.variables.arrays.items() if len(places) > 1 and all(it in known for it in places)]
        items = Items()
        for _ in range(self.rng.randint(1, most)):
            choice = self.rng.random()
            if choice < 0.15 and arrays:
                text, parts = self.rng.choice(arrays)
                theirs = text
            else:
                parts = [literal(self.rng) if choice < 0.4 or not known else self.rng.choice(known)]
                text, theirs = parts[0].text, parts[0].theirs
            width -= sum(PADDED.get(part.kind, part.length + 2) + 1 for part in parts)
            if width > 0 or not items.parts:
                items.add(text, theirs, parts)
        return items

    def say_transfer(self, verb, unit, specs, form, items, due="fine", reads=()):
        """The statement, at times pending; in Fortran it is carried out at once, as 9.5.1.4 allows. `reads` are the places that a READ defines, each with what it is afterwards."""
        held = [place for place, _ in reads] if verb == "READ" else [part for part in items.parts if part in self.variables.all]
        pends = unit is not None and unit.asynchronous and self.maybe(0.6)
        number, there = unit.unit if unit else "*", "\0" if items.texts else ""
        if pends:
            self.leave("that a transfer is pending in Fortran too")
            identifier = self.fresh("J") if self.maybe(0.7) else ""
            caught = self.status(chance=0.3)
            named = [f"ASYNCHRONOUS={self.word('YES')}"] + ([f"ID={identifier}"] if identifier else [])
            line = self.call(verb, number, specs + named + caught, form, there)
            fine = due == "fine"
            theirs = self.call(verb, number, specs + caught, form, there) if fine else "".join(caught)[7:] + " = 0" * len(caught)
        else:
            specs = specs + ([f"ASYNCHRONOUS={self.word('NO')}"] if self.maybe(0.05) else [])
            line = theirs = self.call(verb, number, specs + self.status(due), form, there)
        self.say(line.replace("\0", ", ".join(items.texts)), theirs.replace("\0", ", ".join(items.theirs)))
        if pends:
            unit.pending.append(("in" if verb == "READ" else "out", identifier, held))
            self.hold()
        elif unit:
            self.settle(unit)
        for place, after in reads:
            place.defined, place.chars, place.plain = after if due in ("fine", "end of record") else (False, 0, True)
        if pends and due != "fine":
            caught = self.status(due)
            self.say(self.call("WAIT", number, caught), self.call(verb, number, specs + caught, form, there).replace("\0", ", ".join(items.theirs)))
            self.settle(unit)

    def changed(self, unit, names):
        """Modes of one statement, each a specifier, and the modes that are then in effect."""
        given = self.modes(names, 0.12)
        specs = [f"{name}={self.word(value)}" for name, value in given.items()]
        return specs, {name: given.get(name, unit.mode(name) if unit else unit) for name in names}

    # records that are written

    def end_star(self):
        """Ends an open record of unit *."""
        if self.star_open:
            self.say("WRITE(*,'()')")
            self.star_open = False

    def write_star(self):
        """A WRITE on unit *."""
        specs, modes = self.changed(None, ["SIGN", "DELIM"])
        if self.star_listed and self.maybe(0.5):
            known = all(place.defined and place.held != "in" and place.plain for place in self.variables.group("G"))
            if known and not self.star_open and self.maybe(0.3):
                delim = [f"DELIM={self.word('QUOTE')}"]
                self.say_transfer("WRITE", None, delim + [spec for spec in specs if "SIGN" in spec] + ["NML=G"], None, Items())
            else:
                self.say_transfer("WRITE", None, specs, "*", self.output(4, width=76))
            self.star_open = False
            return
        items = self.output(5)
        stays = self.maybe(0.25)
        text, _ = format_out(self.rng, items.parts, modes["SIGN"] == "PLUS", ends=not stays)
        advance = [f"ADVANCE={self.word('NO' if stays else 'YES')}"] if stays or self.maybe(0.1) else []
        self.say_transfer("WRITE", None, [spec for spec in specs if "SIGN" in spec] + advance, quoted(text), items)
        self.star_open = stays

    def write_records(self, unit):
        """A WRITE of one or more records."""
        choice = self.rng.random()
        if choice < 0.12 and not unit.file.writing:
            return self.write_list_text(unit)
        if choice < 0.2 and not unit.file.writing:
            return self.write_group_text(unit)
        if choice < 0.28 and not unit.file.writing:
            return self.write_numbers(unit)
        if not unit.exact and choice < 0.5:
            return self.write_listed(unit)
        return self.write_fields(unit)

    def place_of_write(self, unit):
        """POS= at the start of a record, where the unit is a stream: at times, and always where something stands after."""
        file = unit.file
        if unit.access != "STREAM" or file.writing or file.at == len(file.records) and not self.maybe(0.25):
            return []
        file.at = self.rng.randint(0, len(file.records))
        return [f"POS={self.operand(file.offset(file.at) + 1)}"]

    def write_fields(self, unit):
        specs, modes = self.changed(unit, ["SIGN"])
        items = self.output(5)
        if self.maybe(0.04):
            items = Items()
        where = self.place_of_write(unit)
        at_end = unit.file.writing or unit.file.at == len(unit.file.records)
        if unit.access == "STREAM" or unit.file.short:
            self.leave("moves in the format of a stream, or after the end of a record or a list")
        stays = self.maybe(0.2) and bool(items.parts) and (unit.access != "STREAM" or at_end)
        moves, plus = unit.access != "STREAM" and not unit.file.short, modes["SIGN"] == "PLUS"
        text, records = format_out(self.rng, items.parts, plus, moves, not stays) if items.parts else ("()", [[]])
        advance = [f"ADVANCE={self.word('NO' if stays else 'YES')}"] if stays or self.maybe(0.1) else []
        self.say_transfer("WRITE", unit, specs + advance + where, quoted(text), items)
        unit.file.put([Record(list(pieces)) for pieces in records], stays)

    def end_record(self, unit, access="STREAM"):
        """Ends the open record of a stream by a WRITE, since gfortran's other statements do not."""
        if unit.access == access and unit.form == "FORMATTED" and unit.file.writing:
            self.leave("an open record of a stream that no WRITE ends, or of any unit where the deck stops")
            self.say_transfer("WRITE", unit, [], "'()'", Items())
            unit.file.put([Record([])])

    def write_texts(self, unit, texts, records):
        """A WRITE of whole records as literals."""
        items = Items()
        for text in texts:
            written = quoted(text)
            items.add(written, written, [Piece(0)])
        self.say_transfer("WRITE", unit, self.place_of_write(unit), "'(A)'", items)
        unit.file.put(records)

    def write_list_text(self, unit):
        text, listed, slash, comma = list_text(self.rng)
        record = Record([Piece(len(text), "C", f"A{len(text)}")], listed=listed, slash=slash, comma=comma)
        self.write_texts(unit, [text], [record])

    def write_group_text(self, unit):
        name = self.rng.choice(sorted(GROUPS))
        texts, given = group_text(self.rng, name, self.variables.arrays)
        records = [Record([Piece(len(text), "C", f"A{len(text)}")]) for text in texts]
        records[0].group = (name, records, given)
        self.write_texts(unit, texts, records)

    def write_numbers(self, unit):
        text, chars = number_text(self.rng)
        self.write_texts(unit, [text], [Record([Piece(len(text), "I4", f"I{len(text)}", chars)])])

    def write_listed(self, unit):
        """A list or a group, whose records are a processor's own."""
        specs, modes = self.changed(unit, ["SIGN", "DELIM", "DECIMAL"])
        name = self.rng.choice(sorted(GROUPS))
        group = self.variables.group(name)
        writing = unit.file.writing
        if not writing and self.maybe(0.4) and all(place in self.variables.known() and place.plain for place in group):
            items = Items()
            items.parts = list(group)
            if modes["DELIM"] == "NONE":
                self.leave("namelist output under DELIM='NONE'")
                specs = [spec for spec in specs if "DELIM" not in spec] + [f"DELIM={self.word('QUOTE')}"]
            self.say_transfer("WRITE", unit, specs + [f"NML={name}"], None, items)
            records = [Record(comma=modes["DECIMAL"] == "COMMA") for _ in range(len(GROUPS[name]) + 2)]
            records[0].group = (name, records, {place: place.chars for place in group})
            return unit.file.put(records)
        if writing and (unit.file.records[-1].pieces is None or unit.file.records[-1].width() > 10):
            return self.write_fields(unit)
        items = self.output(4, width=60)
        self.say_transfer("WRITE", unit, specs, "*", items)
        listed = [(part.kind, part.chars) for part in items.parts]
        if modes["DELIM"] == "NONE":
            listed = listed[: next((at for at, (kind, _) in enumerate(listed) if kind == "C"), len(listed))]
        return unit.file.put([Record(None, listed=None if writing else listed, more=len(listed) < len(items.parts))])
