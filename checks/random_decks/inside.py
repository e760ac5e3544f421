"""READ and WRITE of random decks on internal files: an array of characters whose elements are records."""
from .files import Record
from .texts import list_text
from .transfers import Items
from .values import Piece, format_out, quoted

NAME, MOST = "F", 3


class Inside:
    """What a deck has for internal files. `inside` has what stands in each element, or none where it is undefined."""

    def begin_inside(self):
        self.inside, self.inside_width = [None] * MOST, self.rng.choice([40, 60, 120])

    def inside_declared(self):
        return [(f"CHARACTER({self.inside_width})", NAME, MOST)]

    def say_inside(self, verb, name, specs, form, items, reads=()):
        line = self.call(verb, name, specs + self.status(), form, "\0" if items.texts else "")
        self.say(line.replace("\0", ", ".join(items.texts)), line.replace("\0", ", ".join(items.theirs)))
        for place, after in reads:
            place.defined, place.chars, place.plain = after

    def transfer_inside(self):
        """A WRITE, or a READ where something can be read."""
        known = [at for at, record in enumerate(self.inside) if record]
        if known and self.maybe(0.5):
            return self.read_inside(known)
        if self.maybe(0.25):
            return self.assign_inside()
        return self.write_inside()

    def part(self, at):
        """One element as a file, by its name."""
        return f"{NAME}({at + 1})"

    def write_inside(self):
        """Records from the first element on."""
        specs, modes = self.changed(None, ["SIGN"])
        items = self.output(5)
        text, records = format_out(self.rng, items.parts, modes["SIGN"] == "PLUS")
        at = self.rng.randrange(MOST) if len(records) == 1 and self.maybe(0.5) else None
        if len(records) > MOST or any(sum(piece.width for piece in record) > self.inside_width for record in records):
            return self.leave("more records than elements, or a longer one, in an internal file")
        self.say_inside("WRITE", NAME if at is None else self.part(at), specs, quoted(text), items)
        for number, pieces in enumerate(records, at or 0):
            self.inside[number] = Record(list(pieces))

    def assign_inside(self):
        """A record that list-directed input reads."""
        text, listed, slash, comma = list_text(self.rng)
        if len(text) > self.inside_width:
            return
        at = self.rng.randrange(MOST)
        self.say(f"{self.part(at)} = {quoted(text)}")
        self.inside[at] = Record([Piece(len(text), "C", f"A{len(text)}")], listed=listed, slash=slash, comma=comma)

    def read_inside(self, known):
        """Fields of one element, or of elements from the first on where all are defined; or the list in one. No T or TL: gfortran counts a field
        short whose blanks it drops."""
        at = self.rng.choice(known)
        if self.inside[at].listed and self.maybe(0.8):
            return self.read_list_inside(at)
        whole = len(known) == MOST and self.maybe(0.6)
        records = self.inside if whole else [self.inside[at]]
        specs, texts, reads = self.changed(None, ["BLANK", "PAD", "DECIMAL"])[0], [], []
        for number, record in enumerate(records[: self.rng.randint(1, len(records))]):
            if number:
                texts.append("/")
            self.read_pieces(record.pieces, texts, reads, False)
        if self.cuts_characters(texts, reads):
            return self.leave("A of more characters than the item has, in a READ of an internal file, where gfortran drops blanks at the end")
        if reads:
            places = [place for place, _ in reads]
            self.say_inside("READ", NAME if whole else self.part(at), specs, quoted(f"({','.join(texts)})"), Items(places), reads)

    def cuts_characters(self, texts, reads):
        """Whether a field has more characters than its item."""
        edits = [text for text in texts if text[0] in "IBOZLAG"]
        return any(place.kind == "C" and float(edit[1:] or 0) >= place.length + 1 for edit, (place, _) in zip(edits, reads))

    def read_list_inside(self, at):
        """List-directed input of values of one element."""
        record, reads = self.inside[at], []
        self.list_places(record.listed[: self.rng.randint(1, len(record.listed))], reads)
        if reads:
            specs = [f"DECIMAL={self.word('COMMA')}"] if record.comma else []
            self.say_inside("READ", self.part(at), specs, "*", Items([place for place, _ in reads]), reads)
