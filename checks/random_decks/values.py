"""Variables of random decks, the fields in which they are written, and formats with the records that they leave."""
import dataclasses

BYTES = {"I4": 4, "I8": 8, "L": 4}
MOST = {"I4": 11, "I8": 20}
DIGITS = {"I4": {"Z": 8, "O": 11, "B": 32}, "I8": {"Z": 16, "O": 22, "B": 64}}
TYPES = {"I4": "INTEGER", "I8": "INTEGER(8)", "L": "LOGICAL", "C": "CHARACTER({})"}
# name, kind, number of elements; the lengths of characters are drawn
DECLARED = [("A", "I4", 0), ("B", "I4", 0), ("V", "I4", 4), ("K", "I8", 0), ("W", "I8", 3), ("P", "L", 0), ("Q", "L", 2),
            ("C", "C", 0), ("D", "C", 2), ("E", "C", 0)]
GROUPS = {"G": ["A", "W", "D", "P"], "H": ["C", "V", "Q"]}
WORDS = ["a", "abc", "hello", "x y z", "  lead", "it's", 'say "no"', "A1;B2,", "back\\slash", "3*4", "/", "&g", "!", "tail  ", "Fortran 2003"]
STRINGS = ["x", " ", "ab", "=>", "1 ", "it''s", "(/)"]


@dataclasses.dataclass(eq=False)
class Place:
    """A variable, an element or a literal. `chars` is the most characters that its value takes under I0, and `plain` says that its bytes
    are printable. It is `held` "in" or "out" while an input or an output of it is pending."""

    text: str
    kind: str
    length: int = 0
    chars: int = 0
    plain: bool = True
    defined: bool = True
    held: str = ""
    theirs: str = ""

    def bytes(self):
        return BYTES.get(self.kind, self.length)


@dataclasses.dataclass
class Piece:
    """A field of a record with the descriptor by which it is read, or characters that no item is read from."""

    width: int
    kind: str = ""
    edit: str = ""
    chars: int = 0

    def is_for(self, place):
        """Whether what stands there is a value of the place."""
        if self.kind == "I8" and place.kind == "I4":
            return self.edit[0] in "IG" and self.chars <= 9
        return self.kind == place.kind or (self.kind == "I4" and place.kind == "I8" and self.edit[0] in "IG")


def quoted(text, mark="'"):
    return mark + text.replace(mark, 2 * mark) + mark


def literal(rng, kind=None, most=99999):
    """A literal of a kind, or of any, as a place without a name."""
    kind = kind or rng.choice(["I4", "I4", "I8", "L", "C", "C"])
    if kind == "L":
        text = rng.choice([".TRUE.", ".FALSE."])
        return Place(text, kind, theirs=text)
    if kind == "C":
        text = rng.choice(WORDS)
        written = quoted(text, rng.choice("'\""))
        return Place(written, kind, len(text), theirs=written)
    if kind == "I8":
        number = rng.choice([-1, 1]) * rng.randint(2**31 + 1, 2**63 - 1)
        return Place(str(number), kind, chars=len(str(number)), theirs=f"{number}_8")
    number = rng.choice([rng.randint(-9, 9), rng.randint(-most, most), 0, rng.randint(0, 999)])
    return Place(str(number), kind, chars=len(str(number)), theirs=str(number))


class Variables:
    """The variables of a deck."""

    def __init__(self, rng):
        self.arrays, self.declared = {}, []
        for name, kind, count in DECLARED:
            length = rng.choice([1, 2, 3, 5, 8, 12]) if kind == "C" else 0
            texts = [f"{name}({at})" for at in range(1, count + 1)] or [name]
            self.arrays[name] = [Place(text, kind, length, theirs=text, defined=False) for text in texts]
            self.declared.append((TYPES[kind].format(length), name, count))
        self.all = [place for places in self.arrays.values() for place in places]

    def free(self, kind=None):
        """The places that a statement may define."""
        return [place for place in self.all if not place.held and kind in (None, place.kind)]

    def known(self):
        """The places that a statement may reference."""
        return [place for place in self.all if place.defined and place.held != "in"]

    def group(self, name):
        return [place for member in GROUPS[name] for place in self.arrays[member]]


def assigned(rng, place):
    """A literal for a place, which then has it."""
    if place.kind == "I8" and rng.random() < 0.5:
        value = literal(rng, "I4", 99999999)
    else:
        value = literal(rng, place.kind)
    if place.kind == "I4" and rng.random() < 0.05:
        number = rng.choice([2147483647, -2147483647, -2147483648])
        value = Place(str(number), "I4", chars=len(str(number)), theirs=f"{number}_8")
    place.defined, place.plain, place.chars = True, True, value.chars
    return value


def integer_field(rng, part, plus):
    """A descriptor under which an integer fits, and its field."""
    if rng.random() < 0.2:
        letter = rng.choice("ZOB")
        width = DIGITS[part.kind][letter] + rng.randint(0, 2)
        least = f".{rng.randint(part.kind == 'I8', width)}" if rng.random() < 0.3 else ""
        return f"{letter}{width}{least}", Piece(width, part.kind, f"{letter}{width}", part.chars)
    width = part.chars + plus + rng.randint(0, 3)
    if rng.random() < 0.15:
        text = f"G{width}.{rng.randint(0, 4)}{rng.choice(['', '', 'E2'])}"
        return text, Piece(width, part.kind, text, part.chars)
    least = f".{rng.randint(0, width - 1)}" if rng.random() < 0.25 else ""
    return f"I{width}{least}", Piece(width, part.kind, f"I{width}", part.chars)


def field_out(rng, part, plus):
    """A descriptor under which a value fits, and its field."""
    if part.kind in MOST:
        return integer_field(rng, part, plus)
    width = rng.randint(1, 5) if part.kind == "L" else max(part.length + rng.randint(-3, 4), 1)
    if rng.random() < 0.15:
        text = f"G{width}.{rng.randint(0, 3)}"
        return text, Piece(width, part.kind, text)
    if part.kind == "C" and rng.random() < 0.4:
        return "A", Piece(part.length, "C", f"A{part.length}")
    text = ("L" if part.kind == "L" else "A") + str(width)
    return text, Piece(width, part.kind, text)


class Format:
    """Descriptors one after another, and the records that they leave."""

    def __init__(self, rng, moves):
        self.rng, self.moves, self.entries, self.records = rng, moves, [], [[]]

    def add(self, text, piece=None):
        """A descriptor, with a repeat count where it stood there before."""
        if piece:
            self.records[-1].append(piece)
        if piece and piece.kind and self.entries and self.entries[-1][1] == text and self.rng.random() < 0.7:
            self.entries[-1][0] += 1
        else:
            self.entries.append([1, text])

    def gap(self):
        """Characters before a field: a string, or a move; no move stands after a move."""
        width = self.rng.randint(1, 4)
        column = sum(piece.width for piece in self.records[-1])
        string = self.rng.choice(STRINGS)
        choice = self.rng.random()
        if choice < 0.4 or not self.moves:
            self.add(quoted(string.replace("''", "'"), self.rng.choice("'\"")), Piece(len(string.replace("''", "'"))))
        elif choice < 0.6:
            self.add(f"T{column + width + 1}", Piece(width))
        else:
            self.add(self.rng.choice([f"{width}X", f"TR{width}"]), Piece(width))

    def text(self):
        """Its text, in parentheses, with blanks and small letters here and there."""
        parts = [f"{count}{text}" if count > 1 else text for count, text in self.entries]
        if self.rng.random() < 0.1:
            parts = [part if "'" in part or '"' in part else part.lower() for part in parts]
        return "(" + self.rng.choice([",", ",", ",", " , "]).join(parts) + ")"


def alike(parts):
    return len(parts) > 2 and len({(part.kind, part.length) for part in parts}) == 1


def again(rng, parts, plus):
    """A format that goes on from its start or from a group, for parts of one kind."""
    widest = max(parts, key=lambda part: part.chars)
    text, piece = field_out(rng, widest, plus)
    each, first = rng.randint(1, len(parts)), rng.randint(0, 1)
    gap = rng.choice([0, 1, 2])
    move = f"{gap}X," if gap else ""
    records, at = [], 0
    while at < len(parts):
        count = min(each + (first if at == 0 else 0), len(parts) - at)
        front = [piece] if first and at == 0 else []
        records.append(front + [it for _ in range(count - len(front)) for it in ([Piece(gap)] if gap else []) + [piece]])
        at += count
    group = f"{each}({move}{text})" if gap or first else f"{each}{text}"
    return f"({text},{group})" if first else f"({group})", records


def format_out(rng, parts, plus, moves=True, ends=True):
    """A format for these parts, with moves or without, and its records, of which the last one ends or stays open."""
    if alike(parts) and moves and ends and rng.random() < 0.35:
        return again(rng, parts, plus)
    form = Format(rng, moves)
    if rng.random() < 0.1:
        form.add("SP")
        plus = 1
    for at, part in enumerate(parts):
        if at and rng.random() < 0.12:
            slashes = rng.choice([1, 1, 1, 2])
            form.add("/" if slashes == 1 else "2/")
            form.records += [[] for _ in range(slashes)]
        if rng.random() < 0.3:
            form.gap()
        if rng.random() < 0.05:
            form.add(rng.choice(["S" if plus == 0 else "SP", ":", "BZ", "BN"]))
        form.add(*field_out(rng, part, plus))
    if rng.random() < 0.1:
        form.add(quoted(rng.choice(["|", "end"])), Piece(0))
        form.records[-1][-1].width = len(form.entries[-1][1]) - 2
    return form.text(), form.records
