"""OPEN and CLOSE of random decks."""
import re

from .files import Bytes, Connection, Left, Numbered, Records

UNITS = [7, 10, 11, 12]
NAMES = ["one.txt", "two", "F3", "x_4-y"]
MODES = {"PAD": ["YES", "YES", "YES", "NO"], "DECIMAL": ["POINT", "COMMA"], "DELIM": ["APOSTROPHE", "QUOTE", "NONE"], "BLANK": ["NULL", "ZERO"],
         "SIGN": ["PLUS", "SUPPRESS"]}
PENDS = re.compile(r"""ASYNCHRONOUS=(?:'YES ?'|"YES ?"),|,ASYNCHRONOUS=(?:'YES ?'|"YES ?")""", re.I)


class Connections:
    """What a deck has for units and their files."""

    def modes(self, names, chance):
        """Some modes, each a name with its word."""
        return {name: self.rng.choice(MODES[name]) for name in names if self.maybe(chance)}

    def open(self, unit=None):
        """OPEN of a file that is there, of a new one, or of none; of a connected unit it closes the other file first."""
        taken = [other.name for other in self.units.values()]
        if unit is None:
            unit = self.rng.choice([it for it in UNITS if it not in self.units])
        name = self.rng.choice([it for it in [*NAMES, f"fort.{unit}"] if it not in taken])
        was = unit in self.units
        if was:
            self.closed(self.units[unit])
        left = self.files.get(name)
        if self.maybe(0.06):
            self.say(self.call("OPEN", unit, [f"FILE='{name}'"] + [f"STATUS={self.word('NEW' if left else 'OLD')}"] + self.status("an error")))
        elif left and self.maybe(0.7):
            self.open_again(unit, name, left, was)
        else:
            self.open_new(unit, name, left, was)

    def named(self, name, was):
        """FILE=, which a unit that was not connected may leave out for the name that it has of its own."""
        return [] if not was and name.startswith("fort.") and self.maybe(0.7) else [f"FILE='{name}'"]

    def connect(self, made, specs):
        """The statement that connects a unit, with the specifiers that it may leave out."""
        if made.access != "SEQUENTIAL" or self.maybe(0.2):
            specs.append(f"ACCESS={self.word(made.access)}")
        if (made.form == "FORMATTED") != (made.access == "SEQUENTIAL") or self.maybe(0.2):
            specs.append(f"FORM={self.word(made.form)}")
        if made.asynchronous or self.maybe(0.1):
            specs.append(f"ASYNCHRONOUS={self.word('YES' if made.asynchronous else 'NO')}")
        if made.access == "DIRECT":
            specs.append(f"RECL={made.recl}")
        elif made.form == "FORMATTED" and made.access == "SEQUENTIAL" and self.maybe(0.1):
            specs.append("RECL=5000")
            made.recl = 5000
        if made.form == "FORMATTED":
            made.modes = self.modes(MODES, 0.2)
            specs += [f"{name}={self.word(value)}" for name, value in made.modes.items()]
        self.units[made.unit] = made
        line = self.call("OPEN", made.unit, specs + self.status())
        self.say(line, PENDS.sub("", line))

    def open_new(self, unit, name, left, was):
        access, form = self.rng.choice([("SEQUENTIAL", "FORMATTED")] * 5 + [("SEQUENTIAL", "UNFORMATTED"), ("DIRECT", "FORMATTED"), ("DIRECT", "UNFORMATTED"),
                                        ("STREAM", "FORMATTED"), ("STREAM", "UNFORMATTED")])
        made = Connection(unit, name, access, form, asynchronous=self.maybe(0.35), exact=form == "UNFORMATTED" or self.maybe(0.6))
        made.exact = made.exact or access != "SEQUENTIAL"
        made.recl = self.rng.choice([8, 20, 40]) if access == "DIRECT" else 0
        made.file = Numbered(made.recl) if access == "DIRECT" else Bytes() if (access, form) == ("STREAM", "UNFORMATTED") else Records()
        if not was and self.maybe(0.2):
            made.name = ""
            specs = [f"STATUS={self.word('SCRATCH')}"]
        else:
            self.files.pop(name, None)
            if not left and self.maybe(0.3):
                specs = self.named(name, was) + self.rng.choice([[], [f"STATUS={self.word('UNKNOWN')}"]])
            else:
                specs = [f"FILE='{name}'", f"STATUS={self.word('REPLACE' if left or self.maybe(0.5) else 'NEW')}"]
        if self.maybe(0.1):
            specs.append(f"ACTION={self.word('READWRITE')}")
        if access == "SEQUENTIAL" and self.maybe(0.1):
            specs.append(f"POSITION={self.word(self.rng.choice(['ASIS', 'REWIND', 'APPEND']))}")
        self.connect(made, specs)

    def open_again(self, unit, name, left, was):
        """Connects a file that is there, in the access that it was written in or as a stream."""
        del self.files[name]
        made = Connection(unit, name, left.access, left.form, asynchronous=self.maybe(0.35), exact=left.exact, recl=left.recl if left.access == "DIRECT" else 0)
        content = left.file
        if left.exact and self.maybe(0.25):
            made.access, made.form, made.recl, content = "STREAM", "UNFORMATTED", 0, Bytes(content.letters())
        elif isinstance(content, Records) and left.form == "FORMATTED" and left.exact:
            made.access = self.rng.choice(["SEQUENTIAL", "SEQUENTIAL", "STREAM"])
        specs = self.named(name, was) + self.rng.choice([[f"STATUS={self.word('OLD')}"], [f"STATUS={self.word('UNKNOWN')}"], []])
        made.file = content
        if isinstance(content, Records):
            content.rewind()
        elif isinstance(content, Numbered):
            content.next = 1
        else:
            content.at = 0
        if made.access != "DIRECT" and self.maybe(0.35):
            start = self.rng.choice(["APPEND", "APPEND", "REWIND"])
            specs.append(f"POSITION={self.word(start)}")
            if start == "APPEND" and isinstance(content, Records):
                content.at = len(content.records)
            elif start == "APPEND":
                content.at = len(content.bytes)
        if self.maybe(0.3):
            made.action = self.rng.choice(["READ", "READ", "WRITE", "READWRITE"])
            specs.append(f"ACTION={self.word(made.action)}")
        self.connect(made, specs)

    def reopen(self, unit):
        """OPEN of a connected unit that changes modes, or that asks for what may not be changed."""
        specs = [f"FILE='{unit.name}'"] if unit.name and self.maybe(0.5) else []
        if self.maybe(0.3):
            other = {"ACCESS": "DIRECT" if unit.access != "DIRECT" else "SEQUENTIAL", "FORM": "UNFORMATTED" if unit.form == "FORMATTED" else "FORMATTED"}
            name = self.rng.choice(sorted(other))
            specs += [f"{name}={self.word(other[name])}"] + (["RECL=9"] if other[name] == "DIRECT" else []) + self.status("an error")
        else:
            changed = self.modes(MODES, 0.3) if unit.form == "FORMATTED" else {}
            unit.modes.update(changed)
            specs += [f"{name}={self.word(value)}" for name, value in changed.items()]
            specs += [f"STATUS={self.word('OLD')}"] if self.maybe(0.3) and unit.name else []
            specs += self.status()
        self.say(self.call("OPEN", unit.unit, specs))
        self.settle(unit)

    def close(self, unit):
        """CLOSE; a scratch file goes."""
        self.end_record(unit)
        deletes = self.maybe(0.2)
        specs = [f"STATUS={self.word('DELETE')}"] if deletes else [f"STATUS={self.word('KEEP')}"] if unit.name and self.maybe(0.3) else []
        if unit.is_scratch() and not deletes and self.maybe(0.2):
            self.say(self.call("CLOSE", unit.unit, [f"STATUS={self.word('KEEP')}"] + self.status("an error")))
        self.say(self.call("CLOSE", unit.unit, specs + self.status()))
        self.closed(unit, deletes)

    def closed(self, unit, deletes=False):
        self.settle(unit)
        del self.units[unit.unit]
        if isinstance(unit.file, Records):
            unit.file.finish()
        if unit.name and not deletes:
            self.files[unit.name] = Left(unit.access, unit.form, unit.file, unit.exact, unit.recl)
