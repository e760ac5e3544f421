"""Random decks beside the same statements in Fortran, with what a small model says of each IOSTAT=."""
import collections
import re

from .connections import NAMES, UNITS, Connections
from .files import Bytes, Records
from .inside import Inside
from .reads import Reads
from .transfers import Transfers
from .unformatted import Unformatted
from .values import GROUPS, Variables, assigned

# answers that both give, by what the unit has: questions with T for a truth value, N for a number, C for a word
OF_EACH = [("EXIST", "T"), ("OPENED", "T"), ("NUMBER", "N"), ("NAMED", "T"), ("ACCESS", "C"), ("FORM", "C"), ("ACTION", "C")]
OF_TEXT = [("BLANK", "C"), ("DELIM", "C"), ("PAD", "C"), ("DECIMAL", "C")]
OF_NONE = [("EXIST", "T"), ("OPENED", "T"), ("NAMED", "T"), ("NUMBER", "N"), ("ACCESS", "C"), ("FORM", "C")]
BLANK_BEHIND = re.compile(r"""(ADVANCE|ASYNCHRONOUS)=(['"])(\w+) \2""")
ANSWERS = {"T": "Y", "N": "M", "C": "Z"}


class Deck(Connections, Transfers, Reads, Unformatted, Inside):
    """A deck in the making. `lines` are its statements, each in the deck's words and in Fortran's. The model says what each IOSTAT= is
    (`due`) and each SIZE= of a READ (`counts`), and whether the last statement stops the deck. Those of `own` gfortran counts otherwise, and
    `left_out` has what was not made because it does otherwise (docs/DECISIONS.md)."""

    def __init__(self, rng):
        self.rng, self.lines, self.due, self.used = rng, [], {}, {}
        self.units, self.files, self.star_listed = {}, {}, rng.random() < 0.2
        self.counts, self.own, self.left_out = {}, set(), collections.Counter()
        self.star_open, self.catches, self.stopped = False, True, False
        self.variables = Variables(rng)
        self.begin_inside()
        for name, places in self.variables.arrays.items():
            if len(places) > 1 and self.maybe(0.5):
                value = assigned(rng, places[0])
                for place in places:
                    place.defined, place.chars = True, value.chars
                self.say(f"{name} = {value.text}", f"{name} = {value.theirs}")
            else:
                for place in places:
                    self.assign(place)

    def maybe(self, chance):
        return self.rng.random() < chance

    def leave(self, what):
        """Notes that a statement was not made, or not compared."""
        self.left_out[what] += 1

    def say(self, text, theirs=None):
        """A statement; the compiler gfortran takes no blank at the end of these words, though its library does (9.5.1)."""
        self.lines.append((text, BLANK_BEHIND.sub(r"\1=\2\3\2", text if theirs is None else theirs)))

    def fresh(self, name):
        """The next element of an array of which each is used once."""
        self.used[name] = self.used.get(name, 0) + 1
        return f"{name}({self.used[name]})"

    def status(self, due="fine", chance=0.6):
        """IOSTAT= where a condition is due, and at times elsewhere."""
        if due == "fine" and not self.maybe(chance):
            return []
        if not self.catches:
            self.stopped = self.stopped or due != "fine"
            return []
        place = self.fresh("S")
        self.due[place] = due
        return [f"IOSTAT={place}"]

    def operand(self, number):
        """A literal, or an element that has this value."""
        if number > 0 and self.maybe(0.6):
            return str(number)
        place = self.fresh("R")
        self.say(f"{place} = {number}")
        return place

    def word(self, text):
        text = self.rng.choice([text, text, text, text.lower(), text + " "])
        return self.rng.choice([f"'{text}'", f"'{text}'", f'"{text}"'])

    def call(self, verb, unit, specs, form=None, items=""):
        """A statement with its specifiers in any order."""
        specs = self.rng.sample(specs, len(specs))
        if unit != "*" and self.maybe(0.15):
            named = [f"UNIT={unit}"] + ([f"FMT={form}"] if form else []) + specs
            specs = self.rng.sample(named, len(named))
        else:
            specs = [str(unit)] + ([form] if form else []) + specs
        verb = verb if self.maybe(0.85) else verb.lower()
        return f"{verb}({','.join(specs)}){' ' if items else ''}{items}"

    def assign(self, place):
        same = [it for it in self.variables.known() if it.kind == place.kind and it.plain and it is not place]
        if place.defined and same and self.maybe(0.3):
            other = self.rng.choice(same)
            place.chars, place.plain = other.chars, True
            self.say(f"{place.text} = {other.text}")
        else:
            value = assigned(self.rng, place)
            self.say(f"{place.text} = {value.text}", f"{place.text} = {value.theirs}")

    # pending transfers

    def settle(self, unit, left=()):
        """The pending transfers of a unit are told, but for those that are left."""
        for _, _, places in unit.pending:
            for place in places:
                place.held = ""
        unit.pending = list(left)
        self.hold()

    def hold(self):
        """Marks the places of all pending transfers."""
        for way, _, places in [entry for unit in self.units.values() for entry in unit.pending]:
            for place in places:
                place.held = "in" if "in" in (way, place.held) else "out"

    def wait(self, unit):
        """WAIT for all, or for one transfer."""
        named = [entry for entry in unit.pending if entry[1]]
        if named and self.maybe(0.5):
            entry = self.rng.choice(named)
            caught = self.status()
            line = self.call("WAIT", unit.unit, [f"ID={entry[1]}"] + caught)
            self.say(line, self.call("WAIT", unit.unit, caught))
            self.settle(unit, [other for other in unit.pending if other is not entry])
        else:
            self.say(self.call("WAIT", unit.unit, self.status()))
            self.settle(unit)

    # the other statements

    def move(self, unit):
        """BACKSPACE, REWIND, ENDFILE or FLUSH."""
        verb = self.rng.choice(["BACKSPACE"] * 4 + ["REWIND"] * 4 + ["ENDFILE"] + ["FLUSH"] * 2)
        due, is_stream = "fine", isinstance(unit.file, Bytes)
        if verb != "FLUSH" and unit.access == "DIRECT" or verb == "BACKSPACE" and is_stream:
            due = "an error"
        elif verb == "BACKSPACE" and (unit.action == "WRITE" or unit.access == "STREAM"):
            return self.leave("BACKSPACE with ACTION='WRITE' or of a formatted stream")
        elif verb == "ENDFILE" and unit.action == "READ":
            due = "an error"
        elif verb == "ENDFILE" and not is_stream and unit.access == "STREAM":
            return self.leave("ENDFILE of a formatted stream")
        elif verb == "ENDFILE" and not is_stream and (unit.file.ended or unit.file.inside is not None or unit.file.short):
            return self.leave("ENDFILE after the endfile record, in a record, after the end of one or a list")
        cuts = isinstance(unit.file, Records) and unit.file.at < len(unit.file.records)
        self.motion(unit, verb, due)
        if verb == "ENDFILE" and cuts and due == "fine":
            self.leave("BACKSPACE after an ENDFILE that cuts")
            self.motion(unit, "REWIND")
        if due != "fine" and verb == "ENDFILE" and unit.access != "DIRECT":
            self.motion(unit, "REWIND")

    def motion(self, unit, verb, due="fine"):
        if verb != "FLUSH":
            self.end_record(unit)
        specs = self.status(due)
        spelled = "END FILE" if verb == "ENDFILE" and self.maybe(0.3) else verb
        self.say(f"{spelled} {unit.unit}" if not specs and self.maybe(0.6) else self.call(spelled, unit.unit, specs))
        self.settle(unit)
        if due == "fine":
            self.moved(unit, verb)

    def moved(self, unit, verb):
        if isinstance(unit.file, Bytes):
            if verb == "REWIND":
                unit.file.at = 0
            elif verb == "ENDFILE":
                unit.file.bytes = unit.file.bytes[: unit.file.at]
        elif isinstance(unit.file, Records) and verb != "FLUSH":
            getattr(unit.file, verb.lower())()
            if verb == "ENDFILE" and unit.access == "STREAM":
                unit.file.ended = False

    def inquire(self, unit):
        """Questions about a unit or its file, of those that both answer."""
        number = unit.unit if unit else self.rng.choice([it for it in UNITS if it not in self.units])
        asked = list(OF_EACH if unit else OF_NONE)
        if unit:
            asked += OF_TEXT if unit.form == "FORMATTED" else []
            asked += [("SIGN", "C")] if "SIGN" in unit.modes else []
            asked += [("NAME", "C")] if unit.name else []
            asked += [("ASYNCHRONOUS", "C")] if not unit.asynchronous else []
            asked += [("RECL", "N")] if unit.recl else []
            if not unit.pending:
                asked += [("PENDING", "T")]
                asked += [("NEXTREC", "N")] if unit.access == "DIRECT" else []
                asked += [("POS", "N")] if unit.access == "STREAM" else []
                asked += [("SIZE", "N")] if unit.exact and not (isinstance(unit.file, Records) and unit.file.writing) else []
        asked = self.rng.sample(asked, self.rng.randint(1, min(4, len(asked))))
        about = f"FILE='{unit.name}'" if unit and unit.name and self.maybe(0.3) else str(number)
        places = {what: self.fresh(ANSWERS[kind]) for what, kind in asked}
        line = self.call("INQUIRE", about, [f"{what}={place}" for what, place in places.items()] + self.status())
        self.say(line.replace("UNIT=FILE=", "FILE="))
        self.counts.update((place, str(self.answer(unit, what))) for what, place in places.items() if what in ("NEXTREC", "POS", "SIZE"))
        if "NEXTREC" in places and unit.form == "FORMATTED":
            self.leave("NEXTREC= after a READ with a format, in gfortran")
            self.own.add(places["NEXTREC"])

    def answer(self, unit, what):
        """What the model says of a number that INQUIRE tells."""
        file = unit.file
        if what == "NEXTREC":
            return file.next
        if what == "SIZE":
            return len(file.letters())
        if isinstance(file, Bytes):
            return file.at + 1
        inside = sum(piece.width for piece in file.records[file.at].pieces[: file.inside or 0]) if file.at < len(file.records) else 0
        return file.offset(file.at) + (file.records[file.at].width() if file.writing else inside) + 1

    def unconnected(self):
        """A statement on a unit that is not connected, or about a file that is not."""
        unit = self.rng.choice([it for it in UNITS if it not in self.units])
        verb = self.rng.choice(["CLOSE", "WAIT", "FLUSH", "BACKSPACE", "INQUIRE"])
        taken = [other.name for other in self.units.values()]
        if verb == "INQUIRE":
            asked = self.rng.sample(OF_NONE, 2)
            about = self.rng.choice([name for name in NAMES if name not in taken])
            self.say(f"INQUIRE(FILE='{about}',{','.join(f'{what}={self.fresh(ANSWERS[kind])}' for what, kind in asked)})")
        else:
            self.say(self.call(verb, unit, self.status("an error" if verb in ("FLUSH", "BACKSPACE") else "fine")))

    def stop(self):
        """A last statement whose condition nothing catches."""
        self.end_star()
        for unit in self.units.values():
            self.end_record(unit)
            self.end_record(unit, "SEQUENTIAL")
        self.catches = False
        self.rng.choice([self.misfit] * 2 + [self.transfer] * 3)(self.rng.choice(list(self.units.values())))

    # the whole

    def step(self):
        """One statement, or a few that belong together."""
        if not self.units or len(self.units) < 3 and self.maybe(0.12):
            return self.open()
        unit = self.rng.choice(list(self.units.values()))
        choice = self.rng.random()
        if choice < 0.08:
            self.write_star()
        elif self.maybe(0.08):
            self.transfer_inside()
        elif choice < 0.14 and self.variables.free():
            self.assign(self.rng.choice(self.variables.free()))
        elif choice < 0.21:
            self.inquire(unit if self.maybe(0.85) else None)
        elif choice < 0.26:
            self.wait(unit)
        elif choice < 0.38:
            self.move(unit)
        elif choice < 0.43:
            self.close(unit)
        elif choice < 0.46:
            self.reopen(unit)
        elif choice < 0.475 and isinstance(unit.file, Records) and (unit.file.writing or unit.file.inside is not None):
            self.leave("OPEN of another file for a unit within a record")
        elif choice < 0.475:
            self.open(unit.unit)
        elif choice < 0.49:
            self.unconnected()
        else:
            self.transfer(unit)

    def end(self):
        """Ends the deck: what is pending is told, and the Fortran closes the units as END does."""
        for number in sorted(self.units):
            unit = self.units[number]
            self.end_record(unit)
            if unit.pending and any(way == "in" for way, _, _ in unit.pending):
                self.wait(unit)
        if self.star_open:
            self.lines.append(("", "write(*,'()')"))
        self.lines += [("", f"close({number})") for number in sorted(self.units)]

    def declarations(self):
        """The lines before the statements, of the deck and of Fortran."""
        arrays = [("INTEGER", "S"), ("INTEGER", "N"), ("INTEGER", "J"), ("INTEGER", "R"), ("INTEGER(8)", "M"), ("LOGICAL", "Y"), ("CHARACTER(12)", "Z")]
        rows = self.variables.declared + self.inside_declared() + [(kind, name, self.used[name]) for kind, name in arrays if name in self.used]
        lines = [f"{kind} {name}{f'({count})' if count else ''}" for kind, name, count in rows]
        theirs = [f"{kind} :: {name}{f'({count})' if count else ''}" for kind, name, count in rows]
        groups = [f"NAMELIST /{name}/ {', '.join(members)}" for name, members in GROUPS.items()]
        return lines + groups, theirs + groups, rows
