"""Texts that list-directed and namelist input read, and numbers with blanks."""
from .values import GROUPS, quoted

PLAIN = ["abc", "x", "T", "hello", "B2"]
DELIMITED = ["x y", "it's", "a,b", "", "/", 'say "no"', "tail "]


def value_text(rng, kind):
    """A value as list-directed input takes it, and the most characters of its number."""
    if kind == "L":
        return rng.choice(["T", "F", ".true.", ".FALSE.", "t", "f", "True", ".F"]), 0
    if kind == "C":
        return rng.choice([quoted(rng.choice(DELIMITED + PLAIN), rng.choice("'\"")), rng.choice(PLAIN)]), 0
    number = rng.choice([rng.randint(-99, 99), rng.randint(-99999, 99999)] + ([rng.randint(-2**63 + 1, 2**63 - 1)] if kind == "I8" else []))
    plus = rng.choice(["", "", "+"]) if number >= 0 else ""
    return plus + str(number), len(str(number))


def separator(rng, comma, kind):
    """Blanks, or a comma or semicolon with blanks or without; gfortran takes none after a truth value and a blank for it."""
    mark = ";" if comma else ","
    return rng.choice([" ", "  ", mark, mark + " "] + ([f" {mark} "] if kind != "L" else []))


def list_text(rng):
    """A record for list-directed input: its text, the kinds of its values (none for a null value) with their characters, whether a slash
    ends it, and whether it is for DECIMAL='COMMA'."""
    comma, text, listed = rng.random() < 0.2, rng.choice(["", " "]), []
    mark = ";" if comma else ","
    for _ in range(rng.randint(1, 4)):
        choice, kind = rng.random(), rng.choice(["I4", "I4", "I8", "L", "C"])
        value, chars = value_text(rng, kind)
        if choice < 0.12 and text.rstrip()[-1:] in ("", mark):
            text += " " + mark
            listed.append(("", 0))
        elif choice < 0.24 and (kind != "C" or value[0] in "'\""):
            count = rng.randint(1, 3)
            text += f"{count}*{value}" + separator(rng, comma, kind)
            listed += [("=" + kind, chars)] * count
        elif choice < 0.3:
            count = rng.randint(1, 2)
            text += f"{count}*" + separator(rng, comma, kind)
            listed += [("?" + kind, 0)] * count
        else:
            text += value + separator(rng, comma, kind)
            listed.append((kind, chars))
    slash = rng.random() < 0.3
    return (text + "/" if slash else text.rstrip(f" {mark}") + "  " if listed[-1][1] or listed[-1][0] in ("L", "C", "=L", "=C") else text), listed, slash, comma


def group_text(rng, name, arrays):
    """Records for namelist input: their texts, and the places that get values with their characters."""
    lines, given = [rng.choice([" ", ""]) + "&" + rng.choice([name, name.lower()])], {}
    for _ in range(rng.randint(0, 4)):
        member = rng.choice(GROUPS[name])
        places = arrays[member]
        first = rng.randint(0, len(places) - 1)
        count = rng.randint(1, len(places) - first)
        named = f"{member}({first + 1})" if len(places) > 1 and (first or rng.random() < 0.3) else member
        if named != member:
            count = 1
        values = []
        for place in places[first: first + count]:
            value, chars = value_text(rng, place.kind)
            while place.kind == "C" and value[0] not in "'\"":
                value, chars = value_text(rng, "C")
            values.append(value)
            given[place] = max(chars, given.get(place, 0))
        text = f" {named}{rng.choice(['=', ' = ', '= '])}{rng.choice([',', ', ', ' ']).join(values)}{rng.choice([',', ' ', ''])}"
        if rng.random() < 0.5:
            lines.append(text)
        else:
            lines[-1] += " " + text
    ending = rng.choice([" /", "/ rest"])
    if rng.random() < 0.5 or lines[-1].lstrip().startswith("&"):
        lines.append(" " + ending)
    else:
        lines[-1] += " " + ending
    return lines, given


def number_text(rng):
    """Digits with blanks among them, and how many characters they may come to with zeros for blanks."""
    text = "".join(rng.choice("0123456789   ") for _ in range(rng.randint(1, 6)))
    text = rng.choice(["", " ", "-", " +"]) + rng.choice("123456789") + text
    return text, len(text)
