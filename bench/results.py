"""The page bench/RESULTS.md, of the rows that `bench/run --save` measured. All of it is written by this, its numbers too.

A row is a benchmark by one command of fjob: least and median of fjob and of gfortran in milliseconds, for one statement of all numbers or
for many of one, with what both need around the statements taken off.
"""
import os
import pathlib
import re
import shutil
import subprocess
import time
from dataclasses import dataclass

import benchmarks
from benchmarks import ALL, KINDS, MANY, RUNS

TOP = pathlib.Path(__file__).resolve().parent.parent
PAGE = TOP / "bench" / "RESULTS.md"
LAYOUTS = {"formatted": "under a format", "list": "list-directed", "namelist": "namelist", "direct": "direct, under a format",
           "unformatted": "unformatted", "stream": "of a stream, unformatted"}
PENDING = {"async many": f"{MANY:,} WRITE, pending together, one WAIT", "async hundreds": f"{MANY:,} WRITE, a WAIT after each hundred",
           "async turns": f"{MANY // 2:,} times a WRITE and a WAIT", "async 10000": "10,000 WRITE, pending together, one WAIT",
           "async most": "99,996 WRITE, pending together, one WAIT", "async overlap": f"{ALL:,} integers on each of four units, pending together"}
OTHERS = {"first": "the deck of examples/first, with its process", "records": "a million records of 100 characters read, by `fj_bench`"}


@dataclass
class Row:
    """What was measured of a benchmark by one command."""
    name: str
    words: str
    least: float | None
    median: float | None
    their_least: float | None
    their_median: float | None
    died: int = 0

    def ratio(self):
        return self.least / self.their_least if self.least is not None and self.their_least else None


COUNTS = "\n## Instructions of one statement\n"


def number(value, digits):
    return "-" if value is None else f"{value:.{digits}f}"


def pair(least, median):
    """The least, and the median in brackets; of numbers that do not vary the number alone."""
    if least is None:
        return "-"
    if least == median and least > 100:
        return f"{least:,.0f}"
    digits = 0 if least >= 100 else 1 if least >= 10 else 2
    return f"{least:.{digits}f} ({median:.{digits}f})"


def cells(row):
    """fjob, gfortran and the ratio, as cells of a table."""
    if row is None:
        return "- | - | -"
    return f"{pair(row.least, row.median)} | {pair(row.their_least, row.their_median)} | {number(row.ratio(), 2)}"


def said_by(command):
    done = subprocess.run(command, cwd=TOP, capture_output=True, text=True, check=False)
    return done.stdout.strip()


def written(how):
    """When, of what, and beside what."""
    changed = " with changes" if said_by(["git", "status", "--porcelain", "--untracked-files=no"]) else ""
    made = TOP / "crates" / "fjob" / "out" / "fjob"
    proved = made.is_file() and made.read_bytes() == (TOP / "fjob").read_bytes()
    fortran = said_by(["gfortran", "-dumpfullversion"]) if shutil.which("gfortran") else "none"
    return (f"Written by `bench/run {how}` on {time.strftime('%Y-%m-%d')} at commit {said_by(['git', 'rev-parse', '--short', 'HEAD'])}{changed}, of {'the proved program' if proved else 'a program that was not proved'}, "
            f"beside gfortran {fortran} with -O2.")


def head(runs, by_processor):
    """What was measured, and on what."""
    found = re.search(r"model name\s*:\s*(.*)", pathlib.Path("/proc/cpuinfo").read_text())
    return ["# Results", "", written("--processor --save" if by_processor else "--save"),
            f"{os.cpu_count()} processors: {found.group(1) if found else 'unknown'}. Load at the end: {os.getloadavg()[1]:.1f}. {runs or RUNS} runs of each{', of first 200' if not runs else ''}.", "",
            f"Times are milliseconds {'of the processor' if by_processor else 'by the clock'}: the least, and in brackets the median. What both need around the statements is taken off, so a median may be less than the least. A ratio is fjob's least time by gfortran's; below 1, fjob is the faster one."]


def by_layout(rows, size):
    """A table: a row for each layout, WRITE and READ apart."""
    lines = ["| Statements | WRITE | gfortran | Ratio | READ | gfortran | Ratio |", "|---|---|---|---|---|---|---|"]
    stars = {"all": {"star all": "on `*`, under `(10I8)`", "star list all": "on `*`, list-directed"},
             "many": {"star many": "on `*`, under `(I8)`", "star many unbuffered": "the same, gfortran gathers nothing"}}[size]
    lines += [f"| {said} | {cells(rows.get(name))} | {cells(None)} |" for name, said in stars.items() if name in rows]
    for kind in KINDS:
        pairs = [rows.get(f"{verb} {kind} {size}") for verb in ("write", "read")]
        if any(pairs):
            lines.append(f"| {LAYOUTS[kind]} | {cells(pairs[0])} | {cells(pairs[1])} |")
        alone = rows.get(f"write {kind} {size} unbuffered")
        if alone:
            lines.append(f"| the same, gfortran gathers nothing | {cells(alone)} | {cells(None)} |")
    return lines if len(lines) > 2 else []


def by_words(found, names):
    """A table: a row for each benchmark and command, with the share of the time of `alone`."""
    lines = ["| What | By | fjob | gfortran | Ratio | Of `alone` |", "|---|---|---|---|---|---|"]
    alone = {row.name: row.least for row in reversed(found)}
    for row in found:
        if row.name in names:
            share = row.least / alone[row.name] if row.least is not None and alone[row.name] else None
            fell = f", died in {row.died} runs" if row.died else ""
            lines.append(f"| {names[row.name]} | `{row.words}` | {pair(row.least, row.median)} | {pair(row.their_least, row.their_median)}{fell} | {number(row.ratio(), 2)} | {number(share, 2)} |")
    return lines if len(lines) > 2 else []


def nanoseconds(milliseconds):
    """Of one of MANY statements."""
    return milliseconds * 1e6 / MANY


def gathered(rows, kind, said):
    """How much of the difference of a WRITE is the call of the operating system: gfortran makes it too where it gathers nothing."""
    usual, alone = rows.get(f"write {kind} many"), rows.get(f"write {kind} many unbuffered")
    if None in (usual, alone) or None in (usual.least, usual.their_least, alone.their_least):
        return []
    ours, theirs, calling = (nanoseconds(it) for it in (usual.least, usual.their_least, alone.their_least))
    return [f"- A WRITE {said} takes {ours:.0f} ns, and gfortran's {theirs:.0f}: {ours - theirs:.0f} more. Where gfortran gathers nothing, it takes {calling:.0f}: the call is {calling - theirs:.0f} of the difference, and the ratio is "
            f"{ours / calling:.1f} in place of {ours / theirs:.1f}."]


def reasons(rows):
    """Why small statements are slower, and by how much."""
    reads = [f"{LAYOUTS[kind]} {nanoseconds(row.least):.0f} and {nanoseconds(row.their_least):.0f}" for kind in KINDS
             if (row := rows.get(f"read {kind} many")) and None not in (row.least, row.their_least)]
    found = [*gathered(rows, "formatted", LAYOUTS["formatted"]), *gathered(rows, "unformatted", "of an unformatted record")]
    if not found and not reads:
        return []
    return ["", "## Why small statements are slower, and by how much", "",
            "A WRITE to a file makes one call of the operating system at least: nothing stays unwritten between two statements. gfortran gathers records, unless it is told not to (`GFORTRAN_UNBUFFERED_ALL=y`).", "",
            *found,
            *([f"- A READ takes, in ns, here and by gfortran: {'; '.join(reads)}. Both read from a window of the file, so these are instructions alone."] if reads else []), "",
            "The rest are instructions. What a statement names is looked up, and its prohibitions are looked at; it gives a job to the slot of its unit; the job's answer is told. "
            "Their numbers are below; [docs/EVIDENCE.md](../docs/EVIDENCE.md#speed) says more."]


def save(found, runs, by_processor):
    """Writes the page."""
    rows = {row.name: row for row in reversed(found)}
    parts = [(f"One statement of {ALL:,} integers", by_layout(rows, "all")), (f"{MANY:,} statements of one integer", by_layout(rows, "many")),
             ("Pending transfers", by_words(found, PENDING)), ("Others", by_words(found, OTHERS))]
    text = head(runs, by_processor)
    for title, lines in parts:
        text += ["", f"## {title}", "", *lines] if lines else []
    _, mark, counts = PAGE.read_text().partition(COUNTS) if PAGE.is_file() else ("", "", "")
    PAGE.write_text("\n".join([*text, *reasons(rows), ""]) + mark + counts)


def save_instructions(found):
    """Writes the part of the page on instructions."""
    rows = {row.name: row for row in reversed(found)}
    times, _, _ = PAGE.read_text().partition(COUNTS) if PAGE.is_file() else ("# Results\n", "", "")
    text = [written("--instructions --save"), "Counted by valgrind, without those of the operating system; what both need around the statements is taken off, the reading of a deck's lines too. They depend on nothing that the machine does besides.", ""]
    for title, lines in ((f"Of one integer, each of {benchmarks.MANY:,}", by_layout(rows, "many")), (f"Of {benchmarks.ALL:,} integers", by_layout(rows, "all"))):
        text += [f"{title}:", "", *lines, ""] if lines else []
    PAGE.write_text(times.rstrip("\n") + "\n" + COUNTS + "\n" + "\n".join(text))
