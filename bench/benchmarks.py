"""The benchmarks: for each a deck, the Fortran program that does the same, and what both have to print and leave.

Numbers are written or read by one statement of ALL of them, or by MANY statements of one, in each layout and each access. What both need
around that (variables, their values, their report) is taken off. Of a deck it is what a second one takes, without the statements that are
measured, or, for MANY statements, the time in which `fjob check` reads it, since the compiler has read the program. Of a program it is what
a run takes that is given a word: it ends before the statements. A statement that takes a millisecond alone is carried out AGAIN times, and a
time is that of one.
"""
import array
import dataclasses
import functools

ALL = 1_000_000
MANY = 50_000
AGAIN = 16
RUNS = 15
ALONE = [["alone"]]
WORKERS = [["alone"], *(["run", "--workers", number] for number in ("1", "2", "4"))]


@dataclasses.dataclass
class Benchmark:
    """A deck with its program. A file is due by its bytes, or by the list of its numbers where layouts differ; what is printed likewise, by
    numbers and the text after them. The program of gfortran runs with the environment that is given, beside what stands there. What is
    measured is carried out so many `times`."""
    deck: str
    program: str
    printed: str
    base: str | None = None
    words: list = dataclasses.field(default_factory=lambda: ALONE)
    shown: str = ""
    inputs: dict = dataclasses.field(default_factory=dict)
    files: dict = dataclasses.field(default_factory=dict)
    numbers: list | None = None
    environment: dict = dataclasses.field(default_factory=dict)
    runs: int = RUNS
    times: int = 1
    flags: tuple = ()
    measured: str = ""


@dataclasses.dataclass(frozen=True)
class Kind:
    """A layout with an access: what OPEN says, what a statement of all numbers says, and one of one number; how often the former is
    carried out, and what stands between."""
    opened: str
    whole: str
    single: str
    listing: bool = False
    times: int = 1
    between: tuple = ()


KINDS = {
    "formatted": Kind("", ",'(10I8)'", ",'(I8)'"),
    "list": Kind("", ",*", ",*", listing=True),
    "namelist": Kind("", ",NML=G", ",NML=G", listing=True),
    "unformatted": Kind(",FORM='UNFORMATTED'", "", "", times=AGAIN, between=("REWIND 10",)),
    "direct": Kind(",ACCESS='DIRECT',FORM='FORMATTED',RECL={recl}", ",'(10I8)',REC=1", ",'(I8)',REC={number}"),
    "stream": Kind(",ACCESS='STREAM',FORM='UNFORMATTED'", ",POS=1", "", times=AGAIN),
}


def text(lines):
    return "".join(line + "\n" for line in lines)


def rows(numbers, each, end="\n"):
    """Numbers in fields of eight characters, so many a row."""
    fields = [f"{number:8d}" for number in numbers]
    return "".join("".join(fields[at:at + each]) + end for at in range(0, len(fields), each))


def little(numbers):
    return array.array("i", numbers).tobytes()


def framed(body):
    length = len(body).to_bytes(4, "little")
    return length + body + length


def wrapped(numbers, separator):
    """Numbers with a separator between, some to a line."""
    shown = [str(number) for number in numbers]
    return f"{separator}\n ".join(separator.join(shown[at:at + 8]) for at in range(0, len(shown), 8))


def stored(kind, numbers, whole):
    """The file of a kind with these numbers, of one statement or of one each."""
    if kind == "formatted":
        return rows(numbers, 10 if whole else 1).encode()
    if kind == "list":
        return (" " + wrapped(numbers, " ") + "\n" if whole else "".join(f" {number}\n" for number in numbers)).encode()
    if kind == "namelist":
        given = [("V", wrapped(numbers, ","))] if whole else [("K", str(number)) for number in numbers]
        return "".join(f" &G\n {name}={values}\n /\n" for name, values in given).encode()
    if kind == "unformatted":
        return framed(little(numbers)) if whole else b"".join(framed(little([number])) for number in numbers)
    return rows(numbers, 10, "").encode() if kind == "direct" else little(numbers)


def statement(verb, control, item):
    return f"{verb}(10{control})" + ("" if "NML" in control else f" {item}")


def program_of(declared, before, measured, checked=()):
    """A program that ends before what is measured where it is given a word."""
    return text(["program measured", *declared, *before, "if (command_argument_count() > 0) stop", *measured, *checked, "end program"])


@functools.cache
def elements(backwards):
    """The report of a deck with all numbers."""
    numbers = range(ALL, 0, -1) if backwards else range(1, ALL + 1)
    return "= ended\n" + "".join(f"V({at}) = {number}\n" for at, number in enumerate(numbers, 1))


FILLED = ["OPEN(20,FILE='values',ACCESS='STREAM',FORM='UNFORMATTED',ACTION='READ')", "READ(20) V", "CLOSE(20)"]


def whole(name, reads):
    """One statement of all numbers. A READ gets them in the opposite order."""
    kind = KINDS[name]
    group = ["NAMELIST /G/ V"] if name == "namelist" else []
    numbers = list(range(ALL, 0, -1)) if reads else list(range(1, ALL + 1))
    how = "'in',STATUS='OLD',ACTION='READ'" if reads else "'out',STATUS='REPLACE'"
    one = [statement("READ" if reads else "WRITE", kind.whole, "V"), *kind.between]
    done = [f"OPEN(10,FILE={how}{kind.opened.format(recl=80)})", *one * kind.times, "CLOSE(10)"]
    declared = [f"INTEGER V({ALL})", *group]
    file = stored(name, numbers, whole=True)
    check = [f"do i = 1, {ALL}", f"if (v(i) /= {ALL} + 1 - i) stop 1", "end do"] if reads else []
    return Benchmark(
        deck=text([*declared, *FILLED, *done, "END"]),
        base=text([*declared, *FILLED, "END"]),
        program=program_of([f"integer, save :: v({ALL})", "integer :: i", *group], FILLED, done, check),
        printed=elements(reads),
        inputs={"values": little(range(1, ALL + 1)), **({"in": file} if reads else {})},
        files={} if reads else {"out": numbers if kind.listing else file},
        times=kind.times,
    )


def single(name, reads, environment=None):
    """A statement for each of many numbers."""
    kind = KINDS[name]
    group = ["NAMELIST /G/ K"] if name == "namelist" else []
    numbers = list(range(1, MANY + 1)) if reads else [42] * MANY
    verb, how = ("READ", "'in',STATUS='OLD',ACTION='READ'") if reads else ("WRITE", "'out',STATUS='REPLACE'")
    opened = f"OPEN(10,FILE={how}{kind.opened.format(recl=8)})"
    each = [statement(verb, kind.single.format(number=at), "K") for at in range(1, MANY + 1)]
    loop = [f"do i = 1, {MANY}", statement(verb, kind.single.format(number="i"), "K"), "end do"]
    check = [f"if (k /= {numbers[-1]}) stop 1"]
    file = stored(name, numbers, whole=False)
    return Benchmark(
        deck=text(["INTEGER K", *group, "K = 42", opened, *each, "CLOSE(10)", "END"]),
        program=program_of(["integer :: i, k", *group], ["k = 42"], [opened, *loop, "close(10)"], check),
        printed=f"= ended\nK = {numbers[-1]}\n",
        inputs={"in": file} if reads else {},
        files={} if reads else {"out": numbers if kind.listing else file},
        environment=environment or {},
    )


def first():
    """The deck of examples/first: what a run costs at least."""
    done = ["OPEN(10,FILE='F1',STATUS='REPLACE')", "WRITE(10,'(I5)') K", "CLOSE(10)"]
    return Benchmark(
        deck=text(["INTEGER K", "K = 42", *done, "END"]),
        base="",
        program=text(["program measured", "integer :: k", "k = 42", *done, "end program"]),
        printed="= ended\nK = 42\n",
        files={"F1": b"   42\n"},
        runs=200,
    )


def star_whole(listing):
    """All numbers on standard output, under a format or list-directed."""
    done = ["WRITE(*,*) V" if listing else "WRITE(*,'(10I8)') V"]
    shown = "" if listing else rows(range(1, ALL + 1), 10)
    return Benchmark(
        deck=text([f"INTEGER V({ALL})", *FILLED, *done, "END"]),
        base=text([f"INTEGER V({ALL})", *FILLED, "END"]),
        program=program_of([f"integer, save :: v({ALL})"], FILLED, done),
        printed=shown + elements(False),
        shown=shown,
        numbers=list(range(1, ALL + 1)) if listing else None,
        inputs={"values": little(range(1, ALL + 1))},
    )


def star_single(environment):
    """Many statements on standard output."""
    line = "WRITE(*,'(I8)') K"
    shown = rows([42] * MANY, 1)
    return Benchmark(
        deck=text(["INTEGER K", "K = 42", *[line] * MANY, "END"]),
        program=program_of(["integer :: i, k"], ["k = 42"], [f"do i = 1, {MANY}", line, "end do"]),
        printed=shown + "= ended\nK = 42\n",
        shown=shown,
        environment=environment,
    )


def records():
    """Records read one after another through the window that connections have, by the program of the crate fj_bench."""
    lines = 1_000_000
    return Benchmark(
        deck="",
        base="",
        program=text([
            "program measured", "character(100) :: line", "integer :: status, number, characters", "number = 0", "characters = 0",
            "open(10, file='records', status='old', action='read')", "do", "read(10, '(A)', iostat=status) line",
            "if (status /= 0) exit", "number = number + 1", "characters = characters + len_trim(line)", "end do", "close(10)",
            "write(*, '(I0,1X,I0)') number, characters", "end program",
        ]),
        printed=f"{lines} {lines * 100}\n",
        shown=f"{lines} {lines * 100}\n",
        inputs={"records": "".join(f"{at:08d}{at:092d}\n" for at in range(1, lines + 1)).encode()},
        words=[["fj_bench"]],
        measured="fj_bench",
    )


ASYNC_OPEN = "OPEN(10,FILE='out',STATUS='REPLACE',ASYNCHRONOUS='YES')"
ASYNC_WRITE = "WRITE(10,'(I8)',ASYNCHRONOUS='YES') K"


def pending(count, group, words=None):
    """Asynchronous statements of one number, with a WAIT after so many of them each."""
    deck = ["INTEGER, ASYNCHRONOUS :: K", "K = 42", ASYNC_OPEN]
    for at in range(0, count, group):
        deck += [*[ASYNC_WRITE] * min(group, count - at), "WAIT(10)"]
    loop = [f"do i = 1, {count}", ASYNC_WRITE, f"if (mod(i, {group}) == 0 .or. i == {count}) then", "wait(10)", "end if", "end do"]
    return Benchmark(
        deck=text([*deck, "END"]),
        program=program_of(["integer, asynchronous :: k", "integer :: i"], ["k = 42"], [ASYNC_OPEN, *loop, "close(10)"]),
        printed="= ended\nK = 42\n",
        words=words or WORKERS,
        files={"out": rows([42] * count, 1).encode()},
        flags=("-pthread",),
    )


def overlap():
    """All numbers on each of four units, which are waited for at the end."""
    units = range(10, 14)
    done = [f"OPEN({unit},FILE='out{unit}',STATUS='REPLACE',ASYNCHRONOUS='YES')" for unit in units]
    done += [f"WRITE({unit},'(10I8)',ASYNCHRONOUS='YES') V" for unit in units]
    done += [f"WAIT({unit})" for unit in units] + [f"CLOSE({unit})" for unit in units]
    declared = f"INTEGER, ASYNCHRONOUS :: V({ALL})"
    return Benchmark(
        deck=text([declared, *FILLED, *done, "END"]),
        base=text([declared, *FILLED, "END"]),
        program=program_of([f"integer, asynchronous, save :: v({ALL})"], FILLED, done),
        printed=elements(False),
        words=WORKERS,
        inputs={"values": little(range(1, ALL + 1))},
        files={f"out{unit}": rows(range(1, ALL + 1), 10).encode() for unit in units},
        flags=("-pthread",),
    )


# a deck has 100,000 statements at most
MOST_PENDING = 99_996

BENCHMARKS = {
    "first": first,
    "star all": functools.partial(star_whole, False),
    "star list all": functools.partial(star_whole, True),
    "star many": functools.partial(star_single, {}),
    "star many unbuffered": functools.partial(star_single, {"GFORTRAN_UNBUFFERED_PRECONNECTED": "y"}),
    "records": records,
}
for one in KINDS:
    for verb, way in (("write", False), ("read", True)):
        BENCHMARKS[f"{verb} {one} all"] = functools.partial(whole, one, way)
        BENCHMARKS[f"{verb} {one} many"] = functools.partial(single, one, way)
for one in ("formatted", "unformatted"):
    BENCHMARKS[f"write {one} many unbuffered"] = functools.partial(single, one, False, {"GFORTRAN_UNBUFFERED_ALL": "y"})
BENCHMARKS["async many"] = functools.partial(pending, MANY, MANY)
BENCHMARKS["async hundreds"] = functools.partial(pending, MANY, 100)
BENCHMARKS["async turns"] = functools.partial(pending, MANY // 2, 1)
BENCHMARKS["async 10000"] = functools.partial(pending, 10_000, 10_000)
BENCHMARKS["async most"] = functools.partial(pending, MOST_PENDING, MOST_PENDING)
BENCHMARKS["async overlap"] = overlap
