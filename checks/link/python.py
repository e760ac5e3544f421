"""The library from Python: reads the files that gfortran left (plain.unf, plain.txt of `plain`), writes the same, and numpy arrays where numpy is there."""
import array
import pathlib
import sys

import lukhtame

records = list(lukhtame.records("plain.unf", "i"))
assert records == [array.array("i", [k + 1] * 1000) for k in range(len(records))] and records
with lukhtame.open("python.unf") as unit:
    for it in records:
        unit.write(it)
        it[0] = -1
assert pathlib.Path("python.unf").read_bytes() == pathlib.Path("plain.unf").read_bytes()

with lukhtame.open("python.txt", form="FORMATTED") as unit:
    for k in range(1, 21):
        unit.write(array.array("i", [k * 1000 + 7] * 1000), "(10I8)")
assert pathlib.Path("python.txt").read_bytes() == pathlib.Path("plain.txt").read_bytes()

values = array.array("q", [0] * 1000)
with lukhtame.open("plain.txt", form="FORMATTED") as unit:
    unit.read(values, "(10I8)")
    unit.wait()
    assert values == array.array("q", [1007] * 1000)
    for k in range(20):
        unit.read(values, "(10I8)")
    try:
        unit.wait()
        sys.exit("the end of the file was not told")
    except lukhtame.Condition as it:
        assert it.iostat == -1
try:
    lukhtame.open("no such folder/file")
    sys.exit("OPEN in a folder that is not there")
except lukhtame.Condition as it:
    assert it.iostat == 2002

try:
    import numpy
except ImportError:
    print("there is no numpy: its arrays are left out")
    sys.exit()
plate = numpy.asfortranarray(numpy.arange(12, dtype="int32").reshape(3, 4))
with lukhtame.open("numpy.unf") as unit:
    unit.write(plate)
    unit.write(plate[:, 1])
    unit.write(numpy.arange(10, dtype="int64")[::3])
assert pathlib.Path("numpy.unf").read_bytes()[4:52] == plate.tobytes("F")
back, column, steps = numpy.zeros((3, 4), dtype="int32", order="F"), numpy.zeros(3, dtype="int32"), numpy.zeros(4, dtype="int64")
with lukhtame.open("numpy.unf") as unit:
    unit.read(back)
    unit.read(column)
    unit.read(steps)
    unit.wait()
assert (back == plate).all() and (column == plate[:, 1]).all() and list(steps) == [0, 3, 6, 9]
