"""What the checks beside gfortran share: the program under test, and how a Fortran program is made."""
import pathlib
import shutil
import subprocess
import sys

TOP = pathlib.Path(__file__).resolve().parent.parent
FJOB = TOP / "fjob"
FJOB_IS_MADE = "./fjob (run 'make build' first) and "


def need(fjob=True):
    """Ends the script where gfortran is not on the machine, or ./fjob was not made."""
    if (fjob and not FJOB.exists()) or not shutil.which("gfortran"):
        sys.exit(f"{sys.argv[0]}: it needs {FJOB_IS_MADE if fjob else ''}gfortran")


def build(place, name, text):
    """Makes the program `name` in a folder of a Fortran text."""
    source = pathlib.Path(place, f"{name}.f90")
    source.write_text(text, encoding="latin1")
    subprocess.run(["gfortran", "-w", "-ffree-line-length-none", "-o", f"{place}/{name}", source], check=True)


def kind_of(condition):
    """Fine, the end of the file, the end of a record, or an error."""
    return {0: "fine", -1: "end of file", -2: "end of record"}.get(int(condition), "an error")
