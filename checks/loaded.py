"""Examples, carried out with a library that is loaded before the C library and refuses or fails one call.

The library is a C file of this folder. It reads the number of the call from AT, and writes how many calls there were into the file COUNT,
and after that number, of a library that says so, what the chosen call was on.
"""
import concurrent.futures
import os
import pathlib
import shutil
import subprocess
import sys
import tempfile

from progress import Progress

TOP = pathlib.Path(__file__).resolve().parent.parent
FJOB = TOP / "fjob"
LONGEST = 60
BESIDE = ["run", "--workers", "2"]
UNTOUCHED = {"untouched": b"no deck opens this file\n"}


def files_in(folder):
    """The files of a folder by name."""
    return {path.name: path.read_bytes() for path in folder.iterdir()} if folder.is_dir() else {}


class Example:
    """An example with what is due of it, by words of its own or by others."""

    def __init__(self, folder, words):
        self.name, self.folder, self.words = folder.name, folder, words
        self.deck = (folder / "deck").read_bytes()
        self.status = int((folder / "expected" / "status").read_text())
        self.output = (folder / "expected" / "output").read_bytes()
        self.files = files_in(folder / "expected" / "files") | UNTOUCHED


def examples(place="examples", beside=BESIDE):
    """Each example of a folder by its own words, and those of `alone` by those of workers too."""
    for folder in sorted(path.parent for path in (TOP / place).glob("*/deck")):
        words = (folder / "words").read_text().splitlines()
        yield Example(folder, words)
        if words[:1] == ["alone"]:
            yield Example(folder, beside + words[1:])


class Answer:
    """What a run came to: its status, what it printed and the files it left. A run that does not end has no status.

    With a library, how many calls there were, and what the chosen one was on."""

    def __init__(self, status, printed, files, told="0"):
        self.status, self.printed, self.files = status, printed, files
        calls, _, self.met = told.strip().partition(" ")
        self.calls = int(calls)

    def is_due(self, example):
        return (self.status, self.printed, self.files) == (example.status, example.output, example.files)


def run(folder, deck, words, library=None, at=0):
    """Carries a deck out where the files of an example lie, with the call of this number refused."""
    with tempfile.TemporaryDirectory() as place:
        here, count = pathlib.Path(place) / "here", pathlib.Path(place) / "count"
        here.mkdir()
        for name, bytes_of in (files_in(folder / "files") | UNTOUCHED).items():
            (here / name).write_bytes(bytes_of)
        loaded = dict(os.environ, LD_PRELOAD=library, AT=str(at), COUNT=str(count)) if library else None
        try:
            done = subprocess.run([FJOB, *words], input=deck, capture_output=True, cwd=here, env=loaded, timeout=LONGEST)
            return Answer(done.returncode, done.stdout, files_in(here), count.read_text() if count.exists() else "0")
        except subprocess.TimeoutExpired as late:
            return Answer(None, late.stdout or b"", files_in(here))


def try_each(source, is_right, tried_on):
    """Refuses each call of each example in turn, prints what is not right, and answers the exit status."""
    if not FJOB.exists() or not shutil.which("gcc"):
        sys.exit(f"{sys.argv[0]}: it needs ./fjob (run 'make build' first) and gcc")
    tried = wrong = 0
    tried_on = list(tried_on)
    progress = Progress(len(tried_on), "examples")
    with tempfile.TemporaryDirectory() as place, concurrent.futures.ThreadPoolExecutor(os.cpu_count()) as pool:
        library = f"{place}/loaded.so"
        subprocess.run(["gcc", "-shared", "-fPIC", "-o", library, TOP / "checks" / source, "-ldl"], check=True)
        for example in tried_on:
            whole = run(example.folder, example.deck, example.words, library)
            later = pool.map(lambda at, of=example: run(of.folder, of.deck, of.words, library, at), range(1, whole.calls + 1))
            answers = [whole, *later]
            tried += whole.calls
            for at, answer in enumerate(answers):
                if not answer.is_due(example) and not (at > 0 and is_right(example, answer)):
                    wrong += 1
                    print(f"{example.name} by {' '.join(example.words)}: call {at} of {whole.calls}, {answer.met}: "
                          f"status {answer.status}, printed {answer.printed!r}, left {answer.files!r}")
            progress.step()
    print(f"{tried} calls, {wrong} answered otherwise than they have to be")
    return wrong > 0
