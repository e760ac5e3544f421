"""Has the toolchain's `rt` sum what stands below a crate once, and work on several crates of a checkout at a time.

tools/build and `make try` put this folder on PYTHONPATH; Python imports a module of this name as it starts. It changes one class of the kit, by
the methods that it knows: where the kit has another form it changes nothing, and rt works as it does without it.

Sums: the method `below` of the class Crate lists the libraries below a crate by asking each of them again, once for each path of crates.txt;
`count` reads the files of a crate anew at each call. Both answer the same as long as rt runs, so each is asked once a crate.

Locks: rt takes a lock of its own on the folder of the crate that it works on and of each crate below it, so two crates that stand on a third
wait for one another. With BUILD_SHARES a lock on a folder other than the crate's own is shared. That is safe as long as rt writes nothing
there, which is so once all libraries below are built: tools/build begins a crate when they are, and where one is not any more (a file was
edited meanwhile) rt ends here, before it touches anything. The crate's own folder stays locked against each other rt, those of another
tools/build too. No two wait for one another for ever: who holds its own folder waits only for crates below, and the lowest waits for nobody.
"""
import builtins
import fcntl
import os
import stat
import sys

WANTED = ("below", "count", "is_built", "call")


def once(method):
    """The method, asked once for each object and arguments."""

    def asked(self, *given):
        kept = self.__dict__.setdefault("_asked_once", {})
        if (method, given) not in kept:
            kept[method, given] = method(self, *given)
        found = kept[method, given]
        return list(found) if isinstance(found, list) else found

    return asked


def told(call):
    """The method that starts the prover or the linker, with a line before it that tools/build waits for."""

    def called(self, *given, **named):
        print(f"rt: work on {self.name} begins", file=self.out, flush=True)
        return call(self, *given, **named)

    return called


def held_to_its_own(is_built):
    """The method that says whether a library is built; where one below this crate is not, rt ends."""

    def asked(self):
        found = is_built(self)
        if not found and not is_here(os.stat(self.folder)):
            print(f"rt: {self.name} is not built as its files are now: they changed meanwhile", flush=True)
            sys.exit(2)
        return found

    return asked


def is_here(found):
    """It is the folder that rt works in."""
    return os.path.samestat(found, os.stat("."))


def shared(flock):
    """The call that locks a file, with a shared lock for a folder other than this one."""

    def locked(file, operation):
        found = os.fstat(file if isinstance(file, int) else file.fileno())
        if stat.S_ISDIR(found.st_mode) and operation & fcntl.LOCK_EX and not is_here(found):
            operation = operation & ~fcntl.LOCK_EX | fcntl.LOCK_SH
        return flock(file, operation)

    return locked


def change(crate):
    """Changes the kit's class of crates."""
    crate.below, crate.count = once(crate.below), once(crate.count)
    if "BUILD_SHARES" in os.environ:
        crate.is_built, crate.call = held_to_its_own(crate.is_built), told(crate.call)
        fcntl.flock = shared(fcntl.flock)


def with_change(build_class):
    """What makes a class, with the change for the kit's."""

    def built(body, name, *bases, **named):
        made = build_class(body, name, *bases, **named)
        if name == "Crate" and all(callable(made.__dict__.get(it)) for it in WANTED):
            change(made)
        return made

    return built


if os.path.basename([*getattr(sys, "argv", []), ""][0]) == "rt":
    builtins.__build_class__ = with_change(builtins.__build_class__)
