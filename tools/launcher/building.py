"""Proves and builds the program where that is due, with a line for each crate while it does."""
import hashlib
import os
import re
import shutil
import subprocess
import tempfile
import time

from launcher.processes import hand_on
from launcher.say import say, write
from launcher.usage import KIT

PROGRAM = "gate_program"
READ = ("src", "specs", "proofs")

BEGINS = """\
proving and building the program. From nothing that takes about {minutes} minutes on
four processors at 2.7 GHz; later only what was changed is proved again. Each crate is named as it
is begun."""
MINUTES = 15

NO_KIT = f"""\
the program isn't built, and `rt` isn't on the PATH. It is the command of the Rattle kit, {KIT}:
unpack the kit that goes with this repository, and add its folder bin to the PATH. Or name a
program that was built elsewhere: GATE_PROGRAM=PATH ./gate ..."""

# What `rt run` writes on standard error: which crate it begins, a line for each item that is
# proved, now and then how far it is, and a line behind each crate.
BEGUN = re.compile(r"^rt: chose --jobs \d+ for (\w+)")
SO_FAR = re.compile(r"^so far: (\d+ of \d+ functions)")
ITEM = re.compile(r"^(?:fn|struct|enum|impl|trait|const|static|union|mod|type) (\w+)::.*: proved")
PROVED = re.compile(r"^logic=proved functions=(\d+)")


def program_of(top):
    """The path of the built program, built anew where that is due. None where it can't be had,
    which was told."""
    named = os.environ.get("GATE_PROGRAM")
    if named:
        return named if is_program(named) else missing(named)
    crate = os.path.join(top, "crates", PROGRAM)
    program = os.path.join(crate, "out", PROGRAM)
    return program if is_built(top, program) or build(top, crate, program) else None


def is_program(path):
    return os.path.isfile(path) and os.access(path, os.X_OK)


def missing(named):
    say(f"GATE_PROGRAM is {named}, and there is no program there that can be run")
    return None


def is_built(top, program):
    """Whether the program was built from just these sources."""
    return is_program(program) and read_text(program + ".sources") == sources(top)


def is_due(top):
    """Whether a run would have to build first."""
    if os.environ.get("GATE_PROGRAM"):
        return False
    return not is_built(top, os.path.join(top, "crates", PROGRAM, "out", PROGRAM))


def sources(top):
    """A checksum of all that the program is made of."""
    total = hashlib.sha256()
    for path in sorted(source_files(top)):
        total.update(os.path.relpath(path, top).encode() + b"\0")
        with open(path, "rb") as file:
            total.update(hashlib.sha256(file.read()).digest())
    return total.hexdigest()


def source_files(top):
    """The sources of the crates that the program stands on, with the list of crates and the
    handles."""
    yield os.path.join(top, "crates.txt")
    if os.path.isfile(os.path.join(top, "HANDLES")):
        yield os.path.join(top, "HANDLES")
    for crate in crates(top):
        for part in READ:
            for folder, _, names in os.walk(os.path.join(top, "crates", crate, part)):
                yield from (os.path.join(folder, one) for one in names)


def crates(top):
    """The crates of this repository that the program is made of, as crates.txt lists them."""
    uses = {}
    for line in read_text(os.path.join(top, "crates.txt")).splitlines():
        name, colon, rest = line.split("#")[0].partition(":")
        if colon:
            uses[name.split()[0]] = rest.split()
    below, todo = set(), [PROGRAM]
    while todo:
        crate = todo.pop()
        if crate in uses and crate not in below:
            below.add(crate)
            todo += uses[crate]
    return sorted(below)


def read_text(path):
    """The text of a file, empty where it can't be read."""
    try:
        with open(path, encoding="utf-8", errors="replace") as file:
            return file.read()
    except OSError:
        return ""


def build(top, crate, program):
    """Builds the program from the sources as they are at the end, and says whether it could."""
    if shutil.which("rt") is None:
        say(NO_KIT)
        return False
    say(BEGINS.format(minutes=MINUTES))
    while True:
        before = sources(top)
        if not build_once(top, crate, program):
            return False
        if sources(top) == before:
            with open(program + ".sources", "w", encoding="utf-8") as file:
                file.write(before)
            say("built")
            return True
        say("a source was changed meanwhile: building again")


def build_once(top, crate, program):
    """One `rt run`, which proves, builds, and then runs the program with no words. Its messages are
    kept where no program comes of it."""
    if os.path.exists(program):
        os.remove(program)
    kept = tempfile.NamedTemporaryFile(
        "w", prefix="gate-build-", suffix=".log", delete=False, encoding="utf-8"
    )
    with kept as log:
        proving = subprocess.Popen(
            ["rt", "run"],
            cwd=crate,
            stdin=subprocess.DEVNULL,
            stdout=subprocess.DEVNULL,
            stderr=subprocess.PIPE,
        )
        hand_on(proving)
        try:
            tell_progress(proving.stderr, log, len(crates(top)))
        except KeyboardInterrupt:
            os.remove(kept.name)
            raise
        finally:
            proving.wait()
    if is_program(program):
        os.remove(kept.name)
        return True
    tell_failure(kept.name)
    return False


def tell_progress(messages, log, count):
    """Copies the messages into the log, and says which crate is proved and which was."""
    begun, at, since = 0, None, time.monotonic()
    for raw in messages:
        line = raw.decode("utf-8", "replace")
        log.write(line)
        named = BEGUN.match(line) or ITEM.match(line)
        proved, so_far = PROVED.match(line), SO_FAR.match(line)
        if named and named.group(1) != at:
            at, begun, since = named.group(1), begun + 1, time.monotonic()
            say(f"proving {at} (crate {begun}, of at most {count})")
        elif so_far and at:
            say(f"{at}: {so_far.group(1)}")
        elif proved and at:
            seconds = round(time.monotonic() - since)
            say(f"{at}: {proved.group(1)} functions proved, {seconds} seconds")
            at = None


def tell_failure(path):
    """The last messages of `rt`, and where all of them are."""
    lines = [line for line in read_text(path).splitlines() if not line.endswith(": proved")]
    say("the program could not be built. The last messages of `rt`:")
    for line in lines[-20:]:
        write(f"  {line}")
    say(f"all of them are in {path}")
