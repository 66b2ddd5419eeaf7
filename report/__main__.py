"""`gate report LIMITS OUT SESSION...`: writes `OUT/requests.csv` and `OUT/report.html`."""

import gc
import os
import sys
from pathlib import Path

if not __package__:
    sys.path[0] = str(Path(__file__).resolve().parent.parent)

from report.faults import Apart, Unreadable
from report.page import page
from report.run import read_run

USAGE = "usage: gate report LIMITS OUT SESSION..."
DONE, NO_FORM, UNREADABLE, APART = 0, 2, 3, 4
SESSIONS_MOST = 64


def is_form(words: list[str]) -> bool:
    """A limit file, a folder and as many sessions as a run takes, none empty or like an option."""
    return 3 <= len(words) <= 2 + SESSIONS_MOST and all(
        word and not word.startswith("-") for word in words)


def write_report(limits: Path, out: Path, sessions: list[Path]) -> None:
    """Reads the run and writes both files; where it can't be done neither changes."""
    if not out.is_dir():
        raise Unreadable(f"{out} is no folder: the OUT of a run is needed")
    table, html = out / "requests.csv", out / "report.html"
    halves = [path.with_name(path.name + ".half") for path in (table, html)]
    try:
        with open(halves[0], "w", encoding="utf-8", newline="") as file:
            run = read_run(limits, out, sessions, file)
        with open(halves[1], "w", encoding="utf-8", newline="\n") as file:
            file.writelines(page(run, limits.name))
        os.replace(halves[0], table)
        os.replace(halves[1], html)
    except OSError as fault:
        raise Unreadable(f"{fault.filename or out}: {fault.strerror or fault}") from fault
    finally:
        for half in halves:
            half.unlink(missing_ok=True)


def main(words: list[str]) -> int:
    """The status: 0 written, 2 the words are no form, 3 a file can't be read or written or isn't
    what it should be, 4 the files don't belong together."""
    if not is_form(words):
        print("gate report: the words of a run are needed, without `run`: a limit file, its OUT "
              "and its sessions; `gate --help` tells more", USAGE, sep="\n", file=sys.stderr)
        return NO_FORM
    limits, out, *sessions = map(Path, words)
    try:
        write_report(limits, out, sessions)
    except Unreadable as fault:
        print(f"gate report: {fault}", file=sys.stderr)
        return UNREADABLE
    except Apart as fault:
        print(f"gate report: the files don't belong to one run. {fault}", file=sys.stderr)
        return APART
    print(f"wrote {out / 'requests.csv'} and {out / 'report.html'}")
    return DONE


if __name__ == "__main__":
    # Nothing here makes cycles; looking for them in millions of rows takes long.
    gc.disable()
    sys.exit(main(sys.argv[1:]))
