"""How the program is built: over a small copy of the repository, with an `rt` that stands in for
the kit's."""
import os
import shutil
import subprocess
import sys
import time
import unittest

from launcher.building import MINUTES
from tests.places import FAKE, TOP, InFolder

# Proves two crates, as `rt run` tells it, and puts the program where it belongs. With BREAK it
# fails; with EDIT it changes a source meanwhile, once.
RT = f"""#!{sys.executable}
import os, sys
if sys.argv[1:] == ["version"]:
    print("a kit of the tests")
    sys.exit(0)
open("../../calls", "a").write("rt " + " ".join(sys.argv[1:]) + "\\n")
for crate in ("low", "gate_program"):
    print(f"rt: chose --jobs 2 for {{crate}}", file=sys.stderr)
    print(f"fn {{crate}}::first: proved", file=sys.stderr)
    print(f"fn {{crate}}::second: proved", file=sys.stderr)
    if os.environ.get("BREAK") == crate:
        print(f"{{crate}}/src/lib.rt:7: this goal is open", file=sys.stderr)
        sys.exit(1)
    print("logic=proved functions=2 sum=0", file=sys.stderr)
if os.environ.get("EDIT") and not os.path.exists("../../edited"):
    open("../../edited", "w").close()
    open("../low/src/lib.rt", "a").write("// changed\\n")
os.makedirs("out", exist_ok=True)
open("out/gate_program", "w").write({FAKE!r})
os.chmod("out/gate_program", 0o755)
"""

# Says something, and then goes on for a long time.
WAITING_RT = f"""#!{sys.executable}
import sys, time
print("this far", file=sys.stderr, flush=True)
open("up", "w").close()
time.sleep(60)
"""


class Building(InFolder):
    def setUp(self):
        super().setUp()
        self.top = self.path("copy")
        os.makedirs(self.top)
        shutil.copy(os.path.join(TOP, "gate"), self.top)
        shutil.copytree(
            os.path.join(TOP, "tools/launcher"), os.path.join(self.top, "tools/launcher")
        )
        self.write("copy/crates.txt", "# two crates\nlow:\nother:\ngate_program: low\n")
        self.write("copy/crates/low/src/lib.rt", "// low\n")
        self.write("copy/crates/other/src/lib.rt", "// other\n")
        self.write("copy/crates/gate_program/src/main.rt", "// main\n")
        self.write("copy/crates/gate_program/README.md", "words\n")
        os.chmod(self.write("bin/rt", RT), 0o755)

    def run_gate(self, *words, env=None, top=None):
        path = f"{self.path('bin')}:{os.environ['PATH']}"
        words = words or ("run", "limits.csv", "out", "a.fix")
        return self.gate(
            *words,
            top=top or self.top,
            env={"GATE_PROGRAM": None, "PATH": path, **(env or {})},
            text="ran\n",
        )

    def built(self):
        """How often the program was built."""
        try:
            return self.read("copy/calls").decode().count("rt run\n")
        except FileNotFoundError:
            return 0

    def test_progress_is_told_crate_by_crate_and_how_long_it_takes(self):
        status, out, error = self.run_gate()
        self.assertEqual((status, out), (0, "ran\n"))
        self.says(
            error,
            f"about {MINUTES} minutes on",
            "gate: proving low (crate 1, of at most 2)",
            "gate: low: 2 functions proved,",
        )
        self.says(error, "gate: proving gate_program (crate 2, of at most 2)", "gate: built")

    def test_what_is_built_is_not_built_again(self):
        self.run_gate()
        self.assertEqual(self.run_gate(), (0, "ran\n", ""))
        self.write("copy/crates/gate_program/README.md", "other words\n")
        self.write("copy/crates/other/src/lib.rt", "// a crate that the program doesn't stand on\n")
        os.utime(self.path("copy/crates/low/src/lib.rt"))
        self.run_gate()
        self.assertEqual(self.built(), 1)

    def test_a_changed_source_is_built_again(self):
        self.run_gate()
        self.write("copy/crates/low/src/lib.rt", "// changed\n")
        self.says(self.run_gate()[2], "gate: built")
        self.write("copy/crates/low/specs/New.antt", "-- new\n")
        self.run_gate()
        self.assertEqual(self.built(), 3)

    def test_a_source_that_is_edited_meanwhile_is_built_again(self):
        status, _, error = self.run_gate(env={"EDIT": "1"})
        self.assertEqual((status, self.built()), (0, 2))
        self.says(error, "a source was changed meanwhile: building again")

    def test_a_failure_tells_the_messages_and_keeps_them(self):
        status, out, error = self.run_gate(env={"BREAK": "low"})
        self.assertEqual((status, out), (1, ""))
        self.says(error, "low/src/lib.rt:7: this goal is open", "gate: all of them are in ")
        log = error.rsplit("all of them are in ", 1)[1].strip()
        with open(log, encoding="utf-8") as file:
            self.says(file.read(), "fn low::second: proved", "this goal is open")
        os.remove(log)

    def test_an_older_program_is_not_run_where_the_build_fails(self):
        self.run_gate()
        self.write("copy/crates/low/src/lib.rt", "// wrong\n")
        status, out, error = self.run_gate(env={"BREAK": "gate_program"})
        self.assertEqual((status, out), (1, ""))
        os.remove(error.rsplit("all of them are in ", 1)[1].strip())

    def test_without_rt_it_says_what_is_missing(self):
        status, _, error = self.run_gate(env={"PATH": self.bare()})
        self.assertEqual(status, 1)
        self.says(error, "`rt` isn't on the PATH", "rattle-kit-13f", "GATE_PROGRAM=PATH")
        self.assertFalse(os.path.exists(self.path("out")))

    def test_a_program_that_is_built_needs_no_rt(self):
        self.run_gate()
        self.assertEqual(self.run_gate(env={"PATH": self.bare()}), (0, "ran\n", ""))

    def test_a_link_to_gate_works(self):
        os.makedirs(self.path("elsewhere"))
        os.symlink(self.path("copy/gate"), self.path("elsewhere/gate"))
        status, out, _ = self.run_gate(top=self.path("elsewhere"))
        self.assertEqual((status, out), (0, "ran\n"))

    def test_a_wrong_call_builds_nothing_and_makes_no_folder(self):
        self.assertEqual(self.run_gate("run", "limits.csv", "out")[0], 2)
        status, out, error = self.run_gate("run", "limits.csv", "out", "no.fix")
        self.assertEqual((status, out), (5, "read fault\n"))
        self.says(
            error, "no.fix can't be read: no such file or directory. Nothing was built or written"
        )
        self.assertEqual(self.built(), 0)
        self.assertFalse(os.path.exists(self.path("out")))

    def test_a_named_program_is_run_and_nothing_built(self):
        self.assertEqual(self.run_gate(env={"GATE_PROGRAM": self.program}), (0, "ran\n", ""))
        status, _, error = self.run_gate(env={"GATE_PROGRAM": self.path("none")})
        self.assertEqual((status, self.built()), (1, 0))
        self.says(error, "there is no program there that can be run")

    def test_a_program_that_can_not_be_started(self):
        os.chmod(self.write("words", "no program\n"), 0o755)
        status, out, error = self.run_gate(env={"GATE_PROGRAM": self.path("words")})
        self.assertEqual((status, out), (1, ""))
        self.says(error, "words can't be started: exec format error")
        self.assertFalse(os.path.exists(self.path("out")))

    def test_an_empty_name_of_a_program_is_none(self):
        self.assertEqual(self.run_gate(env={"GATE_PROGRAM": ""})[0], 0)
        self.assertEqual(self.built(), 1)

    def test_a_report_is_made_by_the_script_beside_and_needs_no_program(self):
        self.write(
            "copy/report/__main__.py",
            "import os, sys\nprint(*sys.argv[1:], os.path.basename(os.getcwd()))\nsys.exit(4)\n",
        )
        status, out, error = self.run_gate(
            "report", "limits.csv", "out", "a.fix", env={"PATH": self.bare()}
        )
        self.assertEqual(
            (status, out, error), (4, f"limits.csv out a.fix {os.path.basename(self.folder)}\n", "")
        )
        self.assertEqual(self.built(), 0)

    def test_what_ends_the_launcher_ends_what_builds(self):
        os.chmod(self.write("bin/rt", WAITING_RT), 0o755)
        call = {
            **os.environ, "PATH": f"{self.path('bin')}:{os.environ['PATH']}", "TMPDIR": self.folder
        }
        call.pop("GATE_PROGRAM", None)
        started = subprocess.Popen(
            [os.path.join(self.top, "gate"), "run", "limits.csv", "out", "a.fix"],
            cwd=self.folder, env=call, stdout=subprocess.PIPE, stderr=subprocess.PIPE,
        )
        while not os.path.exists(self.path("copy/crates/gate_program/up")):
            self.assertIsNone(started.poll())
            time.sleep(0.02)
        started.terminate()
        _, error = started.communicate(timeout=30)
        self.assertEqual(started.returncode, 1)
        self.says(
            error.decode(), "the program could not be built", "  this far", "/gate-build-", ".log"
        )

    def test_what_ends_the_launcher_ends_the_program(self):
        waiting = self.write(
            "waiting", f"#!{sys.executable}\nimport time\nprint('up', flush=True)\ntime.sleep(60)\n"
        )
        os.chmod(waiting, 0o755)
        started = subprocess.Popen(
            [os.path.join(TOP, "gate"), "run", "limits.csv", "out", "a.fix"],
            cwd=self.folder, env={
                **os.environ, "GATE_PROGRAM": waiting
            }, stdout=subprocess.PIPE, stderr=subprocess.PIPE,
        )
        self.assertEqual(started.stdout.readline(), b"up\n")
        started.terminate()
        _, error = started.communicate(timeout=30)
        self.assertEqual(started.returncode, 128 + 15)
        self.says(error.decode(), "the program was ended by SIGTERM")


if __name__ == "__main__":
    unittest.main()
