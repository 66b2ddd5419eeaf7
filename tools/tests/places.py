"""Folders for tests, programs that stand in for the gate, and calls of the launcher."""
import json
import os
import shutil
import subprocess
import sys
import tempfile
import unittest

TOP = os.path.dirname(os.path.dirname(os.path.dirname(os.path.realpath(__file__))))

# Writes the files that it is told to, prints its text, and ends with its status.
FAKE = f"""#!{sys.executable}
import json, os, sys
told = json.loads(os.environ["FAKE"])
for name, text in told.get("files", {{}}).items():
    open(os.path.join(sys.argv[3], name), "w").write(text)
sys.stdout.write(told.get("text", ""))
sys.stdout.flush()
if "signal" in told:
    os.kill(os.getpid(), told["signal"])
sys.exit(told["status"])
"""

LIMITS = "firm,,1000,,,\naccount,ACC,100000,,,\nsymbol,XYZ,100000,1,12,100000\n"


def soh(text):
    """Bytes with SOH where the text has `|`."""
    return text.replace("|", "\x01").encode()


ORDER = soh(
    "8=FIX.4.4|9=113|35=D|49=C1|56=GATE|34=1|52=20240102-10:00:00|11=a1|1=ACC|55=XYZ|54=1|38=100|"
    "40=2|44=10.0000|60=20240102-10:00:00|10=175|"
)


class InFolder(unittest.TestCase):
    """A test in a folder of its own, with limits, a session `a.fix`, and a program that stands in
    for the gate."""

    def setUp(self):
        self.folder = tempfile.mkdtemp(prefix="gate-test-")
        self.addCleanup(shutil.rmtree, self.folder)
        self.write("limits.csv", LIMITS)
        self.write("a.fix", ORDER)
        self.program = self.write("fake", FAKE)
        os.chmod(self.program, 0o755)

    def path(self, name):
        return os.path.join(self.folder, name)

    def write(self, name, data):
        path = self.path(name)
        os.makedirs(os.path.dirname(path), exist_ok=True)
        with open(path, "wb") as file:
            file.write(data.encode() if isinstance(data, str) else data)
        return path

    def read(self, name):
        with open(self.path(name), "rb") as file:
            return file.read()

    def gate(self, *words, top=TOP, env=None, **told):
        """The launcher's status, standard output and standard error, over the stand-in."""
        call = {
            **os.environ,
            "GATE_PROGRAM": self.program,
            "FAKE": json.dumps({"status": 0, **told}),
            **(env or {}),
        }
        call = {key: value for key, value in call.items() if value is not None}
        done = subprocess.run(
            [
                sys.executable, os.path.join(top, "gate"), *words
            ], cwd=self.folder, env=call, capture_output=True, stdin=subprocess.DEVNULL
        )
        return done.returncode, done.stdout.decode(), done.stderr.decode()

    def bare(self):
        """A PATH on which there is Python and nothing else."""
        folder = self.path("bare")
        os.makedirs(folder, exist_ok=True)
        if not os.path.exists(os.path.join(folder, "python3")):
            os.symlink(sys.executable, os.path.join(folder, "python3"))
        return folder

    def says(self, told, *parts):
        """That each of these texts stands in what was told."""
        for part in parts:
            self.assertIn(part, told)
