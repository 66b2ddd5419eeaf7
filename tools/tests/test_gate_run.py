"""What `.ci/run` ends with: the status of the proofs, or, where they passed, that of the scripts'
tests."""
import os
import shutil
import subprocess
import unittest

from tests.places import TOP, InFolder

# The status of `rt ci`, whether the scripts' tests pass, and the status of the whole.
ENDS = [(0, True, 0), (0, False, 1), (1, True, 1), (3, True, 3), (3, False, 3)]


class GateRun(InFolder):
    def test_no_branch_hides_a_failed_proof_or_test(self):
        os.makedirs(self.path("copy/.ci"))
        shutil.copy(os.path.join(TOP, ".ci/run"), self.path("copy/.ci/run"))
        for proved, passed, status in ENDS:
            with self.subTest(proved=proved, passed=passed):
                self.stand_in("rt", f'[ "$*" = ci ] && exit {proved}; exit 9')
                self.stand_in("python3", f"exit {0 if passed else 1}")
                path = f"{self.path('bin')}:{os.environ['PATH']}"
                done = subprocess.run(
                    [self.path("copy/.ci/run")],
                    env={**os.environ, "PATH": path},
                    capture_output=True,
                )
                self.assertEqual(done.returncode, status)

    def stand_in(self, name, line):
        os.chmod(self.write(f"bin/{name}", f"#!/bin/sh\n{line}\n"), 0o755)


if __name__ == "__main__":
    unittest.main()
