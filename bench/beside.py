"""Copies a bench's proved program beside the crates that it uses."""
import os
import shutil

BENCH = os.path.dirname(os.path.abspath(__file__))
TOP = os.path.dirname(BENCH)


def copy_beside(folder, program, crates, used):
    """The program of this name in a folder, beside these crates, of which it takes the sources, definitions and
    proofs. Its own line of crates.txt has the crates and libraries that it uses."""
    for name in crates:
        for part in ("src", "specs", "proofs"):
            source = os.path.join(TOP, "crates", name, part)
            if os.path.isdir(source):
                shutil.copytree(source, os.path.join(folder, "crates", name, part))
    for path, _, names in os.walk(os.path.join(BENCH, program)):
        for name in names:
            target = os.path.join(folder, "crates", os.path.relpath(path, BENCH))
            os.makedirs(target, exist_ok=True)
            shutil.copy(os.path.join(path, name), os.path.join(target, name.removesuffix(".txt")))
    shutil.copy(os.path.join(TOP, "HANDLES"), folder)
    with open(os.path.join(TOP, "crates.txt"), encoding="utf-8") as lines:
        kept = [line for line in lines if line.split(":")[0] in crates]
    with open(os.path.join(folder, "crates.txt"), "w", encoding="utf-8") as out:
        out.writelines(kept)
        out.write(program + ": " + " ".join(used) + "\n")
