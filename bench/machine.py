"""What figures were measured on: the machine, how the runs were scheduled, the kit, the commit."""
import os
import re
import shutil
import subprocess

POLICIES = {os.SCHED_FIFO: "real-time", os.SCHED_RR: "real-time", os.SCHED_OTHER: "plain",
            os.SCHED_BATCH: "batch", os.SCHED_IDLE: "idle"}


def model(told):
    """The name of the processors and their speed, by the text of /proc/cpuinfo."""
    name = re.search(r"^model name\s*:\s*(.+)$", told, re.M)
    speed = re.search(r"^cpu MHz\s*:\s*([0-9.]+)$", told, re.M)
    at = f" at {float(speed[1]) / 1000:.1f} GHz" if speed else ""
    plain = re.sub(r"\(R\)|\(TM\)| @ .*", "", name[1]) if name else "unknown"
    return plain + at


def processors():
    """How many processors this may use, and which they are."""
    try:
        with open("/proc/cpuinfo", encoding="utf-8") as file:
            told = file.read()
    except OSError:
        told = ""
    count = len(os.sched_getaffinity(0))
    return f"{count} processor{'s' if count != 1 else ''}, {model(told)}"


def priority():
    """How this and all that it calls are scheduled."""
    policy = POLICIES.get(os.sched_getscheduler(0), "another")
    number = os.sched_getparam(0).sched_priority
    return f"{policy} priority {number}" if number else f"{policy} priority"


def kit():
    """The version of the kit, where its `rt` is there."""
    if shutil.which("rt") is None:
        return "no kit"
    done = subprocess.run(["rt", "version"], capture_output=True, text=True, check=False)
    return done.stdout.split(" ")[0].strip() or "a kit of no version"


def commit(folder):
    """The commit that is checked out around a folder, where git knows it."""
    if shutil.which("git") is None:
        return "no commit"
    done = subprocess.run(["git", "rev-parse", "--short", "HEAD"], cwd=folder,
                          capture_output=True, text=True, check=False)
    return f"commit {done.stdout.strip()}" if done.returncode == 0 else "no commit"


def load():
    """The load of the last minute."""
    return f"{os.getloadavg()[0]:.1f}"
