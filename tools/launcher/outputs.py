"""The outputs that lie in the folder OUT, a report among them, and which of them are of an earlier
run, or of an earlier filter."""
import os
import re
import stat


def marks(run):
    """Each output of such a call in its folder that is a plain file, with what changes when it is
    written."""
    found = {}
    for name in names(run):
        try:
            file = os.stat(os.path.join(run.out, name))
        except OSError:
            continue
        if stat.S_ISREG(file.st_mode):
            found[name] = (file.st_ino, file.st_size, file.st_mtime_ns, file.st_ctime_ns)
    return found


def names(run):
    """The names of such outputs in its folder, those of more sessions among them."""
    single = map(re.escape, (run.journal_file, *run.reports))
    output = re.compile("|".join([rf"s\d\d\.(?:{'|'.join(run.kinds)})", *single]))
    try:
        return sorted(name for name in os.listdir(run.out) if output.fullmatch(name))
    except OSError:
        return []


def left_over(run, before, status):
    """The outputs of an earlier run that this one didn't write. At 0 and 4 it wrote all its own."""
    after = marks(run)
    own = {os.path.basename(path) for path in run.outputs()}
    kept = [name for name in before if after.get(name) == before[name]]
    return [name for name in kept if not (name in own and status in (0, 4))]


def was_written(run, before):
    """Whether this run wrote its journal."""
    name = os.path.basename(run.journal())
    after = marks(run)
    return name in after and after[name] != before.get(name)
