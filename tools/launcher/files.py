"""Files compared as files: whatever way a name is spelled, and through links."""
import os


def identity(path):
    """What two names of one file have in common: the file's number on its device, or, where there
    is no file yet, the path with every link followed."""
    try:
        found = os.stat(path)
        return (found.st_dev, found.st_ino)
    except OSError:
        return os.path.realpath(path)


def first_pair(named):
    """The first two of these (label, path) whose paths are one file, or None."""
    seen = {}
    for label, path in named:
        file = identity(path)
        if file in seen:
            return seen[file], label
        seen[file] = label
    return None


def why_not_read(path):
    """Why the file can't be read, or None. A pipe is left alone, since to open it would take its
    bytes."""
    try:
        if os.path.isdir(path):
            return "it is a folder"
        if os.path.exists(path) and not os.path.isfile(path):
            return None if os.access(path, os.R_OK) else "permission denied"
        with open(path, "rb") as file:
            file.read(1)
        return None
    except OSError as error:
        return (error.strerror or str(error)).lower()


def why_not_written(path):
    """Why the file can't be written, or None. It isn't changed, and isn't made."""
    folder = os.path.dirname(path) or "."
    if os.path.isdir(path):
        return "it is a folder"
    if not os.path.isdir(folder):
        return f"{folder} is no folder"
    try:
        if os.path.isfile(path):
            open(path, "r+b").close()
            return None
    except OSError as error:
        return (error.strerror or str(error)).lower()
    if not os.access(folder, os.W_OK | os.X_OK):
        return f"no file can be made in {folder}: permission denied"
    return None


def make_folder(path):
    """Makes a folder where there is none, with those above it; the ones that it made, lowest
    first."""
    missing, made, path = [], [], os.path.abspath(path)
    while not os.path.lexists(path):
        missing.append(path)
        path = os.path.dirname(path)
    try:
        for folder in reversed(missing):
            os.mkdir(folder)
            made.insert(0, folder)
    except OSError:
        pass
    return made


def drop_empty(folders):
    """Takes folders away again in which nothing is."""
    try:
        for folder in folders:
            os.rmdir(folder)
    except OSError:
        pass


def is_full(folder):
    """Whether the file system of this folder has no room left."""
    try:
        return os.statvfs(folder).f_bavail == 0
    except OSError:
        return False
