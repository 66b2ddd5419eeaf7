"""The style, the script and the frame of the page, which stand beside this module."""

from pathlib import Path

FOLDER = Path(__file__).resolve().parent


def asset(name: str) -> str:
    """A text that stands beside this module."""
    return (FOLDER / name).read_text(encoding="utf-8")
