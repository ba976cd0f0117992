"""Puts measured tables into bench/RESULTS.md, between two comments that name them."""

from __future__ import annotations

from pathlib import Path

__all__ = ["PAGE", "load", "put"]

PAGE = Path(__file__).resolve().parents[2] / "bench" / "RESULTS.md"


def put(name: str, text: str) -> None:
    """Replaces the text between `<!-- NAME -->` and `<!-- End of NAME -->`, if the page has them."""
    begin, end = f"<!-- {name} -->\n", f"<!-- End of {name} -->"
    page = PAGE.read_text(encoding="utf-8")
    if begin not in page:
        return
    before, rest = page.split(begin)
    after = rest.split(end, 1)[1]
    PAGE.write_text(f"{before}{begin}{text}{end}{after}", encoding="utf-8")


def load() -> str:
    """What is said of the machine next to figures: its processors, and how many processes wanted one meanwhile."""
    processors = sum(
        line.startswith("processor") for line in Path("/proc/cpuinfo").read_text().splitlines()
    )
    waiting = float(Path("/proc/loadavg").read_text().split()[1])
    return f"{processors} processors, a load of {waiting:.0f} in the last five minutes"
