"""Loads a page of tools/view in a headless Chromium, and scrolls it.

It prints the microseconds until the page is loaded and a frame drawn, the number of its arrows, and
the microseconds of the median and of the longest frame while it scrolls.
"""

import pathlib
import statistics
import sys

ROOT = pathlib.Path(__file__).resolve().parents[2]
sys.path += [str(ROOT / "tests"), str(ROOT / "tools")]

import command
from browser import Browser

NAME = "bench/view/load.py"

FIRST_FRAME = """new Promise((done) => requestAnimationFrame(() => setTimeout(() => {
  const [{ loadEventEnd }] = performance.getEntriesByType("navigation");
  const painted = performance.getEntriesByType("paint").at(-1)?.startTime ?? 0;
  done(Math.max(loadEventEnd, painted));
})))"""
SCROLL = """new Promise((done) => {
  const scroller = document.getElementById("scroller");
  const times = [];
  const step = (time) => {
    times.push(time);
    scroller.scrollTop += 400;
    if (times.length <= 120) requestAnimationFrame(step);
    else done(times.slice(1).map((it, at) => it - times[at]));
  };
  requestAnimationFrame(step);
})"""


def main():
    parser = command.Parser(NAME, __doc__)
    parser.add_argument("page", type=pathlib.Path, help="the page")
    words = parser.parse_args()
    if not words.page.is_file():
        parser.error(f"there is no page {words.page}")
    with Browser() as browser:
        # What a first page of the browser takes besides is no part of the load.
        browser.open("/dev/null")
        page = browser.open(words.page)
        loaded = page.value(FIRST_FRAME)
        arrows = page.value("document.querySelectorAll('.delivery').length")
        frames = page.value(SCROLL)
    times = [loaded, statistics.median(frames), max(frames)]
    micros, median, longest = (round(1000 * time) for time in times)
    print(micros, arrows, median, longest)
    return 0


if __name__ == "__main__":
    command.run(NAME, main)
