#!/usr/bin/python3
"""Writes one HTML page about what `edge replay` answered, with pictures inside.

usage: report.py [--trace TRACE] [--key KEY] [--title TITLE] OUTPUT [OTHER] >page.html

OUTPUT is what was answered to a trace, OTHER what was answered to the same trace under another document; with both, the
page shows which verdicts differ. TRACE are the lines that were answered: with them verdicts are shown by their moments,
and keys are told. KEY is what a key is told by: `ip` (the default), `target`, or `header:NAME`. How far it has come is
said on standard error.
"""
import argparse
import base64
import html
import io
import itertools
import json
import sys
import time
from collections import Counter, defaultdict
from dataclasses import dataclass, field
from pathlib import Path

import matplotlib

matplotlib.use("svg")
from matplotlib import pyplot  # noqa: E402  the backend is chosen first
from matplotlib.ticker import MaxNLocator  # noqa: E402

COLOURS = {"pass": "#4c9f70", "challenge": "#e0a030", "redirect": "#4f7cac", "block": "#c0392b"}
BARS = 80  # of a picture over time
LONG = 50  # bytes of a cell above which it is broken
ROWS = 15  # of a picture or a table by rules or keys
SHOWN = 200  # requests that differ, one by one
STEP = 100_000  # answers between two words on standard error

STYLE = """
body { font: 16px/1.5 system-ui, sans-serif; color: #222; max-width: 62rem; margin: 2rem auto; padding: 0 1rem; }
summary { margin: 1rem 0 0.4rem; cursor: pointer; }
h1 { font-size: 1.6rem; } h2 { font-size: 1.2rem; margin-top: 2.2rem; border-bottom: 1px solid #ddd; }
img { max-width: 100%; } table { border-collapse: collapse; width: 100%; font-size: 0.9rem; }
th, td { text-align: left; padding: 0.25rem 0.6rem; border-bottom: 1px solid #eee; vertical-align: top; }
td { white-space: nowrap; } td.long { white-space: normal; overflow-wrap: anywhere; }
td.number, th.number { text-align: right; } .none { color: #777; }
"""


@dataclass
class Answer:
    number: int
    verdict: str  # with its status
    rule: str
    target: str
    counts: str

    @property
    def kind(self):
        return self.verdict.partition(":")[0]

    @property
    def is_over(self):
        return "over@" in self.counts

    @property
    def outcome(self):
        return self.verdict if self.rule == "-" else f"{self.verdict} by {self.rule}"


@dataclass
class Side:
    """What one output comes to."""

    name: str
    kinds: Counter = field(default_factory=Counter)
    rules: Counter = field(default_factory=Counter)
    noted: Counter = field(default_factory=Counter)
    keys: Counter = field(default_factory=Counter)
    times: dict = field(default_factory=lambda: defaultdict(Counter))
    bad: int = 0

    def add(self, answer, noted, moment, key):
        self.kinds[answer.kind] += 1
        self.times[moment][answer.kind] += 1
        if answer.rule != "-":
            self.rules[answer.rule] += 1
        self.noted.update(noted)
        if answer.is_over:
            self.keys[key] += 1


@dataclass
class Difference:
    """Which requests have another verdict or another rule in the second output."""

    outcomes: Counter = field(default_factory=Counter)
    shown: list = field(default_factory=list)

    def add(self, first, second, item):
        if (first.verdict, first.rule) == (second.verdict, second.rule):
            return
        self.outcomes[first.outcome, second.outcome] += 1
        if len(self.shown) < SHOWN:
            self.shown.append((first, second, item))


def answers_of(path):
    """The answers that are no deployments: a request's answer with the rules that noted it, or none for a bad line."""
    with open(path, encoding="utf-8", errors="replace") as lines:
        for line in lines:
            if line.startswith("deploy "):
                continue
            if line.startswith("bad "):
                yield None, []
                continue
            parts = line.rstrip("\n").split(" ")
            noted = next((part[4:].split(",") for part in parts[6:] if part.startswith("log=")), [])
            yield Answer(int(parts[0]), parts[2], parts[3], parts[4], parts[5]), noted


def items_of(path):
    """The lines of a trace that are no deployments and not blank; None for a line that is no object."""
    with open(path, encoding="utf-8", errors="replace") as lines:
        for line in lines:
            if not line.strip(" \t\r\n"):
                continue
            try:
                item = json.loads(line)
            except ValueError:
                item = None
            if not isinstance(item, dict):
                yield None
            elif "deploy" not in item:
                yield item


def head_of(item):
    """The target and the headers of a request that was answered: told by its line, or as they stand in `raw`."""
    if "raw" not in item:
        return item.get("target"), item.get("headers", [])
    first, *lines = item["raw"].lstrip("\r\n").partition("\r\n\r\n")[0].split("\r\n")
    headers = [(name, value.strip(" \t")) for name, _, value in (line.partition(":") for line in lines)]
    return first.split(" ")[1], headers


def key_of(item, told_by):
    """What the key of a request is told by."""
    if item is None:
        return "(not told: no trace)"
    if told_by == "ip":
        return str(item.get("ip"))
    target, headers = head_of(item)
    if told_by == "target":
        return target
    name = told_by.removeprefix("header:").lower()
    return next((value for other, value in headers if other.lower() == name), "(none)")


def moment_of(item, answer):
    """Seconds of the request's moment; without a trace its number."""
    return answer.number if item is None else item["at"] // 1000


def read(arguments):
    """The sides of the outputs, and how they differ, walked side by side with the trace."""
    sides = [Side(Path(path).name) for path in arguments.outputs]
    items = items_of(arguments.trace) if arguments.trace else itertools.repeat(None)
    difference, begun = Difference(), time.monotonic()
    walks = [answers_of(path) for path in arguments.outputs]
    together = zip(zip(*walks, strict=True), items, strict=arguments.trace is not None)
    for count, (pair, item) in enumerate(together, 1):
        if count % STEP == 0:
            print(f"report: {count:,} answers, {time.monotonic() - begun:.0f} s", file=sys.stderr)
        for side, (answer, noted) in zip(sides, pair):
            if answer is None:
                side.bad += 1
            else:
                side.add(answer, noted, moment_of(item, answer), key_of(item, arguments.key))
        if len(pair) == 2 and pair[0][0] and pair[1][0]:
            difference.add(pair[0][0], pair[1][0], item)
    return sides, difference


def picture(figure, told):
    """A picture as it stands in the page."""
    out = io.BytesIO()
    figure.savefig(out, format="svg", bbox_inches="tight")
    pyplot.close(figure)
    data = base64.b64encode(out.getvalue()).decode()
    return f'<img alt="{html.escape(told)}" src="data:image/svg+xml;base64,{data}">'


def over_time(side, unit):
    """Bars of the verdicts, one behind the other, over at most BARS spans of time."""
    first, last = min(side.times), max(side.times)
    width = (last - first) // BARS + 1
    bars = defaultdict(Counter)
    for moment, kinds in side.times.items():
        bars[(moment - first) // width].update(kinds)
    places = range((last - first) // width + 1)
    figure, axes = pyplot.subplots(figsize=(9, 2.8))
    under = [0] * len(places)
    for kind, colour in COLOURS.items():
        heights = [bars[place][kind] for place in places]
        if any(heights):
            axes.bar([place * width for place in places], heights, width, under, align="edge", color=colour, label=kind)
        under = [low + height for low, height in zip(under, heights)]
    axes.yaxis.set_major_locator(MaxNLocator(integer=True))
    axes.set_xlabel(f"{unit}, {width} to a bar")
    axes.set_ylabel("requests")
    axes.spines[["top", "right"]].set_visible(False)
    axes.legend(frameon=False, loc="upper left", bbox_to_anchor=(1, 1))
    return picture(figure, f"verdicts of {side.name} over time")


def rows_picture(counts, told, colour):
    """Bars of the greatest counts, the greatest above."""
    rows = counts.most_common(ROWS)[::-1]
    figure, axes = pyplot.subplots(figsize=(9, 0.6 + 0.32 * len(rows)))
    bars = axes.barh([name[:60] for name, _ in rows], [count for _, count in rows], color=colour)
    axes.bar_label(bars, padding=4)
    axes.xaxis.set_major_locator(MaxNLocator(integer=True))
    axes.spines[["top", "right"]].set_visible(False)
    axes.set_xlabel("requests")
    return picture(figure, told)


def rank(cell):
    """How a cell stands."""
    if isinstance(cell, int):
        return ' class="number"'
    return ' class="long"' if len(cell) > LONG else ""


def table(heads, rows):
    """A table of at least one row; numbers stand at the right, and so do their heads."""
    out = ["<table><tr>", *(f"<th{rank(cell)}>{html.escape(head)}</th>" for cell, head in zip(rows[0], heads)), "</tr>"]
    for row in rows:
        shown = (f"{cell:,}" if isinstance(cell, int) else html.escape(cell) for cell in row)
        out += ["<tr>", *(f"<td{rank(cell)}>{text}</td>" for cell, text in zip(row, shown)), "</tr>"]
    return "".join(out) + "</table>"


def counted(counts, told, colour):
    return rows_picture(counts, told, colour) if counts else '<p class="none">none</p>'


def side_parts(side, has_trace, key):
    """The part of the page on one output."""
    name = html.escape(side.name)
    total = sum(side.kinds.values())
    heads = ["requests", *COLOURS, "lines that are no item"]
    yield f"<h2>{name}: verdicts over time</h2>"
    yield table(heads, [[total, *(side.kinds[kind] for kind in COLOURS), side.bad]])
    if side.times:
        yield over_time(side, "seconds from the first moment" if has_trace else "numbers of requests")
    yield f"<h2>{name}: rules by the requests that they stopped</h2>"
    yield counted(side.rules, f"rules of {side.name}", COLOURS["block"])
    if side.noted:
        yield f"<h2>{name}: rules by the requests that they noted</h2>"
        yield counted(side.noted, f"noting rules of {side.name}", COLOURS["redirect"])
    yield f"<h2>{name}: keys most often over a limit, by {html.escape(key)}</h2>"
    yield counted(side.keys, f"keys of {side.name}", COLOURS["challenge"])


def difference_parts(sides, difference):
    """The part of the page on what differs."""
    first, second = (side.name for side in sides)
    total = sum(difference.outcomes.values())
    yield f"<h2>Requests that {html.escape(second)} answers in another way</h2>"
    yield f"<p>{total:,} of {sum(sides[0].kinds.values()):,} requests.</p>"
    if total:
        rows = [(*pair, count) for pair, count in difference.outcomes.most_common(ROWS)]
        yield table([first, second, "requests"], rows)
        rows = [(a.number, key_of(item, "ip"), a.target[:120], a.outcome, b.outcome) for a, b, item in difference.shown]
        yield f"<details{' open' if len(rows) <= ROWS else ''}><summary>the first {len(rows):,} of them</summary>"
        yield table(["request", "ip", "target", first, second], rows) + "</details>"


def page(arguments, sides, difference):
    title = html.escape(arguments.title)
    yield f'<!doctype html><html lang="en"><meta charset="utf-8"><title>{title}</title><style>{STYLE}</style>'
    yield f"<h1>{title}</h1>"
    if len(sides) == 2:
        yield from difference_parts(sides, difference)
    for side in sides:
        yield from side_parts(side, bool(arguments.trace), arguments.key)
    yield "</html>"


def words():
    parser = argparse.ArgumentParser(description="Writes an HTML page about what edge replay answered.")
    parser.add_argument("outputs", nargs="+", metavar="OUTPUT", help="one output, or two of the same trace")
    parser.add_argument("--trace", help="the lines that were answered")
    parser.add_argument("--key", default="ip", help="what keys are told by: ip, target or header:NAME")
    parser.add_argument("--title", default="What the rules did")
    arguments = parser.parse_args()
    if len(arguments.outputs) > 2:
        parser.error("two outputs at most")
    if arguments.key not in ("ip", "target") and not arguments.key.startswith("header:"):
        parser.error("a key is told by ip, target or header:NAME")
    return arguments


def main():
    arguments = words()
    try:
        sides, difference = read(arguments)
    except ValueError as fault:
        sys.exit(f"report: these don't belong together, or one is no output: {fault}")
    print("report: drawing", file=sys.stderr)
    sys.stdout.writelines(part + "\n" for part in page(arguments, sides, difference))


if __name__ == "__main__":
    main()
