"""histogram.py [FILE]: counts requests by how long they took, and shows the histogram as lines of text, or, where matplotlib is installed and a file is
named, draws it into that (FILE.png, FILE.svg)."""
from __future__ import annotations

import sys

from tracectl import Histogram, Tracer

WIDTH = 40  # of the longest bar


def durations() -> list[int]:
    """Made up, so that each run shows the same: most requests are fast, and a few of the slow path are not."""
    return [100 + n * n * 37 % 800 + (20_000 if n % 50 == 7 else 0) for n in range(1_000)]


def show(histogram: Histogram) -> None:
    most = max(row.hitcount for row in histogram.rows)
    for row in histogram.rows:
        bar = "#" * max(1, WIDTH * row.hitcount // most)
        print("%14s us %5d  mean %7.1f  %s" % (row.keys["us"], row.hitcount, row.values["us"] / row.hitcount, bar))


def draw(histogram: Histogram, file: str) -> bool:
    """Whether it can be drawn: whether there is matplotlib."""
    try:
        from matplotlib.figure import Figure
    except ImportError:
        return False
    figure = Figure(layout="constrained")
    axes = figure.add_subplot(title="Requests by duration", xlabel="microseconds", ylabel="requests", yscale="log")
    axes.bar([str(row.keys["us"]) for row in histogram.rows], [row.hitcount for row in histogram.rows])
    figure.savefig(file)
    return True


with Tracer() as tracer:
    request = tracer.event("request u64 us")
    request.trigger("hist:keys=us.log2:vals=us:sort=us")
    for us in durations():
        request(us=us)
    histogram = tracer.histogram(request)

if len(sys.argv) < 2 or not draw(histogram, sys.argv[1]):
    show(histogram)
    print("%d requests" % histogram.hits)
