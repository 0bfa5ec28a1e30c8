"""tracectl: a tracer with ftrace's synthetic events, ring buffers, filters and histograms, within a program. Threads share it.

    from tracectl import Tracer

    with Tracer() as tracer:
        tick = tracer.event("tick u64 n")
        tick.enable()
        tick.trigger("hist:keys=n.log2")
        for n in range(100):
            tick(n=n)
        for row in tracer.histogram(tick).rows:
            print(row.keys["n"], row.hitcount)
        print(tracer.statistics(cpu=0).entries)

Every argument is checked before anything is called. A string is `str` or `bytes`, without a byte 0. A number is an `int`, not a `bool`, that fits the C
type which takes it. All else is a TypeError or a ValueError, and nothing was done. What the tracer refuses is `Refused`. Python 3.8 or later.
"""
from .arguments import Fields, FieldValue, Text
from .event import Event, Field
from .histogram import Bucket, Histogram, Row
from .refused import NAMES, Refused
from .statistics import Statistics
from .tracer import Tracer

__all__ = ["NAMES", "Bucket", "Event", "Field", "FieldValue", "Fields", "Histogram", "Refused", "Row", "Statistics", "Text", "Tracer"]
__version__ = "0.4.2"
