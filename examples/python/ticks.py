"""Declares an event, emits it a few times, and shows the result."""
from tracectl import Refused, Tracer

with Tracer(pages=2, page_bytes=64) as tracer:
    tick = tracer.event("tick u64 n; char who[16]")
    tick.enable()
    tick.filter("n > 2")
    for n in range(4):
        tick(n=n, who="two words", process=7)
    tracer.emit("tick", n=4, who="two words", process=7)  # the same by name
    print("waiting: %s" % tracer.waiting("trace_pipe"))
    print(tracer.take("trace_pipe", 1), end="")
    try:
        tick.filter("n > and")
    except Refused as refused:
        print("refused: %s at %s" % (refused.name, refused.offset))
    statistics = tracer.statistics(cpu=0)
    print("%d kept, %d overwritten" % (statistics.entries, statistics.overrun))
    print(tracer.read("per_cpu/cpu0/stats"), end="")
    print("entries: %d" % tracer.entries())
