"""Two threads of Python emit into one tracer, each on a CPU of its own, and a histogram counts the events of each."""
from threading import Thread

from tracectl import Tracer

EMISSIONS = 10_000

with Tracer(cpus=2) as tracer:
    tick = tracer.event("tick u32 who; u64 n")
    tick.enable()
    tick.trigger("hist:keys=who:vals=n:sort=who")

    def emit(who: int) -> None:
        for n in range(EMISSIONS):
            tick(who=who, n=n, cpu=who)

    threads = [Thread(target=emit, args=(who,)) for who in range(2)]
    for thread in threads:
        thread.start()
    for thread in threads:
        thread.join()
    print(tracer.read("events/synthetic/tick/hist"), end="")
    print("entries: %d" % tracer.entries())
