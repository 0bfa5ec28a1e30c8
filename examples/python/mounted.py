"""mounted.py DIR: two threads serve requests, and trace them, while the tracer is mounted on the folder DIR. A shell beside it asks about them:

    cd DIR
    echo 'hist:keys=path:vals=us:sort=us.descending' > events/synthetic/request/trigger
    cat events/synthetic/request/hist
    echo 'us >= 5000' > events/synthetic/request/filter
    echo 1 > events/synthetic/request/enable
    cat trace_pipe                                              # waits for a slow one

It ends when it is interrupted, or terminated.
"""
from __future__ import annotations

import signal
import sys
import time
from threading import Event as Flag
from threading import Thread, get_native_id

from tracectl import Event, Refused, Tracer

WORKERS = 2
PATHS = ("/", "/style.css", "/login", "/search")


def serve(number: int) -> str:
    """Serves a request, one in a hundred of which is slow, and has its path."""
    is_report = number % 100 == 50
    time.sleep(0.006 if is_report else 0.001)
    return "/report" if is_report else PATHS[number % 4]


def work(request: Event, worker: int, is_over: Flag) -> None:
    number = worker
    while not is_over.is_set():
        begun = time.perf_counter_ns()
        path = serve(number)
        if request.wanted:
            request(us=(time.perf_counter_ns() - begun) // 1000, path=path, cpu=worker, process=get_native_id())
        number += WORKERS


def main(folder: str) -> None:
    is_over = Flag()
    for number in (signal.SIGINT, signal.SIGTERM):
        signal.signal(number, lambda *_: is_over.set())
    with Tracer(cpus=WORKERS) as tracer:
        request = tracer.event("request u64 us; char path[32]")
        workers = [Thread(target=work, args=(request, worker, is_over)) for worker in range(WORKERS)]
        with tracer.mounted(folder):
            for worker in workers:
                worker.start()
            for worker in workers:
                worker.join()


if len(sys.argv) != 2:
    sys.exit("usage: mounted.py DIR")
try:
    main(sys.argv[1])
except Refused as refused:
    sys.exit("mounted.py: %s" % refused)
