"""Threads that share a tracer."""
import threading
import unittest

from tracectl import Refused, Tracer

THREADS, EMISSIONS = 4, 2_000


class Threads(unittest.TestCase):
    def started(self, *targets):
        threads = [threading.Thread(target=target) for target in targets]
        for thread in threads:
            thread.start()
        for thread in threads:
            thread.join()

    def test_all_emissions_are_counted(self):
        with Tracer(cpus=THREADS) as tracer:
            tick = tracer.event("tick u32 who; u64 n")
            tick.enable()
            tick.trigger("hist:keys=who:vals=n:sort=who")

            def emit(who):
                for n in range(EMISSIONS):
                    tick(who=who, n=n, cpu=who)

            self.started(*(lambda who=who: emit(who) for who in range(THREADS)))
            found = tracer.histogram(tick)
            want = [({"who": who}, EMISSIONS, {"n": EMISSIONS * (EMISSIONS - 1) // 2}) for who in range(THREADS)]
            self.assertEqual([tuple(row) for row in found.rows], want)
            self.assertEqual(sum(tracer.statistics(cpu).entries + tracer.statistics(cpu).overrun for cpu in range(THREADS)), THREADS * EMISSIONS)

    def test_threads_that_declare_one_event_find_one(self):
        with Tracer() as tracer:
            numbers = []
            self.started(*([lambda: numbers.append(tracer.event("tick u64 n").number)] * 8))
            self.assertEqual(numbers, [1] * 8)

    def test_it_is_closed_once_the_others_have_left(self):
        tracer, joined, may_end = Tracer(), threading.Event(), threading.Event()

        def stay():
            tracer.read("trace")
            joined.set()
            may_end.wait()

        thread = threading.Thread(target=stay)
        thread.start()
        joined.wait()
        with self.assertRaises(Refused) as raised:
            tracer.close()
        self.assertEqual(raised.exception.name, "StillJoined")
        may_end.set()
        thread.join()
        tracer.close()

    def test_a_refusal_belongs_to_its_thread(self):
        with Tracer() as tracer:
            tick, fields = tracer.event("tick u8 n; u8 m"), []

            def refuse(**values):
                for _ in range(500):
                    try:
                        tick(**values)
                    except Refused as refused:
                        fields.append((refused.field, *values.values()))

            self.started(lambda: refuse(n=256, m=0), lambda: refuse(n=0, m=256))
            self.assertEqual(sorted(fields), [("m", 0, 256)] * 500 + [("n", 256, 0)] * 500)
