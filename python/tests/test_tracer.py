"""Strings, refusals, and the calls of a tracer by their files."""
import pickle
import unittest

from tracectl import NAMES, Refused, Tracer


class Strings(unittest.TestCase):
    def setUp(self):
        self.tracer = Tracer()
        self.addCleanup(self.tracer.close)
        self.tracer.append("synthetic_events", "tick u64 n; char who[8]")

    def test_what_is_read_has_the_type_of_its_path(self):
        self.assertEqual(self.tracer.read("tracing_on"), "1\n")
        self.assertEqual(self.tracer.read(b"tracing_on"), b"1\n")
        self.assertEqual(self.tracer.line("cat tracing_on"), "1\n")
        self.assertEqual(self.tracer.line(b"cat tracing_on"), b"1\n")
        self.tracer.write("events/enable", b"1")
        self.tracer.emit("tick", n=1, who="a")
        self.tracer.emit("tick", n=2, who=b"b")
        self.assertEqual(self.tracer.take("trace_pipe", 1), "0 [000] 1: tick: n=1 who=a\n")
        self.assertEqual(self.tracer.take(b"trace_pipe", 1), b"0 [000] 2: tick: n=2 who=b\n")
        self.assertIn("rw synthetic_events", self.tracer.files().split("\n"))

    def test_writing_and_appending(self):
        self.tracer.write("events/enable", "1")
        self.tracer.emit("tick", n=1, who="a")
        self.tracer.append("trace", "")
        self.assertEqual(self.tracer.statistics().entries, 1)
        self.tracer.write("trace", "")
        self.assertEqual(self.tracer.statistics().entries, 0)

    def test_bytes_that_are_no_utf_8_come_back(self):
        path = "events/synthetic/tick/filter"
        self.tracer.write(path, b"who == '\xff\xc3\xa9'")
        text = self.tracer.read(path)
        self.assertEqual(text, "who == '\udcff\u00e9'\n")
        self.tracer.write(path, text.strip())
        self.assertEqual(self.tracer.read(path.encode()), b"who == '\xff\xc3\xa9'\n")

    def test_a_refusal_has_a_name_and_where_it_is(self):
        with self.assertRaises(Refused) as raised:
            self.tracer.write("events/synthetic/tick/filter", "n > and")
        refused = raised.exception
        self.assertEqual((refused.status, refused.name, refused.offset, refused.field), (9, "FilterSyntax", 4, None))
        self.assertEqual(refused.explanation, "expected a number")
        self.assertEqual(str(refused), "FilterSyntax at 4: expected a number (status 9)")
        with self.assertRaises(Refused) as raised:
            self.tracer.emit("tick", n=-1, who="")
        self.assertEqual((raised.exception.name, raised.exception.offset, raised.exception.field), ("BadRow", None, "n"))
        self.assertEqual(raised.exception.explanation, "n: its value is out of the range of its type")
        self.assertEqual(str(raised.exception), "BadRow: n: its value is out of the range of its type (status 21)")

    def test_an_explanation_is_of_the_call_that_was_refused(self):
        def explained(call, *given, **named):
            with self.assertRaises(Refused) as raised:
                call(*given, **named)
            return raised.exception.explanation

        line = self.tracer.line
        self.assertEqual(explained(line, "emit 0 1 tock n=1"), "no event of this name is declared")
        self.assertEqual(explained(line, "emit 0 1"), "expected `emit CPU PID EVENT FIELD=VALUE ..`")
        self.assertEqual(explained(line, "  emti 0 1"), "unknown command")
        self.assertEqual(explained(line, "parallel"), "only a script has parallel parts")
        self.assertEqual(explained(self.tracer.emit_values, 1, 2, "a" * 9), "who: its value is too long")
        self.assertEqual(explained(self.tracer.emit_values, 2, 2), "no event of this name is declared")
        self.assertEqual(explained(self.tracer.read, "nothing"), "no file has this path")
        self.assertEqual(explained(self.tracer.take, "trace", 1), "only a pipe is read by `take`")
        long = "f" * 300
        self.assertEqual(explained(self.tracer.emit, "tick", {long: 1}), long + ": the event has no field of this name")

    def test_a_refusal_of_the_package_alone_has_no_explanation(self):
        with self.assertRaises(Refused) as raised:
            Tracer(cpus=0)
        self.assertEqual((raised.exception.explanation, str(raised.exception)), (None, "BadValue (status 4)"))

    def test_a_refusal_can_be_pickled(self):
        refused = pickle.loads(pickle.dumps(Refused(21, None, "n", "n: wrong")))
        self.assertEqual(repr(refused), "Refused(21, None, 'n', 'n: wrong')")
        self.assertEqual((refused.status, refused.name, refused.offset, refused.field), (21, "BadRow", None, "n"))
        self.assertEqual(refused.explanation, "n: wrong")

    def test_closing(self):
        self.tracer.close()
        self.tracer.close()
        with self.assertRaises(Refused) as raised:
            self.tracer.read("trace")
        self.assertEqual(raised.exception.name, "NotOpen")

    def test_statuses_have_names_of_their_own(self):
        self.assertEqual(NAMES[22], "HistoryFull")
        self.assertEqual([name for status, name in NAMES.items() if list(NAMES.values()).count(name) > 1], ["Busy", "Busy"])

    def test_a_limit_of_commands(self):
        with Tracer(history_limit=2) as tracer:
            tracer.write("tracing_on", "0")
            tracer.write("tracing_on", "1")
            with self.assertRaises(Refused) as raised:
                tracer.write("tracing_on", "0")
            self.assertEqual((raised.exception.name, tracer.entries()), ("HistoryFull", 2))


class StatisticsOfARing(unittest.TestCase):
    def test_numbers(self):
        with Tracer(cpus=2, pages=2, page_bytes=64) as tracer:
            tick = tracer.event("tick u64 n")
            tick.enable()
            for n in range(1, 8):
                tick(n=n, cpu=1)
            tracer.take("per_cpu/cpu1/trace_pipe", 1)
            for cpu in range(2):
                told = tracer.read("per_cpu/cpu%d/stats" % cpu)
                found = tracer.statistics(cpu)
                self.assertEqual("".join("%s: %d\n" % (name.replace("_", " "), value) for name, value in found._asdict().items()), told)
            self.assertEqual(tracer.statistics(cpu=1)[:2] + tracer.statistics(cpu=1)[5:], (2, 4, 7, 0, 1))
            self.assertEqual(tracer.statistics().entries, 0)
            with self.assertRaises(Refused) as raised:
                tracer.statistics(cpu=2)
            self.assertEqual(raised.exception.name, "NoSuchCpu")
