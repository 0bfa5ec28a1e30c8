"""Events: declared and found, emitted, switched."""
import unittest

from tracectl import Field, Refused, Tracer


class Events(unittest.TestCase):
    def setUp(self):
        self.tracer = Tracer(cpus=2)
        self.addCleanup(self.tracer.close)

    def taken(self):
        return self.tracer.read("trace_pipe").splitlines()

    def refused(self, name, call, *given):
        with self.assertRaises(Refused) as raised:
            call(*given)
        self.assertEqual(raised.exception.name, name)

    def test_it_is_declared_once(self):
        first = self.tracer.event("move char who[8]; s64 d")
        for declaration in ("move char who[8]; s64 d", b"move char who[8]; s64 d;", " move\tchar  who[8] ;s64 d ; ", "move", b" move "):
            found = self.tracer.event(declaration)
            self.assertEqual((found.name, found.number, found.fields), (first.name, first.number, first.fields))
        self.assertEqual(self.tracer.read("synthetic_events"), "move char who[8]; s64 d\n")
        self.assertEqual(self.tracer.event("tick u64 n").number, 2)

    def test_it_has_other_fields(self):
        self.tracer.event("move char who[8]; s64 d")
        for fields in ("char who[8]", "char who[9]; s64 d", "char who[8]; s64 e", "s64 d; char who[8]", "char who[8]; long d"):
            self.refused("EventExists", self.tracer.event, "move " + fields)

    def test_it_is_not_there_or_no_declaration(self):
        self.refused("NoSuchEvent", self.tracer.event, "tick")
        self.refused("BadDefinition", self.tracer.event, "tick u65 n")
        self.refused("BadDefinition", self.tracer.event, "")
        self.refused("BadDefinition", self.tracer.event, " ")

    def test_one_that_is_there_is_found_when_no_other_has_room(self):
        for number in range(64):
            self.tracer.event("e%d u8 n" % number)
        self.assertEqual(self.tracer.event("e5 u8 n").number, 6)
        self.refused("TooMany", self.tracer.event, "e64 u8 n")

    def test_fields(self):
        declared = "all u64 a; u32 b; u16 c; u8 d; s64 e; s32 f; s16 g; s8 h; unsigned long i; long j; unsigned int k; int l; pid_t m; char n[20]"
        sizes = [8, 4, 2, 1, 8, 4, 2, 1, 8, 8, 4, 4, 4, 20]
        types = ["u64", "u32", "u16", "u8", "s64", "s32", "s16", "s8", "unsigned long", "long", "unsigned int", "int", "pid_t", "char"]
        signed = [kind in ("s64", "s32", "s16", "s8", "long", "int", "pid_t") for kind in types]
        fields = self.tracer.event(declared).fields
        self.assertEqual(fields, tuple(map(Field, "abcdefghijklmn", types, sizes, signed)))
        self.assertEqual([field.name for field in fields if field.is_string], ["n"])

    def test_it_happens(self):
        move = self.tracer.event("move char who[8]; s64 d")
        move.enable()
        move(d=-5, who="b")
        move({"who": b"a=b c"}, d=2**63 - 1, cpu=1, process=7)
        move({b"d": 0, "who": "17"})
        move(who=17, d="0x10")
        records = ["0 [000] 1: move: who=b d=-5", "7 [001] 2: move: who=a=b c d=9223372036854775807"]
        self.assertEqual(self.taken(), [*records, "0 [000] 3: move: who=17 d=0", "0 [000] 4: move: who=17 d=16"])

    def test_fields_may_be_named_as_parameters_are(self):
        odd = self.tracer.event("odd u8 cpu; u8 process; u8 fields; u8 self; u8 more")
        odd.enable()
        odd({"cpu": 3, "process": 4}, fields=5, self=6, more=7, cpu=1, process=8)
        self.assertEqual(self.taken(), ["8 [001] 1: odd: cpu=3 process=4 fields=5 self=6 more=7"])

    def test_a_field_too_many_too_few_or_given_twice(self):
        move = self.tracer.event("move char who[8]; s64 d")
        move.enable()
        entries = self.tracer.entries()
        for given, more, words in (
            ({}, {}, "no value for who, d"), ({}, {"d": 1}, "no value for who"), ({}, {"d": 1, "who": "a", "x": 1}, "no field x"),
            ({"d": 1}, {"d": 1, "who": "a"}, "two values for d"), ({b"d": 1, "d": 1}, {"who": "a"}, "two values for d"),
        ):
            for mapping in [(given,), ()][: 1 if given else 2]:
                with self.assertRaisesRegex(TypeError, words):
                    move(*mapping, **more)
        self.assertEqual((self.tracer.entries(), self.taken()), (entries, []))

    def test_a_value_that_a_field_can_not_have(self):
        move = self.tracer.event("move char who[8]; u8 d")
        for who, d, field in (("a", 256, "d"), ("a", -1, "d"), ("a", "x", "d"), ("12345678", 0, "who"), ("\u00e9", 0, "who")):
            with self.assertRaises(Refused) as raised:
                move(who=who, d=d)
            self.assertEqual((raised.exception.name, raised.exception.field), ("BadRow", field))
        self.refused("NoSuchCpu", lambda: move(who="", d=0, cpu=2))

    def test_it_is_switched_and_filtered(self):
        tick = self.tracer.event("tick u64 n")
        self.assertFalse(tick.wanted)
        tick(n=1)
        tick.enable()
        self.assertTrue(tick.wanted)
        tick.filter("n > 2")
        tick(n=2)
        tick(n=3)
        tick.filter("0")
        tick(n=4)
        tick.disable()
        tick(n=5)
        self.assertFalse(tick.wanted)
        self.assertEqual(self.taken(), ["0 [000] 3: tick: n=3", "0 [000] 4: tick: n=4"])
        self.refused("FilterSyntax", tick.filter, "n = 5")

    def test_it_is_wanted_while_a_trigger_counts(self):
        tick = self.tracer.event("tick u64 n")
        tick.trigger("hist:keys=n")
        self.assertTrue(tick.wanted)
        tick.trigger("hist:keys=n:pause")
        self.assertFalse(tick.wanted)
        tick.trigger("!hist:keys=n")
        self.assertEqual(self.tracer.histograms(tick), [])
