"""Histograms as objects, beside what the tracer was given."""
import random
import unittest
from collections import Counter

from tracectl import Bucket, Field, Refused, Tracer
from tracectl.histogram import parse_histograms

N = [Field("n", "u64", 8, False)]
TEXT = """# event histogram
#
# trigger info: hist:keys=n:vals=hitcount:sort=hitcount:size=2048 [active]
#

{ n:          5 } hitcount:          1

Totals:
    Hits: 1
    Entries: 1
    Dropped: 0
"""


PIECES = ["x", "5", " ", ", ", ": ", "{ ", "~ 2^3", "0-9", "-", "ff", "y" * 9]
PIECES += [", n:          5", ", a: ", ", b: ", " } hitcount:          1", "  n:          1"]


def bucket_of(number, modifier):
    """What a number is shown as, worked out from docs/FILES.md."""
    if modifier == ".log2":
        power = 0 if number <= 1 else (number - 1).bit_length()
        return Bucket(2 ** (power - 1) + 1 if power else None, 2**power)
    if modifier.startswith(".buckets="):
        size = int(modifier.partition("=")[2])
        return Bucket(number // size * size, number // size * size + size - 1)
    return number


class Histograms(unittest.TestCase):
    def setUp(self):
        self.tracer = Tracer(cpus=2)
        self.addCleanup(self.tracer.close)

    def rows(self, event, index=0):
        return [tuple(row.keys.values()) + (row.hitcount, *row.values.values()) for row in self.tracer.histogram(event, index).rows]

    def test_keys_values_and_totals(self):
        move = self.tracer.event("move char who[20]; s64 d; u64 n")
        move.trigger("hist:keys=who,d:vals=n,hitcount,d:sort=n.descending:size=200 if n > 0")
        for who, d, n in (("a", -5, 2), ("b c", 5, 2**64 - 1), ("a", -5, 3), ("b c", 5, 2**64 - 1), ("x", 1, 0)):
            move(who=who, d=d, n=n)
        found = self.tracer.histogram(move)
        self.assertEqual(found.trigger, "hist:keys=who,d:vals=hitcount,n,d:sort=n.descending:size=256 if n > 0")
        self.assertEqual([row.keys for row in found.rows], [{"who": "b c", "d": 5}, {"who": "a", "d": -5}])
        self.assertEqual([row.hitcount for row in found.rows], [2, 2])
        self.assertEqual([row.values for row in found.rows], [{"n": 2**65 - 2, "d": 10}, {"n": 5, "d": -10}])
        self.assertEqual((found.hits, found.entries, found.dropped, found.is_paused), (4, 2, 0, False))

    def test_it_is_found_by_event_and_by_name(self):
        tick = self.tracer.event("tick u64 n")
        tick.trigger("hist:keys=n")
        self.assertEqual(self.tracer.histogram(tick), self.tracer.histogram("tick"))
        self.assertEqual(self.tracer.histogram(tick), self.tracer.histogram(b"tick"))
        with self.assertRaises(Refused):
            self.tracer.histogram("tock")
        with Tracer() as other, self.assertRaisesRegex(ValueError, "another tracer"):
            self.tracer.histogram(other.event("tick u64 n"))

    def test_several_triggers(self):
        tick = self.tracer.event("tick u64 n")
        with self.assertRaisesRegex(IndexError, "has 0 hist triggers"):
            self.tracer.histogram(tick)
        tick.trigger("hist:keys=n.log2")
        tick.trigger("hist:keys=common_pid,common_cpu:pause")
        tick.trigger("hist:name=shared:keys=n if n > 4")
        tick(n=4)
        tick.trigger("hist:keys=common_pid,common_cpu:continue")
        tick(n=5, process=-7, cpu=1)
        self.assertEqual(self.rows(tick, 0), [(Bucket(3, 4), 1), (Bucket(5, 8), 1)])
        self.assertEqual(self.rows(tick, 1), [(-7, 1, 1)])
        self.assertEqual(self.rows(tick, 2), [(5, 1)])
        tick.trigger("hist:keys=n.log2:pause")
        self.assertEqual([each.is_paused for each in self.tracer.histograms(tick)], [True, False, False])

    def test_numbers_of_all_types(self):
        for kind, bits, signed in (("u64", 64, False), ("u8", 8, False), ("s64", 64, True), ("s32", 32, True), ("pid_t", 32, True), ("s8", 8, True)):
            event = self.tracer.event("of_%s %s n" % (kind, kind))
            for modifier in ("", ".hex"):
                event.trigger("hist:keys=n%s" % modifier)
            edges = [-(2 ** (bits - 1)), -1, 0, 1, 2 ** (bits - 1) - 1] if signed else [0, 1, 2**bits - 1]
            for n in edges:
                event(n=n)
            for index in range(2):
                self.assertEqual(self.rows(event, index), [(n, 1) for n in edges])

    def test_buckets(self):
        event = self.tracer.event("e s64 n")
        event.trigger("hist:keys=n.buckets=10:sort=n")
        event.trigger("hist:keys=n.log2:sort=n")
        event.trigger("hist:keys=n.buckets=1:sort=n")
        numbers = [-(2**63), -11, -10, -1, 0, 1, 2, 3, 4, 9, 10, 1024, 1025, 2**63 - 1]
        for n in numbers:
            event(n=n)
        tens = Counter(Bucket(n // 10 * 10, n // 10 * 10 + 9) for n in numbers)
        self.assertEqual(self.rows(event, 0), sorted(((bucket, count) for bucket, count in tens.items()), key=lambda row: row[0].least))
        powers = Counter(0 if n <= 1 else (n - 1).bit_length() for n in numbers)
        want = [(Bucket(2 ** (power - 1) + 1 if power else None, 2**power), count) for power, count in sorted(powers.items())]
        self.assertEqual(self.rows(event, 1), want)
        self.assertEqual(self.rows(event, 2), [(Bucket(n, n), 1) for n in numbers])
        for index in range(3):
            for row in self.tracer.histogram(event, index).rows:
                self.assertEqual(row.hitcount, sum(n in row.keys["n"] for n in numbers))
        self.assertEqual([str(Bucket(None, 1)), str(Bucket(-10, -1))], ["..1", "-10..-1"])

    def test_strings_that_look_like_what_is_around_them(self):
        event = self.tracer.event("e char a[64]; u64 n")
        event.trigger("hist:keys=a,n:vals=n:sort=n")
        event.trigger("hist:keys=n,a:sort=n")
        strings = ["", " x", "5", "a, n:          5", "x } hitcount:          1  n:          1", "} {", "Totals:", "a" * 63, "{ a: 1, n:          5 } hitcount:"]
        for n, string in enumerate(strings):
            event(a=string, n=n)
        self.assertEqual(self.rows(event, 0), [(string, n, 1, n) for n, string in enumerate(strings)])
        self.assertEqual(self.rows(event, 1), [(n, string, 1) for n, string in enumerate(strings)])

    def test_two_strings(self):
        event = self.tracer.event("e char a[40]; char b[40]")
        event.trigger("hist:keys=a,b")
        event(a="x, b: y", b="z, b: y")
        event(a="x" * 39, b="y" * 39)
        self.assertEqual(self.rows(event), [("x, b: y", "z, b: y", 1), ("x" * 39, "y" * 39, 1)])
        event(a="x", b="y               , b: z")
        self.assertEqual(self.rows(event)[2], ("x", "y               , b: z", 1))
        event(a="x", b="y               , b: " + "z" * 16)  # or "x               , b: y               " and 16 times z
        with self.assertRaisesRegex(ValueError, "can't be told"):
            self.tracer.histogram(event)

    def test_trailing_blanks_of_a_short_string_are_lost(self):
        event = self.tracer.event("e char a[40]")
        event.trigger("hist:keys=a")
        for string in ("a", "a ", "a" * 17 + " "):
            event(a=string)
        self.assertEqual(self.rows(event), [("a", 1), ("a", 1), ("a" * 17 + " ", 1)])

    def test_a_filter_may_have_newlines(self):
        event = self.tracer.event("e char a[8]")
        event.trigger("hist:keys=a if a != 'x\n\ny'")
        event(a="b")
        self.assertEqual(self.rows(event), [("b", 1)])
        self.assertTrue(self.tracer.histogram(event).trigger.endswith(" if a != 'x\n\ny'"))

    def test_rows_without_room_are_dropped(self):
        tick = self.tracer.event("tick u64 n")
        tick.trigger("hist:keys=n:size=128")
        for n in range(200):
            tick(n=n)
        found = self.tracer.histogram(tick)
        self.assertEqual((found.hits, found.entries, found.dropped, len(found.rows)), (128, 128, 72, 128))

    def test_a_large_one_beside_a_count(self):
        drawn = random.Random(5)
        event = self.tracer.event("e char who[4]; s32 d; u64 n")
        event.trigger("hist:keys=who,d:vals=n:size=20000")
        hits, sums = Counter(), Counter()
        for _ in range(20_000):
            key = drawn.choice(["a", "bb", "ccc"]), drawn.randrange(-1_000, 1_000)
            n = drawn.randrange(2**64)
            event(who=key[0], d=key[1], n=n)
            hits[key] += 1
            sums[key] += n
        found = self.tracer.histogram(event)
        self.assertEqual({(row.keys["who"], row.keys["d"]): row.hitcount for row in found.rows}, hits)
        self.assertEqual({(row.keys["who"], row.keys["d"]): row.values["n"] for row in found.rows}, sums)
        self.assertEqual((found.hits, found.entries), (20_000, len(hits)))

    def test_random_ones_beside_a_count(self):
        """Strings are made of what surrounds them in a row. Only rows of two strings may have two readings, and few of these do."""
        drawn, refused = random.Random(7), 0
        sizes, bounds = {"a": 40, "b": 64, "c": 12}, {"n": (0, 2**64 - 1), "d": (-(2**31), 2**31 - 1)}
        for number in range(60):
            event = self.tracer.event("e%d char a[40]; u64 n; char b[64]; s32 d; char c[12]" % number)
            keys = {name: drawn.choice(["", ".hex", ".log2", ".buckets=7"]) if name in bounds else "" for name in drawn.sample("abcnd", drawn.randint(1, 3))}
            event.trigger("hist:keys=%s:vals=n,d" % ",".join(map("".join, keys.items())))
            hits, sums = Counter(), Counter()
            for _ in range(30):
                row = {name: "".join(drawn.choices(PIECES, k=drawn.randrange(8)))[: size - 1].rstrip() for name, size in sizes.items()}
                row.update({name: drawn.choice([5, 0, drawn.randint(*ends)]) for name, ends in bounds.items()})
                event(row)
                key = tuple(bucket_of(row[name], keys[name]) for name in keys)
                hits[key] += 1
                sums[key] += row["d"]
            try:
                rows = self.tracer.histogram(event).rows
            except ValueError as error:
                self.assertIn("can't be told", str(error))
                self.assertGreater(len({"a", "b", "c"} & set(keys)), 1)
                refused += 1
                continue
            self.assertEqual({tuple(row.keys.values()): row.hitcount for row in rows}, hits)
            self.assertEqual({tuple(row.keys.values()): row.values["d"] for row in rows}, sums)
            self.assertTrue(all(list(row.keys) == list(keys) for row in rows))
        self.assertLess(refused, 10)

    def test_text_that_is_no_histogram(self):
        self.assertEqual(len(parse_histograms(TEXT, N)), 1)
        self.assertEqual(len(parse_histograms(TEXT + "\n" + TEXT, N)), 2)
        for text in ("x", TEXT[1:], TEXT[:-1], TEXT + "x"):
            with self.assertRaises(ValueError):
                parse_histograms(text, N)
        for part, other in (("{ n", "n"), ("     5", "x"), ("[active]", ""), ("keys=n:vals=hitcount:", ""), ("keys=n", "keys=m")):
            with self.assertRaises(ValueError):
                parse_histograms(TEXT.replace(part, other), N)
