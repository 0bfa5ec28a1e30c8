"""Filters and hist triggers drawn at random, of the greatest length and depth too. Most of them are right for an event with these fields."""
from collections import namedtuple

MOST_BYTES, MOST_OPEN = 1_024, 16
OPERATORS = ("==", "!=", "<", "<=", ">", ">=", "&")
MODIFIERS = ("", "", ".hex", ".log2", ".buckets=1", ".buckets=10", ".buckets=4294967295")
SIZES = ("", "", ":size=65", ":size=128", ":size=2048", ":size=131072")

Common = namedtuple("Common", "name bounds")
COMMON = [Common("common_pid", (-(1 << 31), (1 << 31) - 1)), Common("common_cpu", (0, 7))]


def test_of(draw, fields):
    """A test of one field."""
    field = draw.choice(fields + COMMON)
    if field.bounds:
        number = draw.choice((0, 1, 5, *field.bounds))
        return "%s %s %s" % (field.name, draw.choice(OPERATORS), "-0x%x" % -number if number < 0 and draw.random() < 0.3 else number)
    text = draw.choice(("", "a", "aa", "*", "a*", "*[a-z]?", "[!]]*", "(a || b)", "x" * draw.randrange(200)))
    return "%s %s %s" % (field.name, draw.choice(("==", "!=", "~")), '"%s"' % text)


def joined(draw, fields, count):
    return "".join(draw.choice((" && ", " || ", "&&", "||")) * (number > 0) + test_of(draw, fields) for number in range(count))


def longest(draw, fields):
    """A filter of as many bytes as it may have."""
    text = test_of(draw, fields)
    while len(more := text + draw.choice((" && ", " || ")) + test_of(draw, fields)) <= MOST_BYTES:
        text = more
    name, rest = text.split(" ", 1)
    return name + " " * (MOST_BYTES - len(text) + 1) + rest


def filter_of(draw, fields):
    kind = draw.randrange(8)
    if kind == 0:
        return longest(draw, fields)
    if kind == 1:
        return "(" * MOST_OPEN + joined(draw, fields, 2) + ")" * MOST_OPEN
    if kind == 2:
        return "!" * MOST_OPEN + test_of(draw, fields)
    if kind == 3:
        return "!(%s) || (%s)" % (joined(draw, fields, draw.randrange(1, 4)), joined(draw, fields, 2))
    return joined(draw, fields, draw.choice((1, 1, 2, 3)))


def hist_of(draw, fields, new_name):
    """A hist trigger that no event has yet, since it has a table or a filter of its own, or is likely not to."""
    keys = draw.sample(fields + COMMON, min(draw.choice((1, 1, 2, 3)), len(fields) + 2))
    numbers = [field for field in fields + COMMON if field.bounds]
    values = draw.sample(numbers, min(draw.choice((0, 0, 1, 2, 3)), len(numbers)))
    sorts = draw.sample(sorted({field.name for field in keys + values} | {"hitcount"}), draw.choice((1, 2)))
    parts = ["keys=" + ",".join(field.name + (draw.choice(MODIFIERS) if field.bounds else "") for field in keys)]
    if values:
        parts.append("vals=" + ",".join(field.name for field in values))
    if draw.random() < 0.5:
        parts.append("sort=" + ",".join(name + draw.choice(("", ".ascending", ".descending")) for name in sorts))
    if draw.random() < 0.2:
        parts.append("name=" + new_name())
    draw.shuffle(parts)
    text = "hist:" + ":".join(parts) + draw.choice(SIZES) + (":pause" if draw.random() < 0.05 else "")
    return text + (" if " + filter_of(draw, fields) if draw.random() < 0.5 else "")
