"""Scripts that emit, and what they write."""

REFUSED = b"cat nothing\ncat nothing\n"
REFUSALS = b"! 1: N1 NoSuchFile\n! 2: N1 NoSuchFile\n"
SILENT = b"# nothing is written for this\n"

SETUP = [b"echo 'tick u64 n' > synthetic_events\n", b"echo 1 > events/synthetic/tick/enable\n"]
EMISSION = b"emit 0 7 tick n=1\n"
STATS = b"cat per_cpu/cpu0/stats\n"

# Lines that are short, and take much memory.
COSTLY_SETUP = [b"echo 'a u64 n' > synthetic_events\n", b"echo 1 > events/enable\n", b"echo hist:keys=n > events/synthetic/a/trigger\n"]
COSTLY_EMISSION = b"emit 0 7 a n=1\n"


def stats_text(entries, overrun, oldest, now):
    """The statistics of a ring whose records have 24 bytes, of which none was dropped or read."""
    return b"""\
entries: %d
overrun: %d
commit overrun: 0
bytes: %d
oldest event ts: %d
now ts: %d
dropped events: 0
read events: 0
""" % (entries, overrun, 24 * entries, oldest, now)


def stats(emissions):
    """The statistics after an even number of emissions, four or more: two records fit a page, and two pages are kept."""
    return stats_text(4, emissions - 4, emissions - 3, emissions)


def emissions(times, count, setup=SETUP, emission=EMISSION):
    """The lines of a script, and each line's reply: two emissions, and then `times` times `count` emissions, an even number, and the statistics."""
    lines = setup + [emission] * 2
    replies = [b""] * len(lines)
    for time in range(1, times + 1):
        lines += [emission] * count + [STATS]
        replies += [b""] * count + [stats(2 + time * count)]
    return lines, replies
