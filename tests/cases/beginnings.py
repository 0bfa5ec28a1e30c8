"""Scripts whose end is lost: what a session makes of their beginnings. What is expected is told from the rules of docs/FILES.md alone: from the words
of the line that is cut off, and from what the lines before it give."""
import os
import re
from collections import namedtuple
from concurrent.futures import ThreadPoolExecutor

from cases.forking import Run, can_fork, outcomes
from cases.running import TOP, Case, quoted, run
from cases.scripts import wanted, words_of

ROWS = TOP / "tests" / "rows"

# Each beginning of this one is a case; what its lines give where they are cut off is told exactly.
WHOLE = "lost_line_after_overrun"

# Of these, the beginnings that end in a word, in a quoted string or in a part; of a long line one in STEP.
CUT = """
    bad_emissions buckets cat_alone clear counted_trigger_and_busy cpu_paths declaration_refusals disabled_event
    eight_instances_after_one_emission enable_states end_out_of_place exchange filter_numbers filter_refusals five_emissions format_file full_table
    full_table_of_many glob_class hex hist_refusals instance_limits instances limits_of_texts line_above_the_limit line_at_the_limit log2
    lost_line_one_cpu merged_reads modifier_refusals named_table_in_eight_instances nine_threads one_part_after_another one_table_of_two_events
    overwrite_off overwrite_off_after_take part_in_a_part pause_continue_clear precedence_and_kept_filter reader_on_the_writers_page
    reader_page_outlives_overrun refusal_in_a_thread refusals_by_file seven_emissions smaller_record_after_drop stats_at_once system_filter
    take_no_number take_nothing three_threads ties_by_first_occurrence too_many_fields_or_events trace_and_pipe_one_cpu trace_shows_pipe_consumes
    tracing_off_hist_on trigger_removed_and_freed trigger_texts two_keys_two_sort_keys two_threads_on_two_cpus unclosed_quote unknown_command
    unlimited_trigger
""".split()

BLANKS = " \t"
LONGEST_LINE = 4_096
LONG_LINE, STEP = 256, 16
GREATEST_CPU, GREATEST_LIMIT, GREATEST_PID = 2**32 - 1, 2**64 - 1, 2**31 - 1

EVENT_FILES = "enable|filter|trigger|hist|format"
FILE = re.compile(
    r"(/sys/kernel/tracing/)?(synthetic_events|(instances/[^/]+/)?"
    r"(trace|trace_pipe|per_cpu/cpu(0|[1-9]\d*)/(trace|trace_pipe|stats)|tracing_on|options/overwrite|trace_options|snapshot"
    r"|events/enable|events/synthetic/(enable|filter)|events/synthetic/[A-Za-z_]\w{0,31}/(%s)))" % EVENT_FILES
)
IN_INSTANCE = re.compile(r"(/sys/kernel/tracing/)?instances/[^/]+/")
INSTANCE = re.compile(r"(/sys/kernel/tracing/)?instances/[^/]+")
REFUSAL = re.compile(rb"! (\d+): N\d+ [A-Z]\w+( .*)?\n")

Word = namedtuple("Word", "text")
Redirection = namedtuple("Redirection", "text")


def cut(line):
    """The words and redirections of a line, and whether a quote of it is open."""
    tokens, word, quote = [], None, None
    for byte in line:
        if quote:
            word, quote = (word, None) if byte == quote else (word + byte, quote)
        elif byte in "'\"":
            word, quote = word or "", byte
        elif byte in BLANKS + ">":
            if word is not None:
                tokens.append(Word(word))
            word = None
            tokens.append(byte)
        else:
            word = (word or "") + byte
    if word is not None:
        tokens.append(Word(word))
    return redirected(tokens), quote is not None


def redirected(tokens):
    """Tokens in which blanks and each `>` are strings: without the blanks, and with redirections, of which one appends where two `>` are together."""
    found = []
    for before, token in zip([None] + tokens, tokens):
        if token == ">" and before == ">" and found[-1] == Redirection(">"):
            found[-1] = Redirection(">>")
        elif token == ">":
            found.append(Redirection(">"))
        elif isinstance(token, Word):
            found.append(token)
    return found


def is_number(text, greatest):
    return re.fullmatch(r"[0-9]+", text) is not None and int(text) <= greatest


def is_process(text):
    return is_number(text, GREATEST_PID) or (text.startswith("-") and is_number(text[1:], GREATEST_PID + 1))


def says_nothing(line):
    return line.lstrip(BLANKS)[:1] in ("", "#")


def shape_fault(name, tokens):
    """What is wrong with the words behind a command's name."""
    words = [token.text for token in tokens if isinstance(token, Word)]
    plain = len(words) == len(tokens)
    if name == "emit":
        if not plain or len(words) < 4 or not all("=" in word for word in words[3:]):
            return "WrongWords"
        return None if is_number(words[0], GREATEST_CPU) and is_process(words[1]) else "BadNumber"
    if name == "echo":
        arrows = [place for place, token in enumerate(tokens) if isinstance(token, Redirection)]
        return None if arrows == [len(tokens) - 2] else "WrongWords"
    if name == "take":
        if not plain or len(words) != 2:
            return "WrongWords"
        return None if is_number(words[0], GREATEST_LIMIT) else "BadNumber"
    return None if plain and len(words) == 1 else "WrongWords"


def line_fault(line):
    """The fault of a line by itself, if it has one."""
    if len(line) > LONGEST_LINE:
        return "LineTooLong"
    if not all(byte == "\t" or " " <= byte <= "~" for byte in line):
        return "BadByte"
    if says_nothing(line):
        return None
    tokens, is_open = cut(line)
    if is_open:
        return "UnclosedQuote"
    name = tokens[0].text if isinstance(tokens[0], Word) else None
    if name in ("parallel", "thread", "end"):
        return "BlockOutOfPlace" if len(tokens) == 1 else "WrongWords"
    if name not in ("emit", "echo", "cat", "take", "mkdir", "rmdir"):
        return "UnknownCommand"
    return shape_fault(name, tokens[1:])


def asks_nothing_known(line):
    """Whether a line without a fault names no file, or for `mkdir` and `rmdir` no instance."""
    tokens, _ = cut(line)
    name, path = tokens[0].text, tokens[-1].text
    if name in ("mkdir", "rmdir"):
        return INSTANCE.fullmatch(path) is None
    return name != "emit" and FILE.fullmatch(path) is None


def replies_of(line, number, known):
    """The replies that a line may have by itself; none is given where its words don't tell. Those of `known` are told by hand."""
    fault = line_fault(line)
    if fault:
        return [b"! %d: script %s\n" % (number, fault.encode())]
    if says_nothing(line):
        return [b""]
    if line in known:
        return [b"! %d: %s\n" % (number, known[line])] if known[line] else [b""]
    if asks_nothing_known(line):
        refusals = [b"N1 NoSuchFile"] + ([b"N18 NoSuchInstance"] if IN_INSTANCE.match(cut(line)[0][-1].text) else [])
        return [b"! %d: %s\n" % (number, refusal) for refusal in refusals]
    return None


Line = namedtuple("Line", "number text start part")  # `part` is the number of the line of the `parallel` before it, if no `end` has come


def lines_of(script):
    start, part = 0, None
    for number, text in enumerate(script.split("\n"), 1):
        yield Line(number, text, start, part)
        start += len(text) + 1
        tokens = [] if line_fault(text) == "UnclosedQuote" or says_nothing(text) else cut(text)[0]
        if part is None and tokens == [Word("parallel")]:
            part = number
        elif tokens == [Word("end")]:
            part = None


def is_within(text, end, line):
    """Whether the beginning of a line's text that is so long ends within a word, a quoted string or a part."""
    if len(text) > LONG_LINE and end % STEP:
        return False
    if line.part is not None:
        return True
    return end > 0 and not says_nothing(text[:end]) and (text[end - 1] not in BLANKS + ">" or cut(text[:end])[1])


class Trial:
    """The beginnings of one script, each given to the program."""

    def __init__(self, program, path, known):
        self.path, self.known = path, known
        self.script, self.want = path.read_bytes().decode("latin-1"), wanted(path)
        self.command = [program] + words_of(path)
        self.given = {}  # what the first bytes give, by how many they are
        self.whole = {}  # what the first lines give, by the number of the line after them

    def give(self, ends):
        """Gives each of these beginnings to the program: forked where there is a C compiler, and else started."""
        script = self.script.encode("latin-1")
        if can_fork():
            given = [each.outcome for each in outcomes(self.command, script, [Run(end) for end in ends])]
        else:
            with ThreadPoolExecutor(os.cpu_count()) as pool:
                given = list(pool.map(lambda end: run(self.command, script=script[:end]), ends))
        self.given = dict(zip(ends, given))

    def differs(self, end, got, words):
        return ["the first %d bytes give status %d and %s: %s" % (end, got.status, quoted(got.stdout), words)]

    def check_lines(self, line):
        """The first lines, all of them whole, give what the whole script begins with."""
        got = self.whole[line.number] = self.given[line.start]
        right = self.want.stdout.startswith(got.stdout) and got.status in (0, 1, 2) and got.stderr == b""
        return [] if right else self.differs(line.start, got, "the whole script gives %s" % quoted(self.want.stdout))

    def check_cut(self, case):
        """What the beginning of a line gives comes after what the lines before it give."""
        line, length = case
        end, text = line.start + length, line.text[:length]
        got = self.given[end]
        if line.part is not None and cut(text)[0] == [Word("end")] and not says_nothing(text):
            before, replies = self.given[min(end + 1, len(self.script))], [b""]  # the part has its end
        elif line.part is not None:
            before, replies = self.whole[line.part], [b"! %d: script BlockOutOfPlace\n" % line.part]
        else:
            before, replies = self.whole[line.number], replies_of(text, line.number, self.known)
        if before.status == 2:
            replies = [b""]
        return [] if self.is_right(got, before, replies, line.number) else self.differs(end, got, "expected %s" % (replies or "another reply"))

    @staticmethod
    def is_right(got, before, replies, number):
        if not got.stdout.startswith(before.stdout) or got.stderr:
            return False
        reply = got.stdout[len(before.stdout) :]
        if replies is not None and reply not in replies:
            return False
        refusal = REFUSAL.fullmatch(reply)
        if replies is None and reply.startswith(b"! ") and not (refusal and int(refusal.group(1)) == number):
            return False
        if reply.endswith(b"\n") and b": script " in reply.splitlines()[-1]:
            return got.status == 2
        return got.status == (before.status or (1 if refusal else 0))

    def differences(self, is_tried):
        lines = list(lines_of(self.script))
        ends = [(line, end) for line in lines for end in range(0 if line.part else 1, len(line.text) + 1)]
        cases = [(line, end) for line, end in ends if is_tried(line.text, end, line)]
        self.give(sorted({line.start for line in lines} | {line.start + end + more for line, end in cases for more in (0, 1)} - {len(self.script) + 1}))
        found = sum(map(self.check_lines, [line for line in lines if line.part is None]), [])
        return found or sum(map(self.check_cut, cases), [])


# What the lines of WHOLE give that name a file, cut off where they still do; the whole lines themselves are cases, too.
KNOWN = {
    "echo 'tick u64 n' > synthetic_events": b"",
    "echo 1 > events/synthetic/tick/enable": b"",
    "emit 0 7 tick n=": b"N21 BadRow n",
    "take 1 trace": b"N4 BadValue",
    "take 2 trace": b"N4 BadValue",
    **{"emit 0 7 tick n=%d" % n: b"" for n in range(1, 8)},
}


def whole_lines_give_more(text, end, line):
    return end < len(text) or text in KNOWN


def beginning_cases():
    def tried(name, known, is_tried):
        return Case("beginnings of %s" % name, lambda program: Trial(program, ROWS / name, known).differences(is_tried))

    return [tried(WHOLE, KNOWN, whole_lines_give_more)] + [tried(name, {}, is_within) for name in CUT]
