"""The files that are listed after a script."""
import errno
import os
import re

from cases.drawn import DRAWN, LINES
from cases.emitting import REFUSED
from cases.running import TOP, Case, Outcome, case_of, differences, failed_on, quoted, run, text_differences
from cases.scripts import beside, scripts_of, wanted, words_of

OWN = ["rw snapshot", "rw tracing_on", "rw trace", "r trace_pipe", "rw options/overwrite", "rw trace_options"]
OF_ALL_EVENTS = ["rw events/enable", "rw events/synthetic/enable", "w events/synthetic/filter"]
OF_EVENT = ["r format", "rw enable", "rw filter", "rw trigger", "r hist"]
OF_CPU = ["r stats", "rw trace", "r trace_pipe"]


def within(folder, files):
    return [line.replace(" ", " " + folder) for line in files]


def files_of_instance(cpus, events):
    of_events = [line for event in events for line in within("events/synthetic/%s/" % event, OF_EVENT)]
    return OWN + OF_ALL_EVENTS + of_events + [line for cpu in range(cpus) for line in within("per_cpu/cpu%d/" % cpu, OF_CPU)]


def text_of(lines):
    return "".join(line + "\n" for line in lines).encode()


def listed(cpus=1, events=(), instances=()):
    """What is listed where there are so many CPUs and these events and instances."""
    files = files_of_instance(cpus, events)
    return text_of(["rw synthetic_events"] + files + [line for instance in instances for line in within("instances/%s/" % instance, files)])


CHANGED = [
    "echo 'tick u64 n' > synthetic_events",
    "mkdir instances/slow",
    "mkdir /sys/kernel/tracing/instances/b",
    "echo 'tock u64 n' >> /sys/kernel/tracing/synthetic_events",
    "mkdir instances/slow",
    "echo 'tick u64 n' >> synthetic_events",
    "echo 'tack' >> synthetic_events",
    "rmdir instances/slow",
    "mkdir instances/slow",
    "rmdir instances/c",
]
REPLIES = ["! 5: N17 InstanceExists", "! 6: N6 EventExists", "! 7: N7 BadDefinition at 4", "! 10: N18 NoSuchInstance"]

# Each instance is removed as often as it is made, whichever thread comes first; of two removals of `a` one is refused.
PART = ["mkdir instances/a", "mkdir instances/d", "parallel"]
PART += ["thread", "rmdir instances/a", "mkdir instances/b", "rmdir instances/b", "thread", "rmdir instances/a"]
PART += ["thread", "echo 'tock u64 n' > synthetic_events", "mkdir instances/c", "end"]

CHANGING = ["rmdir instances/a", "mkdir instances/a"] * 100
RACING = ["parallel", "thread"] + CHANGING + ["thread"] + CHANGING[1:] + ["thread"] + CHANGING + ["end", "cat instances/a/tracing_on"]

PATH_REFUSALS = ("NoSuchFile", "NoSuchEvent", "NoSuchInstance", "NoSuchCpu")


def list_after(name, lines, status, replies, files, words=()):
    return case_of("--list, " + name, Outcome(status, text_of(replies) + files, b""), ["--list", *words, "-"], script=text_of(lines))


def list_after_part(program):
    """The list after a part, of which either removal may be refused."""
    got = run([program, "--list", "-"], script=text_of(PART))
    replies, files = got.stdout[: -len(listed(1, ["tock"], ["d", "c"]))], got.stdout[-len(listed(1, ["tock"], ["d", "c"])) :]
    found = [] if got.status == 1 and replies.count(b"NoSuchInstance") == 1 else ["status %d, %s" % (got.status, quoted(replies))]
    return found + text_differences("the list", files, listed(1, ["tock"], ["d", "c"]))


def list_after_race(program):
    """Of an instance that several threads make and remove it has the files exactly if the instance is there in the end."""
    got = run([program, "--list", "-"], script=text_of(RACING))
    is_there = b"\n1\nrw synthetic_events\n" in got.stdout
    return [] if got.stdout.endswith(listed(1, (), ["a"] if is_there else ())) else ["another list, where the instance is%s there" % ("" if is_there else " not")]


def used(program):
    """Each file that is listed is there: it can be read and written as the list says, and not otherwise."""
    words, found = ["--cpus", "2", "-"], []
    lines = run([program, "--list"] + words, script=text_of(CHANGED)).stdout.decode().splitlines()[len(REPLIES) :]
    for access, path in (line.split(" ") for line in lines):
        asked = {"r": "cat %s" % path, "w": "echo what > %s" % path}
        refused = {"r": "N2 NotReadable", "w": "N3 NotWritable"}
        for use, line in asked.items():
            last = run([program] + words, script=text_of(CHANGED + [line])).stdout.decode().splitlines()[len(REPLIES) :]
            refusal = last[0].split(": ")[1] if last and last[0].startswith("! ") else ""
            if (refusal == refused[use]) != (use not in access) or refusal.endswith(PATH_REFUSALS):
                found.append("%s is %s, but '%s' gives %s" % (path, access, line, last))
    return found if lines else ["nothing is listed"]


def listed_script(script):
    """That a script has the output and the status that lie beside it, and after that the list that does; where none does, any list."""
    listed_beside = beside(script, ".listed")

    def right(program):
        want = wanted(script)
        got = run([program, "--list"] + words_of(script), script=script.read_bytes())
        count = len(want.stdout)
        files = got.stdout[count:].decode()
        found = differences(got._replace(stdout=got.stdout[:count]), want)
        if listed_beside.exists():
            return found + text_differences("the list", got.stdout[count:], listed_beside.read_bytes())
        return found + ([] if re.fullmatch(r"rw synthetic_events\n((r|w|rw) \S+\n)+", files) else ["no list but %s" % quoted(files)])

    return Case("--list %s" % script.relative_to(TOP), right)


def listed_cases():
    both = ["--list", "--explain", "--bars", "-"]
    told = b"<stdin>:%d:5: NoSuchFile: no file has this path\n  cat nothing\n      ^\n" % (len(LINES) + 1)
    refused = b"! %d: N1 NoSuchFile\n" % (len(LINES) + 1)
    all_of_it = Outcome(1, DRAWN.stdout + refused + listed(1, ["tick"]), DRAWN.stderr + told)
    return [
        list_after("of no line", [], 0, [], listed()),
        list_after("of changes", CHANGED, 1, REPLIES, listed(1, ["tick", "tock"], ["b", "slow"])),
        list_after("of two CPUs", CHANGED, 1, REPLIES, listed(2, ["tick", "tock"], ["b", "slow"]), ["--cpus", "2"]),
        list_after("of a fault", ["mkdir instances/a", "ls", "rmdir instances/a"], 2, ["! 2: script UnknownCommand"], listed(1, (), ["a"])),
        Case("--list after a part", list_after_part),
        Case("--list after a part that makes and removes one instance", list_after_race),
        Case("--list: each file is there, and is used as it says", used),
        case_of("--list, --explain and --bars", all_of_it, both, script=text_of(LINES + ["cat nothing"])),
        case_of("--list to a full device", failed_on("standard output", errno.ENOSPC), ["--list", "-"], script=b"", stdout=os.open("/dev/full", os.O_WRONLY)),
        case_of("--list of a session that could not be written", failed_on("standard output", errno.ENOSPC), ["--list", "-"], script=REFUSED, stdout=os.open("/dev/full", os.O_WRONLY)),
    ] + [listed_script(script) for script in scripts_of(TOP / "examples") + scripts_of(TOP / "tests" / "rows")]
