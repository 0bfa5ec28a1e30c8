"""A tracer mounted while the program runs: what other programs find, what is refused, and how a program ends. Skipped where nothing can be mounted."""
import errno
import gc
import os
import signal
import subprocess
import sys
import tempfile
import threading
import unittest
import weakref
from pathlib import Path

from tracectl import Refused, Tracer
from tracectl.tracer import OPEN

SECONDS = 60
ENABLE = "events/synthetic/tick/enable"


def why_not():
    """Why nothing can be mounted here, if so."""
    with tempfile.TemporaryDirectory() as folder, Tracer() as tracer:
        try:
            tracer.mount(folder)
        except Refused as refused:
            return str(refused)
    return None


REASON = why_not()

FORKING = """
with Tracer() as tracer, tracer.mounted(place):
    child = os.fork()
    if not child:
        for call in (tracer.unmount, tracer.close, lambda: tracer.mount(place), lambda: tracer.read("trace")):
            try:
                call()
            except Refused as refused:
                print(refused, flush=True)
        os.close(2)
        %s
    print(os.waitpid(child, 0)[1] >> 8, open(place + "/tracing_on").read(), end="")
"""

STARTING = """
import subprocess
tracer = Tracer()
tracer.mount(place)
child = subprocess.Popen(["sleep", "60"], stdout=2, close_fds=False)
print(child.pid, flush=True)
os.kill(os.getpid(), signal.SIGKILL)
"""


def error_of(path):
    try:
        os.stat(path)
    except OSError as error:
        return error.errno
    return 0


@unittest.skipIf(REASON, REASON)
class Mounted(unittest.TestCase):
    def setUp(self):
        folder = tempfile.TemporaryDirectory()
        self.addCleanup(folder.cleanup)
        self.place = Path(folder.name).resolve() / "place"
        self.place.mkdir()
        self.addCleanup(subprocess.run, ["umount", "-l", str(self.place)], stderr=subprocess.DEVNULL)
        self.tracer = Tracer(cpus=2)
        self.addCleanup(self.tracer.close)
        self.tick = self.tracer.event("tick u64 n")

    def refused(self, name, words, call, *given, **named):
        with self.assertRaises(Refused) as raised:
            call(*given, **named)
        self.assertEqual((raised.exception.name, raised.exception.explanation), (name, words))

    def started(self, lines, memory="debug"):
        """A program of Python that does these lines, and as a rule writes over memory that it has given back."""
        script = "import os, sys, signal\nfrom tracectl import Refused, Tracer\nplace = sys.argv[1]\n" + lines
        command = [sys.executable, "-W", "ignore", "-c", script, str(self.place)]  # from 3.12 on it warns of forks beside threads, as the server
        settings = {**os.environ, "PYTHONMALLOC": memory}
        return subprocess.Popen(command, env=settings, stdin=subprocess.PIPE, stdout=subprocess.PIPE, stderr=subprocess.PIPE)

    def ended(self, lines, memory="debug"):
        """The status of a program, and what it says."""
        with self.started(lines, memory) as program:
            out, said = program.communicate(timeout=SECONDS)
            return program.returncode, out.decode() + said.decode()


class Beside(Mounted):
    """What other programs do, and this one."""

    def test_files_are_there_during_the_with(self):
        with self.tracer.mounted(self.place) as place:
            self.assertEqual((place, os.path.ismount(str(place))), (self.place, True))
            self.assertEqual((place / "synthetic_events").read_text(), "tick u64 n\n")
        self.assertEqual((os.path.ismount(str(self.place)), list(self.place.iterdir())), (False, []))

    def test_a_shell_switches_an_event_and_reads_it(self):
        def shell(line):
            return subprocess.run(["sh", "-c", line], cwd=str(self.place), stdout=subprocess.PIPE, stderr=subprocess.STDOUT).stdout.decode()

        with self.tracer.mounted(self.place):
            self.assertFalse(self.tick.wanted)
            self.tick(n=1)
            self.assertEqual(shell("echo 1 > %s; echo hist:keys=n > events/synthetic/tick/trigger" % ENABLE), "")
            self.assertTrue(self.tick.wanted)
            self.tick(n=2, cpu=1, process=7)
            self.assertEqual(shell("grep -o 'tick: .*' trace; cat per_cpu/cpu1/trace_pipe 2>&1 & sleep 0.2; kill $!").split("\n")[0], "tick: n=2")
            self.assertIn("    Hits: 1\n", shell("cat events/synthetic/tick/hist"))
            self.assertIn("write error: Invalid argument", shell("bash -c 'echo n = 1 > events/synthetic/tick/filter'"))
            self.assertEqual([row.keys["n"] for row in self.tracer.histogram(self.tick).rows], [2])

    def test_a_reader_waits_for_an_emission(self):
        self.tick.enable()
        with self.tracer.mounted(self.place):
            with subprocess.Popen(["cat", str(self.place / "trace_pipe")], stdout=subprocess.PIPE, stderr=subprocess.PIPE) as reader:
                for n in range(50):
                    self.tick(n=n)
                    self.assertEqual(reader.stdout.readline().split()[-1], b"n=%d" % n)
                self.tracer.unmount()
                self.assertEqual((reader.wait(timeout=SECONDS), reader.stdout.read()), (1, b""))

    def test_threads_emit_while_the_program_reads_its_own_files(self):
        self.tick.enable()

        def emit(cpu):
            for n in range(2_000):
                self.tick(n=n, cpu=cpu)

        with self.tracer.mounted(self.place) as place:
            threads = [threading.Thread(target=emit, args=(cpu,)) for cpu in range(2)]
            for thread in threads:
                thread.start()
            while any(thread.is_alive() for thread in threads):
                (place / "trace").read_bytes()
            for thread in threads:
                thread.join()
            statistics = [self.tracer.statistics(cpu) for cpu in range(2)]
            self.assertEqual([each.entries + each.overrun for each in statistics], [2_000, 2_000])
            self.assertEqual((place / "per_cpu/cpu1/stats").read_text(), self.tracer.read("per_cpu/cpu1/stats"))

    def test_it_is_mounted_again(self):
        self.tick.enable()
        for n in range(20):
            with self.tracer.mounted(str(self.place)):
                self.tick(n=n)
                self.assertEqual((self.place / "trace").read_text().split()[-1], "n=%d" % n)

    def test_other_users_are_let_in_or_not(self):
        for allow_other in (True, False):
            self.tracer.mount(os.fsencode(str(self.place)), allow_other=allow_other)
            options = [line.split()[3] for line in Path("/proc/mounts").read_text().splitlines() if line.split()[1] == str(self.place)]
            self.tracer.unmount()
            self.assertEqual(["allow_other" in each for each in options], [allow_other])
            self.assertFalse(os.path.ismount(str(self.place)))

    def test_two_tracers_have_two_folders(self):
        other = self.place.parent / "other"
        other.mkdir()
        with Tracer() as second, second.mounted(other), self.tracer.mounted(self.place):
            second.event("tock u8 m")
            self.assertEqual([(place / "synthetic_events").read_text() for place in (self.place, other)], ["tick u64 n\n", "tock u8 m\n"])


class Refusals(Mounted):
    """Each has words."""

    def test_a_folder_that_can_not_be_mounted_on(self):
        file = self.place / "file"
        file.touch()
        for name in (file, self.place / "none", ""):
            self.refused("NoFolder", "%s is no folder, or one that this user can't reach" % (name or "''"), self.tracer.mount, name)
        self.refused("FolderBusy", "something else is mounted on /proc", self.tracer.mount, "/proc")
        with self.tracer.mounted(self.place), Tracer() as second:
            self.refused("FolderBusy", "something else is mounted on %s" % self.place, second.mount, self.place)
        self.assertEqual(os.listdir(str(self.place)), ["file"])

    def test_a_second_mount_and_none(self):
        self.refused("NotMounted", "the tracer is not mounted", self.tracer.unmount)
        with self.tracer.mounted(self.place):
            for place in (self.place, self.place.parent):
                self.refused("AlreadyMounted", "the tracer is mounted already", self.tracer.mount, place)
        self.refused("NotMounted", "the tracer is not mounted", self.tracer.unmount)

    def test_a_tracer_with_a_limit_or_closed(self):
        with Tracer(history_limit=1_000) as limited:
            self.refused("Limited", "a tracer with a limit of commands can't be mounted", limited.mount, self.place)
        self.refused("NotOpen", None, limited.mount, self.place)
        self.refused("NotOpen", None, limited.unmount)

    def test_wrong_arguments(self):
        for wrong in (5, None, ["a"]):
            self.assertRaises(TypeError, self.tracer.mount, wrong)
        self.assertRaises(TypeError, self.tracer.mount, self.place, allow_other=1)
        self.assertRaises(ValueError, self.tracer.mount, "a\0b")
        self.refused("NotMounted", "the tracer is not mounted", self.tracer.unmount)

    @unittest.skipIf(os.geteuid(), "only root becomes another user")
    def test_another_user(self):
        """Of whom /dev/fuse can't be opened, or who has no fusermount3."""
        os.chmod(str(self.place.parent), 0o755)
        os.chown(str(self.place), 65534, 65534)
        lines = "tracer = Tracer()\nos.setgid(65534)\nos.setuid(65534)\nos.environ['PATH'] = '/none'\ntracer.mount(place)"
        said = self.ended(lines)[1].strip().split("\n")[-1]
        if os.stat("/dev/fuse").st_mode & 0o006 == 0o006:
            words = "NoRight: this user may not mount on %s, neither by mount(2) nor by fusermount3 (status 215)" % self.place
        else:
            words = "NoDevice: /dev/fuse can't be opened: %s (status 214)" % os.strerror(errno.EACCES)
        self.assertEqual(said, "tracectl.refused.Refused: " + words)


class Ends(Mounted):
    """How a mount ends, and a program that has one."""

    def test_the_program_ends_without_unmounting(self):
        for last, status in (("", 0), ("sys.exit(3)", 3), ("raise SystemExit('x')", 1), ("1 / 0", 1), ("tracer = None", 0), ("sys.modules.clear()", 0)):
            got, said = self.ended("tracer = Tracer()\ntracer.mount(place)\nprint(os.path.ismount(place), flush=True)\n" + last)
            self.assertEqual((got, said[:5], os.path.ismount(str(self.place)), error_of(self.place)), (status, "True\n", False, 0))

    def test_a_tracer_that_nobody_has_any_more_stays_mounted(self):
        got = self.ended("import gc\nTracer().mount(place)\ngc.collect()\nprint(open(place + '/tracing_on').read())")
        self.assertEqual((got, error_of(self.place)), ((0, "1\n\n"), 0))

    def test_one_that_is_closed_is_let_go(self):
        tracer = Tracer()
        with tracer.mounted(self.place):
            pass
        tracer.mount(self.place)
        tracer.close()
        self.assertFalse(os.path.ismount(str(self.place)))
        gone = weakref.ref(tracer)
        del tracer
        gc.collect()
        self.assertIsNone(gone())

    def test_the_with_ends_though_it_is_not_mounted_any_more(self):
        with self.tracer.mounted(self.place):
            self.tracer.unmount()
        with self.assertRaises(ZeroDivisionError), self.tracer.mounted(self.place):
            raise ZeroDivisionError
        with self.tracer.mounted(self.place):
            subprocess.run(["umount", "-l", str(self.place)], check=True)
        self.tracer.mount(self.place)
        with Tracer() as second, self.assertRaises(Refused), second.mounted(self.place):
            self.fail("it is mounted")
        self.tracer.unmount()
        with Tracer() as second, second.mounted(self.place):
            second.close()
        self.assertFalse(os.path.ismount(str(self.place)))

    def test_what_a_killed_program_left_is_taken_away(self):
        with self.started("tracer = Tracer()\ntracer.mount(place)\nprint(flush=True)\nsignal.pause()") as program:
            program.stdout.readline()
            program.kill()
        self.assertEqual(error_of(self.place), errno.ENOTCONN)
        with self.tracer.mounted(self.place):
            self.assertEqual((self.place / "synthetic_events").read_text(), "tick u64 n\n")
        self.assertEqual(error_of(self.place), 0)

    def test_a_child_has_no_mount(self):
        """Its calls are refused. When it ends, or leaves the `with`, the mount stays that of its parent."""
        for last, status in (("os._exit(4)", 4), ("sys.exit(5)", 5), ("1 / 0", 1)):
            got = self.ended(FORKING % last, memory="default")  # "debug" ends children of Python 3.8 itself
            self.assertEqual(got, (0, "Forked (status 207)\n" * 4 + "%d 1\n" % status))
            self.assertEqual(error_of(self.place), 0)

    def test_a_program_that_it_starts_has_not_the_device(self):
        """By that the mount would outlive this process."""
        with self.started(STARTING) as program:
            child = int(program.stdout.readline())
            self.assertEqual(program.wait(timeout=SECONDS), -signal.SIGKILL)
            self.assertEqual(error_of(self.place), errno.ENOTCONN)
            os.kill(child, signal.SIGKILL)


class Handles(unittest.TestCase):
    def test_a_handle_is_kept_until_it_is_closed(self):
        before = len(OPEN)
        with Tracer() as tracer:
            self.assertEqual(len(OPEN), before + 1)
        self.assertEqual(len(OPEN), before)
        tracer = Tracer()
        del tracer
        gc.collect()
        self.assertEqual(len(OPEN), before + 1)

    def test_a_thread_ends_after_its_tracer_is_gone(self):
        """It leaves by the handle."""
        for _ in range(200):
            tracer, joined, may_end = Tracer(), threading.Event(), threading.Event()

            def stay(tracer=tracer, joined=joined, may_end=may_end):
                tracer.read("trace")
                del tracer
                joined.set()
                may_end.wait()

            thread = threading.Thread(target=stay)
            thread.start()
            joined.wait()
            del tracer, stay
            gc.collect()
            may_end.set()
            thread.join()
