"""How a server starts: whose its files are, and by which status it tells why it ended."""
import os
import resource
import subprocess
import tempfile

import fuse
from kernel_request_cases.sizes import every_node

MODE, UID, GID = 9, 11, 12  # in a fuse_attr
SECONDS = 100
FULL = "/dev/full"
BEGIN = fuse.request(fuse.INIT, 2, 0, b"\x07\0\0\0\x1f\0\0\0" + bytes(8))


def owners(command):
    """Each folder and each file is that of the user and of the group that are asked for, by LOOKUP and by GETATTR; without these of 0."""
    for words, owner in (([], (0, 0)), (["--uid", "7", "--gid", "8"], (7, 8)), (["--gid=9"], (0, 9)), (["--uid=4294967295"], (4_294_967_295, 0))):
        server = fuse.Server([*map(str, command), *words])
        server.echo(b"tick u64 n", "synthetic_events")
        server.mkdir("instances", "a")
        nodes = list(every_node(server))
        assert len(nodes) > 50
        for path, node, _ in nodes:
            found = server.attributes(node)
            assert (found[UID], found[GID]) == owner, "%s is of %s by %s" % (path, (found[UID], found[GID]), words)
        told = fuse.ATTR.unpack_from(server.ask(fuse.LOOKUP, fuse.ROOT, b"trace\0"), fuse.ENTRY.size)
        assert (told[UID], told[GID]) == owner, "LOOKUP tells another owner"
        assert server.end() == 0


def permissions(command):
    """Folders have the permissions that are asked for, and files what these leave of what can be done with them."""
    for words, folder, file, switch in (([], 0o750, 0o440, 0o640), (["--mode", "0777"], 0o777, 0o444, 0o666), (["--mode=501"], 0o501, 0o400, 0o400), (["--mode", "0"], 0, 0, 0)):
        server = fuse.Server([*map(str, command), *words])
        for path, wanted in (("", folder), ("events", folder), ("available_events", file), ("tracing_on", switch)):
            got = server.attributes(server.lookup(path))[MODE] & 0o7777
            assert got == wanted, "%s has permissions %o by %s" % (path or "the root", got, words)
        assert server.end() == 0


def ended(command, words, stdin=None, stdout=subprocess.PIPE, before=None):
    """The status, what it wrote and what it told."""
    given = {"input": b""} if stdin is None else {"stdin": stdin}
    ran = subprocess.run([*map(str, command), *words], stdout=stdout, stderr=subprocess.PIPE, preexec_fn=before, timeout=SECONDS, **given)
    return ran.returncode, ran.stdout or b"", ran.stderr


def unreadable(command):
    """Requests that can't be read: of a folder, and of what is closed for reading."""
    with tempfile.TemporaryDirectory() as folder:
        opened = os.open(folder, os.O_RDONLY)
        got = ended(command, [], opened)
        os.close(opened)
    assert got == (5, b"", b"tracectl_mount: requests can't be read\n"), got
    written = os.open("/dev/null", os.O_WRONLY)
    got = ended(command, [], written)
    os.close(written)
    assert got == (5, b"", b"tracectl_mount: requests can't be read\n"), got


def unwritten(command):
    """Replies that are not taken."""
    with tempfile.TemporaryFile() as requests, open(FULL, "wb") as full:
        requests.write(BEGIN)
        requests.seek(0)
        got = ended(command, [], requests, full)
    assert got == (5, b"", b"tracectl_mount: standard output can't be written\n"), got


def little_memory(command):
    """Rings for which there is no memory: nothing begins."""
    least = 64 * 1024 * 1024
    got = ended(command, ["--cpus", "8", "--pages", "1024"], before=lambda: resource.setrlimit(resource.RLIMIT_AS, (least // 4, least // 4)))
    assert got == (3, b"", b"tracectl_mount: out of memory\n"), got
    assert ended(command, ["--pages", "2"], before=lambda: resource.setrlimit(resource.RLIMIT_AS, (least, least))) == (0, b"", b"")


def wrong_words(command):
    """Nothing is served by words that are wrong, nor where help or the version is asked for."""
    for words in (["--uid"], ["--uid", "x"], ["--uid", "-1"], ["--gid", "4294967296"], ["--mode", "1000"], ["--mode", "8"], ["--mode", ""], ["--cpus", "9"], ["--pages", "1"], ["file"], ["--nonsense"]):
        status, wrote, told = ended(command, words, subprocess.DEVNULL)
        assert status == 2 and not wrote and told, "%s: status %d, %s, %s" % (words, status, wrote, told)
    for words in (["--help"], ["--version"]):
        status, wrote, told = ended(command, words, subprocess.DEVNULL)
        assert status == 0 and wrote and not told, "%s: status %d, %s, %s" % (words, status, wrote, told)


CASES = (owners, permissions, unreadable, unwritten, little_memory, wrong_words)
