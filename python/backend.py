"""Builds the package for pip (PEP 517 and 660), by what Python has: nothing has to be fetched. `pip install ./python` runs it."""
import base64
import hashlib
import io
import re
import tarfile
import zipfile
from pathlib import Path

HERE = Path(__file__).resolve().parent
PROJECT = (HERE / "pyproject.toml").read_text()
TIME = (1980, 1, 1, 0, 0, 0)  # of each file of a wheel, so that the same files give the same wheel


def project(key):
    """A string of pyproject.toml."""
    return re.search('^%s = "(.*)"$' % key, PROJECT, re.MULTILINE)[1]


def metadata():
    heads = {"Metadata-Version": "2.1", "Name": project("name"), "Version": project("version"), "Summary": project("description")}
    heads.update({"Requires-Python": project("requires-python"), "License": "MIT", "Description-Content-Type": "text/markdown"})
    return "".join("%s: %s\n" % head for head in heads.items()) + "\n" + (HERE / "README.md").read_text()


def modules():
    """The files of the package, by their names in a wheel."""
    paths = [*sorted((HERE / "tracectl").glob("*.py")), HERE / "tracectl" / "py.typed"]
    return {"tracectl/%s" % path.name: path.read_bytes() for path in paths}


def digest(content):
    return base64.urlsafe_b64encode(hashlib.sha256(content).digest()).rstrip(b"=").decode()


def write_wheel(folder, files):
    """Writes a wheel that has these files. Returns its name."""
    release = "tracectl-%s" % project("version")
    info = release + ".dist-info/"
    tags = "Wheel-Version: 1.0\nGenerator: tracectl\nRoot-Is-Purelib: true\nTag: py3-none-any\n"
    files = {**files, info + "METADATA": metadata().encode(), info + "WHEEL": tags.encode()}
    record = "".join("%s,sha256=%s,%d\n" % (name, digest(content), len(content)) for name, content in files.items())
    files[info + "RECORD"] = (record + info + "RECORD,,\n").encode()
    name = release + "-py3-none-any.whl"
    with zipfile.ZipFile(str(Path(folder) / name), "w", zipfile.ZIP_DEFLATED) as wheel:
        for path, content in files.items():
            entry = zipfile.ZipInfo(path, TIME)
            entry.external_attr = 0o644 << 16
            wheel.writestr(entry, content, zipfile.ZIP_DEFLATED)
    return name


def build_wheel(wheel_directory, config_settings=None, metadata_directory=None):
    return write_wheel(wheel_directory, modules())


def build_editable(wheel_directory, config_settings=None, metadata_directory=None):
    return write_wheel(wheel_directory, {"tracectl.pth": ("%s\n" % HERE).encode()})


def build_sdist(sdist_directory, config_settings=None):
    release = "tracectl-%s" % project("version")
    files = {name: (HERE / name).read_bytes() for name in ("pyproject.toml", "backend.py", "README.md")}
    with tarfile.open(str(Path(sdist_directory) / (release + ".tar.gz")), "w:gz", format=tarfile.PAX_FORMAT) as archive:
        for name, content in {**files, **modules(), "PKG-INFO": metadata().encode()}.items():
            entry = tarfile.TarInfo("%s/%s" % (release, name))
            entry.size = len(content)
            archive.addfile(entry, io.BytesIO(content))
    return release + ".tar.gz"
