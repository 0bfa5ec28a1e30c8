"""Where the shared library is looked for. The files are empty: nothing is loaded."""
import os
import tempfile
import unittest
from pathlib import Path
from unittest import mock

from tracectl import Tracer, library

PKG_CONFIG = '#!/bin/sh\n[ "$*" = "--variable=libdir tracectl" ] && echo "%s"\n'


class FindLibrary(unittest.TestCase):
    def setUp(self):
        folder = tempfile.TemporaryDirectory()
        self.addCleanup(folder.cleanup)
        self.room = Path(folder.name).resolve()
        self.package, self.told, self.commands = (self.room / name for name in ("package", "told", "commands"))
        for each in (self.package, self.told, self.commands):
            each.mkdir()
        self.replace(library, "__file__", str(self.package / "library.py"))
        self.replace(library, "LIBRARY", "")
        environment = mock.patch.dict(os.environ, PATH=str(self.commands))
        environment.start()
        self.addCleanup(environment.stop)
        os.environ.pop("TRACECTL_LIBRARY", None)

    def replace(self, module, name, value):
        patch = mock.patch.object(module, name, value)
        patch.start()
        self.addCleanup(patch.stop)

    def place_pkg_config(self, lines):
        command = self.commands / "pkg-config"
        command.write_text(lines)
        command.chmod(0o755)

    def test_the_environment_comes_first_whether_or_not_it_is_there(self):
        os.environ["TRACECTL_LIBRARY"] = "/no/such/library.so"
        (self.package / "libtracectl.so").touch()
        self.assertEqual(library.find_library(), "/no/such/library.so")
        with self.assertRaisesRegex(OSError, "/no/such/library.so"):
            Tracer()

    def test_an_empty_name_in_the_environment_is_none(self):
        os.environ["TRACECTL_LIBRARY"] = ""
        (self.package / "libtracectl.so").touch()
        self.assertEqual(library.find_library(), str(self.package / "libtracectl.so"))

    def test_the_installed_one_comes_before_one_beside_the_modules(self):
        (self.package / "libtracectl.so.0.4").touch()
        installed = self.room / "installed.so.0.4"
        self.replace(library, "LIBRARY", str(installed))
        self.assertEqual(library.find_library(), str(self.package / "libtracectl.so.0.4"))
        installed.touch()
        self.assertEqual(library.find_library(), str(installed))

    def test_beside_the_modules_the_one_with_the_number_of_its_calls_comes_first(self):
        (self.package / "libtracectl.so").touch()
        self.assertEqual(library.find_library(), str(self.package / "libtracectl.so"))
        (self.package / "libtracectl.so.0.4").touch()
        self.assertEqual(library.find_library(), str(self.package / "libtracectl.so.0.4"))

    def test_pkg_config_tells_a_folder(self):
        self.place_pkg_config(PKG_CONFIG % self.told)
        (self.told / "libtracectl.so").touch()
        self.assertEqual(library.find_library(), str(self.told / "libtracectl.so"))

    def test_the_error_lists_where_it_looked(self):
        self.replace(library, "LIBRARY", str(self.room / "installed.so.0.4"))
        self.place_pkg_config(PKG_CONFIG % self.told)
        with self.assertRaises(FileNotFoundError) as raised:
            Tracer()
        names = [self.room / "installed.so.0.4"] + [folder / name for folder in (self.package, self.told) for name in ("libtracectl.so.0.4", "libtracectl.so")]
        for part in ["TRACECTL_LIBRARY is not set", *map(str, names)]:
            self.assertIn(part, str(raised.exception))

    def test_pkg_config_may_know_nothing_or_be_missing(self):
        for lines in (None, "#!/bin/sh\nexit 1\n", "#!/bin/sh\necho\n"):
            if lines:
                self.place_pkg_config(lines)
            with self.assertRaisesRegex(FileNotFoundError, "pkg-config knows no tracectl"):
                library.find_library()

    def test_a_name_that_is_given_is_taken(self):
        with self.assertRaisesRegex(OSError, "/no/such/library.so"):
            Tracer(library=Path("/no/such/library.so"))
        with self.assertRaises(ValueError):
            Tracer(library="")
