"""What is public has a docstring, and types that can be looked up. Whether they are right mypy tells, where it is."""
import inspect
import sys
import typing
import unittest
from pathlib import Path

import tracectl


def public_calls():
    """The methods that are written in the package, by the names of their public classes and their own."""
    for name in tracectl.__all__:
        kind = getattr(tracectl, name)
        if inspect.isclass(kind):
            for key, value in vars(kind).items():
                call = value.fget if isinstance(value, property) else getattr(value, "__func__", value)
                if inspect.isfunction(call) and Path(call.__code__.co_filename).parent == Path(tracectl.__file__).parent:
                    yield "%s.%s" % (name, key), call


class Types(unittest.TestCase):
    def test_docstrings(self):
        for name in tracectl.__all__:
            if inspect.isclass(getattr(tracectl, name)):
                self.assertTrue(vars(getattr(tracectl, name)).get("__doc__"), name)
        lacking = [name for name, call in public_calls() if not call.__doc__ and "._" not in name and name != "Field.is_string"]
        self.assertEqual(lacking, [])

    def test_each_parameter_has_a_type(self):
        calls = dict(public_calls())
        self.assertGreater(len(calls), 30)
        for name, call in calls.items():
            signature = inspect.signature(call)
            untyped = [each.name for each in signature.parameters.values() if each.annotation is each.empty and each.name != "self"]
            self.assertEqual((name, untyped), (name, []))
            self.assertIsNot(signature.return_annotation, signature.empty, name)

    @unittest.skipIf(sys.version_info < (3, 10), "`int | None` is looked up by Python 3.10 or later")
    def test_types_can_be_looked_up(self):
        for name, call in public_calls():
            self.assertTrue(typing.get_type_hints(call, localns={"Tracer": tracectl.Tracer}), name)

    def test_the_package_says_that_it_is_typed(self):
        self.assertTrue((Path(tracectl.__file__).parent / "py.typed").is_file())
