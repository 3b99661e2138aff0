"""Tests of the Python client: the virtual system, and the package."""
import errno
import importlib
import inspect
import io
import os
import re
import unittest

import kqsim


class Virtual(unittest.TestCase):
    """A Sim in which happens what its records say."""

    def test_user_event(self):
        log = io.StringIO()
        with kqsim.Sim(log=log) as sim:
            sim.proc(1)
            sim.kqueue(1, 9)
            change = {"ident": 7, "filter": "USER", "flags": ["ADD", "CLEAR"], "fflags": 1 << 24}
            self.assertEqual(sim.kevent(1, 9, [change]), [])
            events = sim.kevent(1, 9, room=4)
            self.assertEqual([(it["ident"], it["filter"], it["flags"]) for it in events], [(7, "USER", ["CLEAR"])])
            self.assertEqual(sim.kevent(1, 9, room=4), [])
            self.assertEqual(sim.end(), {"calls": 3, "events": 1, "records": 5})
        self.assertEqual(len(log.getvalue().splitlines()), 6)

    def test_each_record(self):
        with kqsim.Sim(version=2) as sim:
            sim.proc(1)
            sim.kqueue(1, 9)
            sim.socket(1, 3, 100, 100)
            sim.lowat(1, 3, "read", 2)
            sim.lowat(1, 3, "write", 10)
            sim.connect(1, 3)
            sim.kevent(1, 9, [{"ident": 3, "filter": it, "flags": ["ADD"]} for it in ("READ", "WRITE")])
            sim.rx(1, 3, 5)
            sim.read(1, 3, 2)
            sim.write(1, 3, 60)
            sim.tx(1, 3, 10)
            sim.shut(1, 3, "read", 54)
            events = sim.kevent(1, 9, room=4)
            found = {it["filter"]: (it["data"], it["fflags"]) for it in events}
            self.assertEqual(found, {"READ": (3, 54), "WRITE": (50, 0)})
            sim.socket(1, 4, 100, 100)
            sim.listen(1, 4, 2)
            sim.arrive(1, 4)
            sim.accept(1, 4, 5, 100, 100)
            sim.dup(1, 5, 6)
            sim.close(1, 5)
            sim.pipe(1, 10, 11, 4096)
            sim.file(1, 10)
            sim.open(1, 12, 1, "rw")
            sim.seek(1, 12, 4)
            sim.truncate(1, 20)
            sim.note(1, "attrib")
            sim.sigset(1, 2, True)
            sim.sig(1, 2)
            sim.clock(1000)
            sim.fork(1, 2)
            sim.exec(2)
            sim.exit(2)
            self.assertEqual(sim.end()["records"], 31)

    def test_refusals(self):
        with kqsim.Sim() as sim:
            sim.proc(1)
            with self.assertRaises(kqsim.Impossible) as caught:
                sim.proc(1)
            self.assertEqual(caught.exception.args[0], "UsedPid")
            with self.assertRaises(kqsim.Fault) as caught:
                sim.record(op="proc", pid=-1)
            self.assertEqual(caught.exception.args[0], "Range")
            sim.kqueue(1, 9)
            with self.assertRaises(OSError) as caught:
                sim.kevent(1, 9, [{"ident": 5, "filter": "READ", "flags": ["ADD"]}])
            self.assertEqual(caught.exception.errno, errno.EBADF)
            self.assertEqual(sim.end()["records"], 4)

    def test_end(self):
        sim = kqsim.Sim(version=3)
        with self.assertRaises(kqsim.Ended):
            sim.proc(1)
            sim.proc(2)


class Package(unittest.TestCase):
    """What pyproject.toml says of the package."""

    def test_metadata(self):
        folder = os.path.dirname(kqsim.__file__)
        with open(os.path.join(os.path.dirname(folder), "pyproject.toml"), encoding="utf-8") as file:
            text = file.read()
        module, name = re.search(r'^version = {attr = "([\w.]+)\.(\w+)"}$', text, re.MULTILINE).groups()
        self.assertEqual(getattr(importlib.import_module(module), name), kqsim.__version__)
        self.assertRegex(kqsim.__version__, r"^\d+\.\d+\.\d+$")
        self.assertIn('license = {text = "BSD-2-Clause"}\n', text)
        self.assertIn('kqsim = ["py.typed"]\n', text)
        self.assertTrue(os.path.exists(os.path.join(folder, "py.typed")))

    def test_constants(self):
        names = {}
        exec("from kqsim import *", names)
        self.assertEqual((names["KQ_FILTER_READ"], kqsim.KQ_EV_EOF), (-1, 0x8000))
        self.assertFalse(hasattr(kqsim, "KQ_FILTER_NOTHING"))

    def test_hints(self):
        """Each function that a user calls says what it takes and gives."""
        for kind in (kqsim.Sim, kqsim.kqueue, kqsim.kevent):
            for name, it in vars(kind).items():
                if inspect.isfunction(it):
                    names = {*inspect.signature(it).parameters, "return"} - {"self"}
                    self.assertEqual(names - set(it.__annotations__), set(), f"{kind.__name__}.{name}")


if __name__ == "__main__":
    unittest.main()
