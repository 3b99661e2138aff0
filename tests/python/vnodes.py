"""Tests of VNODE, which is sampled by fstat: what is done to a file, and what is told."""
import os
import tempfile
import time

import kqsim
from kqueue_case import ADD, CLEAR, LONG, READ, VNODE, KqueueCase

NOTES = {"DELETE": 1, "WRITE": 2, "EXTEND": 4, "ATTRIB": 8, "LINK": 16, "RENAME": 32, "REVOKE": 64}
ALL = sum(NOTES.values())


def append(path):
    with open(path, "ab") as file:
        file.write(b"more")


def overwrite(path):
    with open(path, "r+b") as file:
        file.write(b"HE")


def append_twice(path):
    append(path)
    append(path)


def replace(path):
    with open(f"{path}.new", "wb") as file:
        file.write(b"new")
    os.rename(f"{path}.new", path)


def append_and_chmod(path):
    append(path)
    os.chmod(path, 0o600)


def read(path):
    with open(path, "rb") as file:
        file.read()


# What is done to a file of five bytes, and what is told of it.
TABLE = [
    (append, {"WRITE", "EXTEND"}),
    (append_twice, {"WRITE", "EXTEND"}),
    (overwrite, {"WRITE"}),
    (lambda path: os.truncate(path, 2), {"ATTRIB"}),
    (lambda path: os.chmod(path, 0o600), {"ATTRIB"}),
    (lambda path: os.utime(path, (1, 2)), {"ATTRIB"}),
    (os.utime, {"WRITE"}),
    (append_and_chmod, {"WRITE", "EXTEND", "ATTRIB"}),
    (lambda path: os.link(path, f"{path}.link"), {"LINK"}),
    (lambda path: os.rename(path, f"{path}.other"), {"RENAME"}),
    (os.unlink, {"DELETE"}),
    (replace, {"DELETE"}),
    (read, set()),
    (os.stat, set()),
]


def tick():
    """Waits until the clock of the file system, which may be coarse, has moved on."""
    time.sleep(0.03)


class Vnode(KqueueCase):
    def setUp(self):
        super().setUp()
        folder = tempfile.TemporaryDirectory()
        self.addCleanup(folder.cleanup)
        self.folder, self.path = folder.name, f"{folder.name}/file"
        with open(self.path, "wb") as file:
            file.write(b"hello")
        os.chmod(self.path, 0o644)
        tick()

    def watched(self, path, mask=ALL, flags=os.O_RDONLY):
        fd = os.open(path, flags)
        self.addCleanup(os.close, fd)
        self.change(fd, VNODE, flags=ADD | CLEAR, fflags=mask)
        return fd

    def notes(self, seconds=0):
        bits = [it.fflags for it in self.kq.control(None, 8, seconds)]
        return [{name for name, bit in NOTES.items() if it & bit} for it in bits]

    def test_table(self):
        for number, (done, told) in enumerate(TABLE):
            with self.subTest(number=number, done=done.__name__):
                path = f"{self.folder}/{number}"
                with open(path, "wb") as file:
                    file.write(b"hello")
                os.chmod(path, 0o644)
                tick()
                fd = self.watched(path)
                self.assertEqual(self.notes(), [])
                done(path)
                self.assertEqual(self.notes(), [told] if told else [])
                tick()
                self.assertEqual(self.notes(), [])
                self.change(fd, VNODE, flags=kqsim.KQ_EV_DELETE)

    def test_own_writes(self):
        """Those of the program itself are seen as an outsider's, and its offset moves."""
        fd = self.watched(self.path, flags=os.O_RDWR)
        self.change(fd, READ)
        os.lseek(fd, 0, os.SEEK_END)
        os.write(fd, b"more")
        self.assertEqual(self.notes(), [{"WRITE", "EXTEND"}])
        os.lseek(fd, -3, os.SEEK_CUR)
        self.assertEqual(self.events(), [(fd, READ, 3)])

    def test_mask(self):
        """What was not asked for is not told."""
        self.watched(self.path, mask=NOTES["WRITE"] | NOTES["DELETE"])
        os.chmod(self.path, 0o600)
        self.assertEqual(self.notes(), [])
        append(self.path)
        self.assertEqual(self.notes(), [{"WRITE"}])

    def test_names(self):
        """One of two names goes, then the file gets another, then none."""
        other = f"{self.path}.other"
        os.link(self.path, other)
        tick()
        self.watched(self.path)
        os.unlink(self.path)
        self.assertEqual(self.notes(), [{"LINK"}])
        tick()
        os.unlink(other)
        self.assertEqual(self.notes(), [{"DELETE"}])

    def test_deleted_file_grows(self):
        fd = self.watched(self.path, flags=os.O_RDWR)
        os.unlink(self.path)
        self.assertEqual(self.notes(), [{"DELETE"}])
        os.lseek(fd, 0, os.SEEK_END)
        os.write(fd, b"more")
        self.assertEqual(self.notes(), [{"WRITE", "EXTEND"}])

    def test_directory(self):
        self.watched(self.folder)
        with open(f"{self.folder}/new", "wb"):
            pass
        self.assertEqual(self.notes(), [{"WRITE"}])

    def test_parent_is_renamed(self):
        """The file has a new path, and was not renamed."""
        os.mkdir(f"{self.folder}/old")
        os.rename(self.path, f"{self.folder}/old/file")
        tick()
        self.watched(f"{self.folder}/old/file")
        os.rename(f"{self.folder}/old", f"{self.folder}/new")
        self.assertEqual(self.notes(), [])

    def test_more_than_a_record_takes(self):
        """A write has 32 bits; a file may grow by more."""
        fd = self.watched(self.path, flags=os.O_RDWR)
        self.change(fd, READ)
        os.truncate(self.path, 5 << 30)
        self.assertEqual(self.notes_of_vnode(), {"WRITE", "EXTEND"})
        self.assertEqual(self.events(), [(fd, READ, 5 << 30)])

    def notes_of_vnode(self):
        bits = [it.fflags for it in self.kq.control(None, 8, LONG) if it.filter == VNODE]
        return {name for name, bit in NOTES.items() if bits[0] & bit}
