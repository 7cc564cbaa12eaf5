"""Tests of the Python module over the shared library: what each operation answers and refuses, wrong use, threads, images, and files, which are those of C and
of Rust. tools/bindings runs them over what tools/install put out.

    PYTHONPATH=PREFIX/share/githoppu/python python3 bindings/python/tests/module_tests.py

The examples in the module's own comments are run too.
"""
import doctest
import fcntl
import os
import stat
import tempfile
import threading
import unittest
from pathlib import Path

import githoppu
from githoppu import (
    BadImage, BadSize, Error, FileFault, Image, Lost, Malformed, NoRoom, NotClosed, NotNumber, OutOfTurn, Queue, Stale, Store, SumOverflow, TooLong,
)

# on a slow machine that does other work a thread may be off its processor for long in the middle of a call
githoppu.PATIENCE = 60.0
OF_C = Path(__file__).resolve().parents[2] / "c" / "out" / "files"


def status_of(call, *given):
    """The status of the exception that a call raises."""
    try:
        call(*given)
    except Error as why:
        return why.status
    return None


class Stores(unittest.TestCase):
    def test_documents(self):
        with Store(lines=64) as store:
            one = store[0]
            self.assertEqual((None, True, False, '"pear"'), (one.get("fruit"), one.put("fruit", '"apple"'), one.put("fruit", '"pear"'), one.get("fruit")))
            self.assertEqual((2**63 - 1, 2**63 - 6), (one.add("sold", 2**63 - 1), one.add("sold", -5)))
            for key, amount, error in (("fruit", 1, NotNumber), ("sold", 6, SumOverflow), ("sold", 2**63, SumOverflow)):
                self.assertRaises(error, one.add, key, amount)
            self.assertEqual((["fruit", "sold"], 2, True, False), (list(one.keys()), one.count(), one.delete("fruit"), one.delete("fruit")))
            self.assertEqual((True, True), (one.put("a", "x" * 1024), one.put("b", b"x" * 1024)))
            self.assertRaises(NoRoom, one.put, "c", "x" * 1024)
            self.assertRaises(NoRoom, one.put_if, "c", "x" * 1024, 0)

    def test_what_is_refused(self):
        with Store(lines=64) as store:
            one = store[0]
            for key, document in (("", "1"), ("a key", "1"), ("k\u00e4se", "1"), ("key", ""), ("key", "\n"), ("key", "a\tb")):
                self.assertRaises(Malformed, one.put, key, document)
            for call in (one.get, one.delete, one.add, one.revision):
                self.assertRaises(Malformed, call, "")
            for call in (lambda: one.get("k" * 65), lambda: one.put("key", "x" * 1025), lambda: one.put("key", "\u00e4" * 513)):
                self.assertRaises(TooLong, call)
            self.assertRaises(ValueError, one.put, "", "1")
            with self.assertRaises(Stale) as caught:
                one.put_if("key", "1", 7)
            self.assertEqual(0, caught.exception.revision)
            for revision in (2**64, -1):
                self.assertRaises(Stale, one.put_if, "key", "1", revision)
            one.put("bytes", b"\xff\xfe")
            self.assertEqual(b"\xff\xfe", one.get_bytes("bytes"))
            self.assertRaises(UnicodeDecodeError, one.get, "bytes")
        for lines, sessions in ((63, 1), (16_385, 1), (-1, 1), (64, 0), (64, 9), (64, -1)):
            self.assertRaises(BadSize, Store, lines, sessions)
            self.assertRaises(BadSize, Queue, lines, sessions)
        self.assertRaises(OutOfTurn, one.count)

    def test_queues(self):
        with Queue(lines=64, sessions=2) as queue:
            self.assertEqual((None, None, 0), (queue[0].pop(), queue[0].peek(), len(queue[1])))
            self.assertEqual([True] * 63 + [False], [queue[i % 2].push(f"text-{i}") for i in range(64)])
            self.assertEqual((63, "text-0", "text-0", "text-1"), (len(queue[1]), queue[1].peek(), queue[0].pop(), queue[1].pop()))
            self.assertRaises(Malformed, queue[0].push, "")
            self.assertRaises(Malformed, queue[0].push, "a text")
            self.assertRaises(TooLong, queue[0].push, "t" * 57)
            self.assertTrue(queue[0].push("t" * 56))

    def test_threads(self):
        """A session of its own for each thread, and one that all of them use."""
        for count in (4, 1):
            with Store(lines=64, sessions=count) as store:
                wrong = []

                def sell(session):
                    try:
                        for _ in range(1_000):
                            session.add("sold")
                    except Error as why:
                        wrong.append(why)

                threads = [threading.Thread(target=sell, args=[store[i % count]]) for i in range(4)]
                for thread in threads:
                    thread.start()
                for thread in threads:
                    thread.join()
                self.assertEqual(([], "4000"), (wrong, store[0].get("sold")))

    def test_closing(self):
        store = Store(lines=64, sessions=3)
        store[1].put("fruit", '"fig"')
        closed = store.close()
        self.assertRaises(OutOfTurn, store[0].count)
        self.assertRaises(NotClosed, store.close)
        self.assertTrue(all(Store.recover(closed.image(choice))[0].get("fruit") == '"fig"' for choice in range(4)))
        closed.give_up()
        closed.give_up()
        self.assertRaises(OutOfTurn, closed.image)
        self.assertTrue(issubclass(Lost, Error))

    def test_images(self):
        with Store(lines=64, sessions=2) as store, Queue(lines=64) as queue:
            store[0].add("sold", 3)
            image = store[1].checkpoint()
            self.assertEqual(([14], [None]), ([Store.recover(image)[0].add("sold", 11)], [image.outcome(1)]))
            self.assertEqual((1, githoppu.SUM, 3), (image.outcome(0).number, image.outcome(0).kind, image.outcome(0).sum))
            self.assertEqual((image, hash(image)), (Image(bytes(image)), hash(Image(image.data))))
            for session in (8, -1, 2**64):
                self.assertEqual(githoppu.BAD_SIZE, status_of(image.outcome, session))
            self.assertEqual((True, False, True), tuple(store[1].catch_up(place) for place in (1, 2**64 + 1, -1)))
            self.assertEqual(githoppu.OTHER_KIND, status_of(Queue.recover, image))
            self.assertEqual(githoppu.OTHER_KIND, status_of(Store.recover, queue[0].checkpoint()))
        self.assertEqual(githoppu.NOT_AN_IMAGE, status_of(Store.recover, Image(b"")))
        self.assertEqual(githoppu.IMAGE_SIZE, status_of(Store.recover, Image(image.data[:-8])))
        self.assertRaises(BadImage, Store.recover, Image(b"x" + image.data[1:]))
        self.assertEqual(githoppu.BAD_SIZE, status_of(Store.recover, image, 9))


class Files(unittest.TestCase):
    def setUp(self):
        self.folder = Path(self.enterContext(tempfile.TemporaryDirectory()))
        self.path = self.folder / "saved"

    def saved(self, sold, path=None):
        with Store(lines=64) as store:
            store[0].add("sold", sold)
            store[0].save(path or self.path)

    def sold(self, path=None):
        with Store.load(path or self.path) as store:
            return int(store[0].get("sold"))

    def new_files(self):
        return len([path for path in self.folder.iterdir() if path.name.endswith(".new")])

    def test_bytes_are_those_of_c(self):
        words = b"".join(word.to_bytes(8, "little") for word in (1, 2**64 - 1, 0x0123456789ABCDEF))
        wanted = b"githfile" + bytes([1, *[0] * 7, 3, *[0] * 7, 0xAD, 0x3A, 0x75, 0x4F, *[0] * 4]) + words + bytes([0x3A, 0xB1, 0x56, 0xB0, *[0] * 4])
        Image(words).save(self.path)
        self.assertEqual(wanted, self.path.read_bytes())
        self.assertEqual(words, Image.load(self.path).data)

    @unittest.skipUnless((OF_C / "saved.store").exists(), "the C tests left no files")
    def test_files_of_c(self):
        for name in ("saved.store", "saved.queue"):
            Image.load(OF_C / name).save(self.path)
            self.assertEqual((OF_C / name).read_bytes(), self.path.read_bytes())
        self.assertEqual("one", Queue.load(OF_C / "saved.queue")[0].pop())

    def test_a_closed_store_is_saved_as_one_replica(self):
        for count in (1, 3, 8):
            store = Store(lines=64, sessions=count)
            for number in range(7):
                store[number % count].add("sold")
            with store.close() as closed:
                closed.save(self.path)
                image = closed.image()
            one = Image.load(self.path)
            self.assertEqual((8 + 8 * 210, 8 + 2 * count * 8 * 210, 7), (len(one), len(image), self.sold()))
            self.assertEqual([image.outcome(session) for session in range(8)], [one.outcome(session) for session in range(8)])

    def test_each_byte_and_each_length(self):
        Image(bytes(range(160))).save(self.path)
        good = self.path.read_bytes()
        for at in range(len(good)):
            self.path.write_bytes(good[:at] + bytes([good[at] ^ 1 << at % 8]) + good[at + 1 :])
            self.assertEqual(githoppu.FILE_CHANGED, status_of(Image.load, self.path), at)
            self.path.write_bytes(good[:at])
            self.assertEqual(githoppu.FILE_LENGTH if at else githoppu.FILE_EMPTY, status_of(Image.load, self.path), at)
        for data, status in ((good + good[:8], "FILE_LENGTH"), (b"a text", "FILE_FOREIGN"), (bytes(400), "FILE_FOREIGN")):
            self.path.write_bytes(data)
            self.assertEqual(getattr(githoppu, status), status_of(Image.load, self.path))

    def test_rights_are_kept(self):
        self.saved(1)
        for mode in (0o600, 0o640, 0o444, 0o755):
            self.path.chmod(mode)
            self.saved(mode)
            self.assertEqual(mode, stat.S_IMODE(self.path.stat().st_mode))
            self.path.chmod(0o600)
            self.assertEqual(mode, self.sold())
        if os.geteuid() == 0:
            os.chown(self.path, 1234, 5678)
            self.saved(2)
            self.assertEqual((1234, 5678, 0o600), (self.path.stat().st_uid, self.path.stat().st_gid, stat.S_IMODE(self.path.stat().st_mode)))

    def test_links_are_followed(self):
        room, link, lost, ring = (self.folder / name for name in ("room", "link", "lost", "ring"))
        room.mkdir()
        link.symlink_to("room/file")
        lost.symlink_to(link)
        ring.symlink_to("ring")
        self.saved(1, lost)
        self.saved(2, link)
        self.assertEqual((2, 2, True, True), (self.sold(room / "file"), self.sold(lost), link.is_symlink(), lost.is_symlink()))
        self.assertEqual(githoppu.NOT_MADE, status_of(self.saved, 3, ring))

    def test_what_is_no_regular_file(self):
        os.mkfifo(self.path)
        self.assertEqual((githoppu.NOT_REGULAR, githoppu.NOT_OPENED), (status_of(self.saved, 1), status_of(Store.load, self.path)))
        self.assertTrue(self.path.is_fifo())
        for path, status in ((self.folder, "NOT_REGULAR"), (f"{self.folder}/", "NOT_REGULAR"), (f"{self.folder}/none/file", "NOT_MADE")):
            self.assertEqual(getattr(githoppu, status), status_of(self.saved, 1, path))
        with self.assertRaises(FileFault) as caught:
            Store.load(self.folder / "none")
        self.assertIsInstance(caught.exception.__cause__, FileNotFoundError)
        self.assertEqual(0, self.new_files())

    def test_what_is_left_is_removed(self):
        path, left = self.folder / ("n" * 255), self.folder / ".githoppu.0.new"
        left.write_bytes(b"half")
        self.saved(1, path)
        self.assertEqual((0, 1), (self.new_files(), self.sold(path)))
        # one that is locked is another process's
        with left.open("wb") as other:
            fcntl.flock(other, fcntl.LOCK_EX)
            (self.folder / ".githoppu.1.new").write_bytes(b"half")
            self.saved(2, path)
            self.assertEqual((1, True), (self.new_files(), left.exists()))
        self.saved(3, path)
        self.assertEqual((0, 3), (self.new_files(), self.sold(path)))

    def test_threads_save_at_once(self):
        wrong = []

        def save(number):
            try:
                for _ in range(20):
                    self.saved(number)
                    self.sold()
            except Error as why:
                wrong.append(why)

        threads = [threading.Thread(target=save, args=[number]) for number in range(1, 5)]
        for thread in threads:
            thread.start()
        for thread in threads:
            thread.join()
        self.assertEqual(([], 0), (wrong, self.new_files()))


def load_tests(loader, tests, ignored):
    tests.addTests(doctest.DocTestSuite(githoppu))
    return tests


if __name__ == "__main__":
    unittest.main()
