"""Tests of the words of tools/install, of which library it takes, and of what it writes where; the linker and the archiver are not called here."""
import contextlib
import io
import os
import tempfile
import unittest
from pathlib import Path
from unittest import mock

import install_library
from install_library import NotInstalled
from unproved import NotBuilt

VERSION, SERIES = install_library.versions()
LIBRARIES = {"lib/libgithoppu.a", f"lib/libgithoppu.so.{VERSION}", f"lib/libgithoppu.so.{SERIES}", "lib/libgithoppu.so"}
TEXTS = {
    "include/githoppu.h", "include/githoppu_file.h", "lib/pkgconfig/githoppu.pc", "lib/cmake/githoppu/githoppuConfig.cmake",
    "lib/cmake/githoppu/githoppuConfigVersion.cmake", "share/githoppu/rust/Cargo.toml", "share/githoppu/rust/build.rs", "share/githoppu/rust/src/lib.rs",
    "share/githoppu/python/githoppu.py", "share/githoppu/tools/program", "share/githoppu/tools/bpf_model.py", "share/githoppu/tools/link_program.py",
    "share/githoppu/tools/native_program.c",
}


class Installs(unittest.TestCase):
    def setUp(self):
        self.room = Path(self.enterContext(tempfile.TemporaryDirectory())).resolve()
        self.archive = self.room / "libgithoppu_c.a"
        self.archive.write_bytes(b"archive")
        self.replace("merge", lambda archive, made: made.write_bytes(archive.read_bytes()))
        self.replace("link_shared", lambda archive, soname, room, made: made.write_text(soname))
        self.replace("library", lambda only_proved: (self.archive, "proved" if only_proved else "without a proof, checks on"))
        self.enterContext(mock.patch.dict(os.environ, {"DESTDIR": ""}))

    def replace(self, name, fake):
        self.enterContext(mock.patch.object(install_library, name, fake))

    def said(self, *words):
        """The status, and what is said."""
        text = io.StringIO()
        with contextlib.redirect_stdout(text), contextlib.redirect_stderr(text):
            status = install_library.main([str(word) for word in words])
        return status, text.getvalue()

    def files(self, folder):
        return {str(path.relative_to(folder)) for path in folder.rglob("*") if path.is_file()}

    def test_other_words_are_refused(self):
        for words in ([], [""], ["-x"], ["--all", "a"], ["a", "b"], ["--proved"], ["--proved", "--proved", "a"]):
            self.assertEqual((2, "usage: tools/install [--proved] PREFIX\n"), self.said(*words))

    def test_what_is_written(self):
        for words, built in (([], "without a proof, checks on"), (["--proved"], "proved")):
            prefix = self.room / "prefix"
            self.assertEqual((0, f"tools/install: version {VERSION}, {built}, in {prefix}\n"), self.said(*words, prefix))
            self.assertLessEqual(LIBRARIES | TEXTS, self.files(prefix))
            config = (prefix / "lib/pkgconfig/githoppu.pc").read_text("utf-8")
            self.assertIn(f"\nbuilt={built}\n", config)
            self.assertIn(f"\nVersion: {VERSION}\n", config)
            # a link leads beside itself, and all that is text is whole
            self.assertEqual(f"libgithoppu.so.{SERIES}", os.readlink(prefix / "lib/libgithoppu.so"))
            self.assertEqual(f"libgithoppu.so.{SERIES}", (prefix / "lib/libgithoppu.so").read_text())
            modes = tuple((prefix / name).stat().st_mode & 0o777 for name in (f"lib/libgithoppu.so.{VERSION}", "share/githoppu/tools/program", "include/githoppu.h"))
            self.assertEqual((0o755, 0o755, 0o644), modes)
            self.assertFalse([name for name in self.files(prefix) if "@" in (prefix / name).read_text("utf-8") and "cmake" in name])

    def test_a_program_that_runs_keeps_its_library(self):
        """A further install replaces a file by another one, and writes into none."""
        self.said(self.room / "prefix")
        shared = self.room / "prefix" / "lib" / f"libgithoppu.so.{VERSION}"
        with shared.open("rb") as opened:
            self.replace("link_shared", lambda archive, soname, room, made: made.write_text("another"))
            self.assertEqual(0, self.said(self.room / "prefix")[0])
            self.assertEqual((f"libgithoppu.so.{SERIES}".encode(), "another"), (opened.read(), shared.read_text()))

    def test_places(self):
        with mock.patch.dict(os.environ, {"DESTDIR": str(self.room / "staged")}):
            self.assertEqual(0, self.said("/opt/githoppu")[0])
        self.assertLessEqual(TEXTS, self.files(self.room / "staged" / "opt" / "githoppu"))
        with contextlib.chdir(self.room):
            self.assertEqual((0, f"tools/install: version {VERSION}, proved, in {self.room / 'here'}\n"), self.said("here", "--proved"))

    def test_what_fails_is_told(self):
        (self.room / "file").write_text("")
        status, said = self.said(self.room / "file")
        self.assertEqual((1, f"tools/install: {self.room / 'file' / 'lib'}: Not a directory\n"), (status, said))
        for error in (NotInstalled("there is no library, and none can be built here"), NotBuilt("llvm-ar: no such file")):
            self.replace("library", mock.Mock(side_effect=error))
            self.assertEqual((1, f"tools/install: {error}\n"), self.said(self.room / "prefix"))

    def test_which_library_is_taken(self):
        self.enterContext(mock.patch.object(install_library.build_program, "is_fresh", lambda made, texts: False))
        with mock.patch.object(install_library.build_library, "build", lambda crate: 2), self.assertRaises(NotInstalled):
            install_library.proved_library()
        with mock.patch.object(install_library.build_library, "build", lambda crate: 0):
            self.assertEqual((install_library.LIBRARY, "proved"), install_library.proved_library())
