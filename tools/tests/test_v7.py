#!/usr/bin/env python3
"""Tests of `tools/v7`. What stands on a volume is read by a second reader, written from docs/FORMAT.md alone, and is
compared with the host's files byte for byte; figures are worked out from the format.

They need the built program, or one that the variable MEMBRANE names.
"""

import contextlib
import importlib.machinery
import importlib.util
import io
import os
import random
import re
import shutil
import signal
import stat
import subprocess
import sys
import tempfile
import time
import unittest
from unittest import mock

sys.dont_write_bytecode = True
from volume_reader import BLOCK, DIRECTORY, Volume

TOP = os.path.dirname(os.path.dirname(os.path.dirname(os.path.abspath(__file__))))
TOOL = os.path.join(TOP, "tools", "v7")
PROGRAM = os.path.abspath(os.environ.get("MEMBRANE", os.path.join(TOP, "membrane")))

# Python without what a site adds to its start.
PYTHON = [sys.executable, "-I", "-S", "-B"]

# Notes what goes into the program and hands it on.
RECORDER = """#!{python}
import os, subprocess, sys, tempfile
job = sys.stdin.buffer.read() if sys.argv[1] == "run" else b""
if job:
    handle, _ = tempfile.mkstemp(dir={folder!r})
    os.write(handle, job) == len(job) or sys.exit(99)
sys.exit(subprocess.run([{program!r}, *sys.argv[1:]], input=job).returncode)
"""


class Case(unittest.TestCase):
    def setUp(self):
        folder = tempfile.TemporaryDirectory(prefix="v7-tests-")
        self.addCleanup(folder.cleanup)
        self.folder = folder.name
        self.image = self.at("volume.v7")

    def at(self, *names):
        return os.path.join(self.folder, *names)

    def v7(self, *words, status=0, program=PROGRAM, stdin=b"", **more):
        """Runs the command, which is to end with that status; what it printed and what it said beside that."""
        environment = {**os.environ, "MEMBRANE": program}
        done = subprocess.run(
            [*PYTHON, TOOL, *words], input=stdin, capture_output=True, cwd=self.folder, env=environment, **more
        )
        self.assertEqual(done.returncode, status, (words, done.stdout[-2000:], done.stderr[-2000:]))
        return done.stdout, done.stderr.decode("utf-8", "backslashreplace")

    def new(self, blocks="2000", inodes="800"):
        self.v7("new", "-f", self.image, str(blocks), str(inodes))

    def bytes(self, image=None):
        with open(image or self.image, "rb") as file:
            return file.read()

    def volume(self):
        """The second reader's tree of the image, which the program says is sound, with the figures that it says."""
        said = self.v7("check", self.image)[0].decode()
        volume = Volume(self.bytes())
        inodes = {node.inode.number for node in volume.nodes.values()}
        held = len(volume.owners) - len(volume.free)
        self.assertRegex(said, f": sound: {len(inodes)} inodes in use, {held} blocks held, {len(volume.free)} free")
        return volume

    def file(self, name, content, mode=0o644):
        path = self.at(name)
        with open(path, "wb") as file:
            file.write(content)
        os.chmod(path, mode)
        return path

    def module(self):
        """The command as a module."""
        loader = importlib.machinery.SourceFileLoader("v7", TOOL)
        module = importlib.util.module_from_spec(importlib.util.spec_from_loader("v7", loader))
        loader.exec_module(module)
        os.environ["MEMBRANE"] = PROGRAM
        # a change leaves them blocked up to the end of the command
        self.addCleanup(signal.pthread_sigmask, signal.SIG_UNBLOCK, module.STOPS)
        return module

    @contextlib.contextmanager
    def unchanged(self):
        """The image stays as it is, and no unfinished file stays beside it."""
        before = self.bytes()
        yield
        self.assertEqual(self.bytes(), before)
        self.assertEqual([name for name in os.listdir(self.folder) if name.startswith(".v7-")], [])

    def program(self, text):
        """A program of the tests' own in place of `membrane`."""
        path = self.at("stand-in")
        with open(path, "w", encoding="utf-8") as file:
            file.write(text)
        os.chmod(path, 0o755)
        return path

    def recorder(self):
        """The program, and a function for the jobs that went into it since it was last called."""
        folder = self.at("jobs")
        os.mkdir(folder)

        def jobs():
            texts = []
            for name in os.listdir(folder):
                texts.append(self.bytes(os.path.join(folder, name)))
                os.unlink(os.path.join(folder, name))
            return texts

        return self.program(RECORDER.format(python=sys.executable, folder=folder, program=PROGRAM)), jobs

    def within_limits(self, job, most_bytes=4_194_304, most_calls=100_000, most_counts=16_777_216):
        """A job's text is within the limits of jobs."""
        self.assertLessEqual(len(job), most_bytes)
        lines = job.split(b"\n")
        self.assertEqual((lines[0], lines[-2:]), (b"calls = [", [b"]", b""]))
        calls = [line[3:-2].split(b" ") for line in lines[1:-2]]
        self.assertLessEqual(len(calls), most_calls)
        counts = [int(call[2]) for call in calls if call[0] in (b"read", b"fill")]
        counts += [len(call[2]) // 2 for call in calls if call[0] == b"hex"]
        self.assertLessEqual(sum(counts), most_counts)
        self.assertLessEqual(max(counts, default=0), 65_535)

    def assert_tree(self, volume, host, top=b"", keep=False):
        """What stands below `top` on the volume is what stands below that folder of the host."""
        expected = {}
        for folder, folders, files in os.walk(os.fsencode(host)):
            below = folder[len(os.fsencode(host)) :]
            expected[below] = None
            for name in files:
                expected[below + b"/" + name] = self.bytes(folder + b"/" + name)
            for name in folders:
                expected[below + b"/" + name] = None
        found = {path[len(top) :]: node for path, node in volume.nodes.items() if (path + b"/").startswith(top + b"/")}
        self.assertEqual(sorted(found), sorted(expected))
        groups = {}
        for below, content in expected.items():
            node, status = found[below], os.stat(os.fsencode(host) + below)
            if content is not None:
                self.assertTrue(node.content == content, below)
                groups.setdefault(status.st_ino, set()).add(node.inode.number)
                self.assertEqual(node.inode.links, status.st_nlink, below)
            self.assertEqual(node.inode.mode & 0o170000 == DIRECTORY, content is None, below)
            if below or top:
                self.assertEqual(node.inode.mode & (0o7777 if keep else 0o777), stat.S_IMODE(status.st_mode), below)
            if keep:
                self.assertEqual((node.inode.uid, node.inode.gid), (status.st_uid, status.st_gid), below)
                self.assertEqual(node.inode.times[1], int(status.st_mtime), below)
        self.assertTrue(all(len(inodes) == 1 for inodes in groups.values()))

    def assert_same(self, one, other):
        """Two folders of the host have the same files, links and modes."""
        self.assertEqual(self.listing(one), self.listing(other))

    def listing(self, host):
        found, inodes = [], {}
        for folder, folders, files in os.walk(host):
            folders.sort()
            for name in sorted(folders) + sorted(files):
                path = os.path.join(folder, name)
                status = os.lstat(path)
                content = self.bytes(path) if stat.S_ISREG(status.st_mode) else None
                first = inodes.setdefault(status.st_ino, len(inodes))
                found.append((path[len(host) :], first, stat.S_IMODE(status.st_mode), content))
        return found


class RoundTrip(Case):
    """Trees go in and come out."""

    def tree(self):
        """500 files of all sizes, a sparse one, links and modes, and a directory of 600 entries."""
        draw = random.Random(7)
        host = self.at("tree")
        sizes = [0, 1, 511, 512, 513, 5119, 5120, 5121, 70_655, 70_656, 70_657, 1_000_000, 1 << 20]
        sizes += [draw.randrange(0, 9000) for _ in range(499 - len(sizes))]
        folders = [host, *(os.path.join(host, f"folder{number}") for number in range(9))]
        folders.append(os.path.join(folders[3], "deep"))
        for folder in folders:
            os.mkdir(folder)
        for number, size in enumerate(sizes):
            path = os.path.join(folders[number % len(folders)], f"file{number}")
            contents = (draw.randbytes(size), bytes([number % 256]) * size, (b"line\n" * size)[:size])
            with open(path, "wb") as file:
                file.write(contents[number % 3])
            os.chmod(path, (0o644, 0o600, 0o755, 0o444, 0o000 if os.geteuid() == 0 else 0o400)[number % 5])
        with open(os.path.join(host, "sparse"), "wb") as file:
            for offset, text in ((0, b"begin"), (3_000_000, b"middle"), (5_000_001, b"x" * 1000)):
                file.seek(offset)
                file.write(text)
            file.truncate(8 << 20)
        many = os.path.join(host, "many")
        os.mkdir(many)
        os.chmod(many, 0o711)
        for number in range(600):
            if number % 3 == 0:
                os.link(os.path.join(folders[0], "file0"), os.path.join(many, f"{number}"))
            else:
                open(os.path.join(many, f"entry.{number}"), "wb").close()
        os.link(os.path.join(host, "file11"), os.path.join(folders[5], "again"))
        for folder in folders[1:]:
            os.chmod(folder, 0o750)
        return host

    def test_a_tree_goes_in_and_comes_out_byte_for_byte(self):
        self.addCleanup(os.umask, os.umask(0o022))
        host = self.tree()
        self.new("12M", 1600)
        program, jobs = self.recorder()
        began = time.monotonic()
        self.v7("cp", "-r", "tree", "volume.v7:/", program=program)
        went_in = jobs()
        volume = self.volume()
        self.assert_tree(volume, host, b"/tree")
        # parts 0, 5859, 9765 to 9767, and the last one, 16383; all but the first by the double index block, and by
        # its index blocks number (part - 138) / 128 = 44, 75 and 126
        sparse = volume.nodes[b"/tree/sparse"]
        self.assertEqual((sparse.inode.size, sparse.held), (8 << 20, 6 + 1 + 3))
        self.v7("get", "-r", "volume.v7", "/tree", "out", program=program)
        came_out = jobs()
        took = time.monotonic() - began
        self.assert_same(host, self.at("out"))
        self.assertLess(os.stat(self.at("out", "sparse")).st_blocks * 512, 1 << 20)
        for job in went_in + came_out:
            self.within_limits(job)
        # 3.5 MB of bytes, most of which take two of the job's text, and one job each for what stands there before
        self.assertLessEqual(len(went_in), 6)
        self.assertLessEqual(len(came_out), 9)
        print(f"tree of 500 files in and out: {took:.1f} s, {len(went_in)} and {len(came_out)} jobs", file=sys.stderr)
        # over what is there: the same tree again, then a smaller one
        self.v7("put", "-r", "volume.v7", "tree", "/")
        self.assert_tree(self.volume(), host, b"/tree")
        self.v7("rm", "-r", "volume.v7", "/tree")
        self.assertEqual(sorted(self.volume().nodes), [b""])
        self.assertEqual(len(Volume(self.bytes()).free), len(self.fresh_free("12M", 1600)))

    def fresh_free(self, blocks, inodes):
        self.v7("new", "fresh.v7", blocks, str(inodes))
        return Volume(self.bytes(self.at("fresh.v7"))).free

    def test_ten_megabytes_take_six_jobs_in_and_one_out(self):
        content = random.Random(10).randbytes(10 << 20)
        self.file("ten", content)
        self.new("12M", 16)
        program, jobs = self.recorder()
        began = time.monotonic()
        self.v7("put", "volume.v7", "ten", "/", program=program)
        # each job's text has at most 4 MiB, and two digits for each byte; one `stat` before, and one of the new name
        texts = jobs()
        self.assertEqual(len([job for job in texts if len(job) > 1000]), 6)
        self.assertLessEqual(len(texts), 9)
        self.assertEqual(self.volume().nodes[b"/ten"].content, content)
        self.v7("get", "volume.v7", "/ten", "back", program=program)
        self.assertLessEqual(len(jobs()), 2)
        print(f"10 MB in and out: {time.monotonic() - began:.1f} s", file=sys.stderr)
        self.assertEqual(self.bytes(self.at("back")), content)
        self.assertEqual(self.v7("cat", "volume.v7", "ten")[0], content)

    def test_p_keeps_all_bits_owners_and_times(self):
        os.makedirs(self.at("tree", "below"))
        self.file("tree/below/setuid", b"x")
        self.file("tree/old", b"y" * 600)
        if os.geteuid() == 0:
            os.chown(self.at("tree", "old"), 65_535, 12)
        os.chmod(self.at("tree", "below", "setuid"), 0o6751)
        os.chmod(self.at("tree", "below"), 0o1777)
        moments = {"tree/old": 1, "tree/below/setuid": 123_456_789, "tree/below": 500, "tree": 2**31 - 1}
        for name, moment in moments.items():
            os.utime(self.at(name), (moment, moment))
        self.new()
        self.v7("cp", "-rp", "tree", "volume.v7:/copy")
        self.assert_tree(self.volume(), self.at("tree"), b"/copy", keep=True)
        self.v7("cp", "-rp", "volume.v7:/copy", "back")
        self.assert_same(self.at("tree"), self.at("back"))
        for name in ("", "old", "below", "below/setuid"):
            one, other = os.stat(self.at("tree", name)), os.stat(self.at("back", name))
            self.assertEqual((one.st_uid, one.st_gid, one.st_mtime), (other.st_uid, other.st_gid, other.st_mtime))
        self.v7("cp", "-r", "volume.v7:/copy", "plain")
        self.assertEqual(stat.S_IMODE(os.stat(self.at("plain", "below", "setuid")).st_mode), 0o751 & ~self.umask())

    def umask(self):
        mask = os.umask(0)
        os.umask(mask)
        return mask

    def test_paths_longer_than_a_word_of_a_job(self):
        # 30 names of 14 bytes: 450 bytes, where a word has room for 255
        names = [f"directory.{number:04}" for number in range(30)]
        deep = os.path.join(self.at("tree"), *names)
        os.makedirs(deep)
        os.mkdir(os.path.join(self.at("tree"), *names[:16], "seventeen.name"))
        self.file(os.path.join(deep, "file"), b"far down" * 100)
        self.file(os.path.join(deep, "other"), b"z")
        os.link(os.path.join(deep, "file"), os.path.join(deep, "link"))
        # 17 names and their slashes are 255 bytes; then the last word of this path alone would say the empty path
        self.file(os.path.join(self.at("tree"), *names[:16], "seventeen.name", '""'), b"quotes")
        os.link(os.path.join(deep, "file"), self.at("tree", "near"))
        self.new()
        # of the name that is left of a path that is not there yet, once its first 255 bytes are gone through
        self.file("tree/directory.0017", b"in the root")
        self.v7("put", "volume.v7", "tree/directory.0017", "/")
        self.v7("put", "-r", "volume.v7", "tree/.", "/")
        self.assert_tree(self.volume(), self.at("tree"))
        self.v7("put", "-r", "volume.v7", "tree/.", "/")
        self.assert_tree(self.volume(), self.at("tree"))
        self.v7("rm", "-r", "volume.v7", "/near", "/directory.0017", f"/{names[0]}")
        self.v7("put", "-r", "volume.v7", "tree", "/t")
        self.assert_tree(self.volume(), self.at("tree"), b"/t")
        path = "/t/" + "/".join(names)
        self.assertEqual(self.v7("ls", "volume.v7", path)[0], b"file\nlink\nother\n")
        self.assertEqual(self.v7("cat", "volume.v7", path + "/other")[0], b"z")
        self.v7("get", "-r", "volume.v7", "/t", "back")
        self.assert_same(self.at("tree"), self.at("back"))
        self.v7("rm", "-r", "volume.v7", "/t")
        self.assertEqual(list(self.volume().nodes), [b""])

    def test_every_byte_that_a_job_can_say_in_a_name(self):
        os.mkdir(self.at("tree"))
        said = [byte for byte in range(33, 127) if byte != ord("/")]
        names = [bytes([byte]) for byte in said if byte != ord(".")]
        names += [b'""', b"'\"\\", b"-r", b"#x", b"{}[],=:" + b"a" * 7]
        for name in names:
            with open(os.path.join(os.fsencode(self.at("tree")), name), "wb") as file:
                file.write(name * 3)
        self.new()
        self.v7("put", "-r", "volume.v7", "tree/.", "/")
        self.assert_tree(self.volume(), self.at("tree"))
        self.assertEqual(self.v7("ls", "volume.v7")[0].split(b"\n")[:-1], sorted(names))
        self.v7("get", "-r", "volume.v7", "/", "back")
        self.assert_same(self.at("tree"), self.at("back"))

    def test_files_that_get_shorter_and_links_that_part(self):
        os.mkdir(self.at("tree"))
        self.file("tree/a", b"a" * 100_000)
        os.link(self.at("tree", "a"), self.at("tree", "b"))
        self.new()
        self.v7("put", "-r", "volume.v7", "tree", "/")
        os.unlink(self.at("tree", "b"))
        self.file("tree/b", b"b" * 700)
        self.file("tree/a", b"aa")
        self.v7("put", "-r", "volume.v7", "tree", "/")
        self.assert_tree(self.volume(), self.at("tree"), b"/tree")
        os.unlink(self.at("tree", "a"))
        os.link(self.at("tree", "b"), self.at("tree", "a"))
        self.v7("put", "-r", "volume.v7", "tree", "/")
        self.assert_tree(self.volume(), self.at("tree"), b"/tree")
        # one file alone goes into the inode that is there, with all its names
        self.file("one", b"one")
        self.v7("put", "volume.v7", "one", "/tree/a")
        self.assertEqual({self.volume().nodes[b"/tree/" + name].content for name in (b"a", b"b")}, {b"one"})


class Limits(Case):
    """What goes into one job."""

    def test_work_is_parted_into_jobs_within_small_limits_of_any_kind(self):
        draw = random.Random(3)
        tree = self.at("tree")
        os.makedirs(os.path.join(tree, "a" * 14, "b" * 14))
        for number in range(18):
            content = draw.randbytes(draw.randrange(9000)) if number % 2 else bytes(600) * 4 + b"x" * 5000 + bytes(700)
            self.file(os.path.join(tree, "a" * 14, *["b" * 14] * (number % 3 == 0), f"file{number}"), content)
        for limits in ((6_000, 100_000, 1 << 24), (1 << 22, 40, 1 << 24), (1 << 22, 100_000, 1_500)):
            v7 = self.module()
            (v7.JOB_BYTES, v7.JOB_CALLS, v7.JOB_COUNTS), v7.PIECE_BYTES = limits, 1024
            start, jobs = v7.start_program, []

            def noted(command, image, words=(), job=None):
                if job is not None:
                    jobs.append(job.read())
                    job.seek(0)
                return start(command, image, words, job)

            v7.start_program = noted
            self.new()
            v7.copy_in(self.image, tree, b"/", False, True, False)
            self.assert_tree(self.volume(), tree, b"/tree")
            v7.copy_out(self.image, b"/tree", self.at("back"), True, False)
            self.assert_same(tree, self.at("back"))
            shutil.rmtree(self.at("back"))
            self.assertGreater(len(jobs), 20)
            for job in jobs:
                self.within_limits(job, *limits)


class Refusals(Case):
    """What cannot be is named, and the image stays as it was."""

    def test_names_that_cannot_be_are_all_named_before_anything_is_written(self):
        os.makedirs(self.at("tree", "fifteen.letters"))
        os.mkdir(self.at("tree", "fourteen.chars"))
        self.file("tree/fifteen.letters/in", b"")
        self.file("tree/fifteen.letters/x y", b"")
        self.file("tree/a b", b"")
        self.file("tree/\u00e9", b"")
        os.symlink("a", self.at("tree", "link"))
        os.mkfifo(self.at("tree", "pipe"))
        self.new()
        with self.unchanged():
            said = self.v7("put", "-r", "volume.v7", "tree", "/", status=1)[1]
        for words in (
            "fifteen.letters: its name has 15 bytes; V7 has room for 14",
            "a b: its name has the byte 0x20, which no job can say",
            "x y: its name has the byte 0x20",
            "\u00e9: its name has the byte 0xc3",
            "link: a symbolic link",
            "pipe: no plain file",
        ):
            self.assertIn(words, said)
        self.assertEqual(len(said.splitlines()), 6)
        for command, *paths in (("mkdir", "/fifteen.letters"), ("ls", "/a b"), ("ln", "a", "\u00e9")):
            with self.unchanged():
                self.v7(command, "volume.v7", *paths, status=1)

    def test_a_file_too_large_for_v7_is_refused(self):
        with open(self.at("large"), "wb") as file:
            file.truncate(1_082_201_089)
        self.new()
        with self.unchanged():
            self.assertIn("1082201088", self.v7("put", "volume.v7", "large", "/", status=1)[1])

    def test_what_fits_exactly_goes_in_and_one_block_more_is_refused_before_it_is_begun(self):
        # 100 blocks, 16 inodes: data blocks 4 to 99, one of which the root has; 95 are free. A directory takes 1,
        # a file of 88 parts 88 and an index block, one of 5 parts 5.
        os.mkdir(self.at("tree"))
        self.file("tree/large", b"x" * 88 * BLOCK)
        self.file("tree/small", b"y" * 5 * BLOCK)
        self.new(100, 16)
        self.v7("put", "-r", "volume.v7", "tree", "/")
        self.assertEqual(len(self.volume().free), 0)
        # the same again takes what it frees
        self.v7("put", "-r", "volume.v7", "tree", "/")
        self.assert_tree(self.volume(), self.at("tree"), b"/tree")
        self.new(100, 16)
        program, jobs = self.recorder()
        self.file("tree/small", b"y" * (5 * BLOCK + 1))
        with self.unchanged():
            said = self.v7("put", "-r", "volume.v7", "tree", "/", status=1, program=program)[1]
        self.assertIn("does not fit: 96 blocks are needed, and 95 are free", said)
        self.assertFalse(any(b"creat" in job or b"mkdir" in job for job in jobs()))
        # holes count for nothing
        with open(self.at("tree", "small"), "wb") as file:
            file.truncate(1 << 20)
        # one part at the end, and two index blocks that lead to it
        self.v7("put", "-r", "volume.v7", "tree", "/")
        self.assertEqual(len(self.volume().free), 95 - 1 - 89 - 3)

    def test_the_blocks_that_a_file_holds(self):
        blocks_for = self.module().blocks_for
        for parts, index_blocks in (
            (range(0), 0),
            (range(10), 0),
            (range(11), 1),
            (range(138), 1),
            (range(139), 1 + 2),
            (range(138 + 128), 1 + 2),
            (range(138 + 129), 1 + 3),
            (range(16_522), 1 + 129),
            (range(16_523), 1 + 129 + 3),
            (range(16_522 + 16_385), 1 + 129 + 1 + 2 + 129),
            ({0, 2047}, 2),
            ({9, 10, 2_113_673}, 1 + 3),
        ):
            self.assertEqual(blocks_for(parts), len(parts) + index_blocks)

    def test_a_run_that_fails_in_the_middle_changes_nothing(self):
        os.mkdir(self.at("tree"))
        for number in range(20):
            self.file(f"tree/{number}", b"x" * 100)
        self.new(100, 16)
        with self.unchanged():
            # 14 inodes are free, numbers 3 to 16
            said = self.v7("put", "-r", "volume.v7", "tree", "/", status=1)[1]
        self.assertRegex(said, "v7: /tree/[0-9]+: no free block, or no free inode, is left .*ENOSPC")
        self.assertIn("volume.v7 is as it was", said)
        self.file("one", b"1")
        self.v7("put", "volume.v7", "one", "/")
        with self.unchanged():
            self.v7("rm", "volume.v7", "/one", "/two", status=1)

    def test_the_calls_errors_in_words_with_the_path(self):
        self.new()
        self.file("one", b"1")
        self.v7("mkdir", "volume.v7", "/d", "/d/e")
        self.v7("put", "volume.v7", "one", "/d/f")
        for words, said in (
            (("cat", "/none"), "/none: no such file or directory (ENOENT)"),
            (("cat", "/d"), "/d: is a directory (EISDIR)"),
            (("ls", "/d/f/g"), "/d/f/g: not a directory, or a part of the path is none (ENOTDIR)"),
            (("mkdir", "/d"), "/d: exists (EEXIST)"),
            (("mkdir", "/x/y"), "/x/y: no such file or directory (ENOENT)"),
            (("rmdir", "/d"), "/d: is not empty (EEXIST)"),
            (("rmdir", "/"), "/: in use, or the root (EBUSY)"),
            (("rm", "/d"), "/d: is a directory (EPERM)"),
            (("rm", "-r", "/none"), "/none: no such file or directory (ENOENT)"),
            (("ln", "/d", "/c"), "/c: is a directory (EPERM)"),
            (("ln", "/d/f", "/d/e"), "/d/e: exists (EEXIST)"),
            (("chmod", "644", "/none"), "/none: no such file or directory (ENOENT)"),
            (("get", "/d", "x"), "/d: is a directory; -r copies it"),
            (("get", "/none", "x"), "/none: no such file or directory (ENOENT)"),
        ):
            with self.unchanged():
                self.assertIn(f"v7: {said}", self.v7(words[0], "volume.v7", *words[1:], status=1)[1])
        for path in ("/x/y", "/x/"):
            with self.unchanged():
                said = self.v7("put", "volume.v7", "one", path, status=1)[1]
            self.assertIn("v7: /x: no such file or directory", said)
        os.mkdir(self.at("f"))
        with self.unchanged():
            said = self.v7("put", "-r", "volume.v7", "f", "/d", status=1)[1]
        self.assertIn("/d/f: a regular file stands there", said)

    def test_words_that_are_no_command(self):
        self.new()
        for words in (
            (),
            ("frob",),
            ("ls",),
            ("new", "x", "12Q", "8"),
            ("chmod", "volume.v7", "888", "/"),
            ("chmod", "volume.v7", "17777", "/"),
            ("chown", "volume.v7", "1", "/"),
            ("chown", "volume.v7", "1:65536", "/"),
            ("mkdir", "-m", "1777", "volume.v7", "/d"),
            ("cp", "one", "two"),
            ("cp", "volume.v7:/a", "volume.v7:/b"),
        ):
            with self.unchanged():
                self.v7(*words, status=2)

    def test_sizes_of_a_new_volume(self):
        for blocks, inodes, said in (
            ("100", "9", "9 inodes cannot be: a multiple of 8 from 8 to 65528, such as 16"),
            ("100", "0", "such as 8"),
            ("100", "65536", "such as 65528"),
            ("3", "8", "3 blocks cannot be: with 8 inodes from 4 to 262144"),
            ("129M", "8", "264192 blocks cannot be"),
        ):
            self.assertIn(said, self.v7("new", "x", blocks, inodes, status=1)[1])
            self.assertEqual(os.listdir(self.folder), [])
        for blocks, number in (("512K", 1024), ("1m", 2048), ("4", 4)):
            self.v7("new", "-f", "x", blocks, "8")
            self.assertEqual(os.stat(self.at("x")).st_size, 512 * number)
            volume = Volume(self.bytes(self.at("x")))
            self.assertEqual((volume.data_begin, volume.data_end, len(volume.free)), (3, number, number - 4))
        self.assertIn("exists", self.v7("new", "x", "4", "8", status=1)[1])

    def test_a_broken_image_is_refused_with_its_rule_in_words(self):
        self.new()
        self.file("one", b"1")
        self.v7("put", "volume.v7", "one", "/")
        # inode 3 is the third in block 2; its mode is at 0, its link count at 2
        inode = 1024 + 64 * 2
        for offset, byte, rule in ((inode + 2, 2, "14: an inode's link count"), (inode + 1, 0xF0, "5: an inode")):
            broken = bytearray(self.bytes())
            broken[offset] = byte
            with open(self.at("broken.v7"), "wb") as file:
                file.write(broken)
            for words in (("check",), ("ls",), ("mkdir", "/d")):
                said = self.v7(words[0], "broken.v7", *words[1:], status=3)[1]
                self.assertIn(f"v7: broken.v7: no volume: block 2 breaks rule {rule}", said)
            self.assertEqual(self.bytes(self.at("broken.v7")), broken)

    def test_files_of_the_host_that_are_not_there_or_in_the_way(self):
        self.new()
        self.file("one", b"1")
        self.v7("put", "volume.v7", "one", "/")
        self.v7("check", "none.v7", status=8)
        self.v7("mkdir", "none.v7", "/d", status=8)
        with self.unchanged():
            self.v7("put", "volume.v7", "none", "/", status=8)
            self.v7("get", "volume.v7", "/one", "/dev/null", status=7)
            self.v7("get", "volume.v7", "/one", "no/where", status=7)
            self.v7("get", "volume.v7", "/one", "where/", status=7)
        os.makedirs(self.at("there", "one"))
        self.v7("get", "volume.v7", "/one", "there", status=7)
        self.assertEqual(os.listdir(self.at("there", "one")), [])
        os.rmdir(self.at("there", "one"))
        os.mkdir(self.at("out"))
        self.file("out/there", b"")
        os.symlink("x", self.at("out", "one"))
        self.v7("get", "-r", "volume.v7", "/", "out", status=7)
        self.assertEqual(sorted(os.listdir(self.at("out"))), ["one", "there"])


class Listings(Case):
    """What is printed."""

    def setUp(self):
        super().setUp()
        self.new()
        self.file("h", b"hello\n", 0o640)
        # a job's calls have the moments 1, 2, 3 and so on
        self.v7("mkdir", "-m", "700", "volume.v7", "/d", "/d/e")
        self.v7("put", "volume.v7", "h", "/d/h")
        self.v7("ln", "volume.v7", "d/h", "link")
        self.v7("chown", "volume.v7", "3:65535", "/link")

    def test_ls(self):
        self.assertEqual(self.v7("ls", "volume.v7")[0], b"d\nlink\n")
        self.assertEqual(self.v7("ls", "volume.v7", "link")[0], b"/link\n")
        self.assertEqual(
            self.v7("ls", "-l", "volume.v7", "/")[0].decode().splitlines(),
            ["drwx------ 3 0     0 64 1 d", "-rw-r----- 2 3 65535  6 2 link"],
        )
        self.assertEqual(self.v7("ls", "-R", "volume.v7")[0], b"/:\nd\nlink\n\n/d:\ne\nh\n\n/d/e:\n")
        self.assertIn(b"6 1970-01-01 00:00:02 link", self.v7("ls", "-l", "--dates", "volume.v7")[0])

    def test_tree_and_stat_and_df(self):
        self.assertEqual(self.v7("tree", "volume.v7")[0], b"/\n    d/\n        e/\n        h\n    link\n")
        self.assertEqual(self.v7("tree", "volume.v7", "d")[0], b"/d/\n    e/\n    h\n")
        self.assertEqual(
            self.v7("stat", "volume.v7", "/link")[0].decode().splitlines(),
            [
                "/link: regular file, inode 5",
                "  mode 0100640 -rw-r-----  links 2  uid 3  gid 65535",
                "  size 6  atime 1  mtime 2  ctime 1",
            ],
        )
        # 2000 blocks with 100 of inodes: 1898 for files; the root, two directories, a file
        figures = self.v7("df", "volume.v7")[0].decode().splitlines()[1].split()
        self.assertEqual(figures, ["1898", "4", "1894", "1%", str(1894 * 512), "4"])

    def test_reading_leaves_the_image_as_it_was(self):
        before = os.stat(self.image)
        with self.unchanged():
            for command, *more in (("ls", "-lR"), ("tree",), ("stat", "/"), ("cat", "/link"), ("df",), ("check",)):
                self.v7(command, "volume.v7", *more)
            self.v7("get", "-r", "volume.v7", "/", "out")
        after = os.stat(self.image)
        self.assertEqual((before.st_ino, before.st_mtime_ns), (after.st_ino, after.st_mtime_ns))

    def test_an_image_that_cannot_be_written_is_read_from_a_copy(self):
        v7 = self.module()
        seen, start = [], v7.start_program

        def noted(command, image, words=(), job=None):
            seen.append(image)
            return start(command, image, words, job)

        v7.start_program = noted
        with mock.patch.object(v7.os, "access", lambda path, how: how != os.W_OK):
            v7.copy_out(self.image, b"/d", self.at("out"), True, False)
            with contextlib.redirect_stdout(io.StringIO()) as printed:
                v7.check(self.image)
        self.assertEqual(self.bytes(self.at("out", "h")), b"hello\n")
        self.assertIn("sound: 4 inodes", printed.getvalue())
        self.assertNotIn(self.image, seen)
        self.assertFalse(any(map(os.path.exists, seen)))

    def test_names_that_no_job_can_say_are_listed_and_left_out(self):
        image = self.bytes()
        # the name 'link' in the root, 14 bytes padded with 0
        slot = image.index(b"link".ljust(14, b"\0"))
        with open(self.image, "wb") as file:
            file.write(image[:slot] + b"l nk\xff" + image[slot + 5 :])
        out, said = self.v7("ls", "volume.v7")
        self.assertEqual(out, b"d\nl\\x20nk\\xff\n")
        self.assertIn("l\\x20nk\\xff: out of reach: no job can say the name", said)
        self.assertIn(b"\n         ? ? ? ?  ? ? l\\x20nk\\xff\n", self.v7("ls", "-l", "volume.v7")[0])
        self.assertIn(b"    l\\x20nk\\xff\n", self.v7("tree", "volume.v7")[0])
        said = self.v7("get", "-r", "volume.v7", "/", "out", status=1)[1]
        self.assertIn("/l\\x20nk\\xff: left out: no job can say its name", said)
        self.assertEqual(self.bytes(self.at("out", "d", "h")), b"hello\n")
        with self.unchanged():
            self.v7("rm", "-r", "volume.v7", "/", status=1)

    def test_special_files_are_shown_and_left_out(self):
        image = bytearray(self.bytes())
        self.v7("put", "volume.v7", "h", "/tty")
        image = bytearray(self.bytes())
        inode = Volume(image).nodes[b"/tty"].inode.number
        place = 1024 + 64 * (inode - 1)
        image[place : place + 2] = (0o020622).to_bytes(2, "little")
        with open(self.image, "wb") as file:
            file.write(image)
        self.assertIn(b"crw--w--w- 1 0     0  6 2 tty", self.v7("ls", "-l", "volume.v7")[0])
        self.assertIn("(ENXIO)", self.v7("cat", "volume.v7", "/tty", status=1)[1])
        said = self.v7("get", "-r", "volume.v7", "/", "out", status=1)[1]
        self.assertIn("/tty: left out: character special file", said)
        self.assertEqual(sorted(os.listdir(self.at("out"))), ["d", "link"])
        with self.unchanged():
            self.assertIn("special file stands there", self.v7("put", "volume.v7", "h", "/tty", status=1)[1])


class OneCallEach(Case):
    """mkdir, rm, rmdir, ln, chmod, chown."""

    def test_what_each_leaves(self):
        self.new()
        self.file("f", b"x", 0o604)
        self.v7("mkdir", "volume.v7", "/a", "b/")
        self.v7("mkdir", "-m", "31", "volume.v7", "/a/c")
        self.v7("put", "volume.v7", "f", "/a")
        self.v7("ln", "volume.v7", "/a/f", "/g")
        self.v7("chmod", "volume.v7", "4711", "/g")
        self.v7("chown", "volume.v7", "65535:0", "/g", "/b")
        nodes = self.volume().nodes
        self.assertEqual(sorted(nodes), [b"", b"/a", b"/a/c", b"/a/f", b"/b", b"/g"])
        self.assertEqual(nodes[b"/g"].inode, nodes[b"/a/f"].inode)
        self.assertEqual((nodes[b"/g"].inode.mode, nodes[b"/g"].inode.links), (0o104711, 2))
        self.assertEqual((nodes[b"/g"].inode.uid, nodes[b"/b"].inode.uid, nodes[b"/a"].inode.uid), (65_535, 65_535, 0))
        self.assertEqual((nodes[b"/a"].inode.mode, nodes[b"/a/c"].inode.mode), (0o040755, 0o040031))
        self.v7("rmdir", "volume.v7", "/a/c", "/b")
        self.v7("rm", "volume.v7", "/a/f")
        self.assertEqual(sorted(self.volume().nodes), [b"", b"/a", b"/g"])
        self.v7("rm", "-r", "volume.v7", "/a", "/g")
        self.assertEqual(sorted(self.volume().nodes), [b""])

    def test_the_image_keeps_its_mode_and_may_be_reached_by_a_link(self):
        self.new()
        os.chmod(self.image, 0o640)
        os.symlink("volume.v7", self.at("symbolic"))
        self.v7("mkdir", "symbolic", "/a")
        self.assertTrue(os.path.islink(self.at("symbolic")))
        self.assertEqual(stat.S_IMODE(os.stat(self.image).st_mode), 0o640)
        self.assertEqual(sorted(self.volume().nodes), [b"", b"/a"])
        os.link(self.image, self.at("second"))
        with self.unchanged():
            self.assertIn("more than one name", self.v7("mkdir", "volume.v7", "/b", status=1)[1])


class Outside(Case):
    """The program fails, is stopped, or is called twice."""

    def test_each_status_of_the_program(self):
        self.new()
        self.file("f", b"x")
        for status, last, wanted, said in (
            (3, "volume refused: block 9 rule 6", 3, "block 9 breaks rule 6: a file's address leads outside"),
            (4, "failed 3 faults 1 seal 2", 4, "the volume failed (failed 3 faults 1 seal 2)"),
            (5, "disk fault", 5, "the disk failed under the image"),
            (6, "no memory", 6, "want of memory"),
            (70, "", 70, "membrane could not be built"),
            (2, "job refused: call 1", 71, "membrane ended with status 2: job refused: call 1"),
            (0, "something else", 71, "something else"),
        ):
            program = self.program(f"#!/bin/sh\ncat >/dev/null\necho '{last}'\nexit {status}\n")
            with self.unchanged():
                for words in (("put", "f", "/"), ("ls", "/")):
                    self.assertIn(said, self.v7(words[0], "volume.v7", *words[1:], status=wanted, program=program)[1])
        with self.unchanged():
            self.v7("mkdir", "volume.v7", "/a", status=71, program=self.program("#!/bin/sh\nkill -9 $$\n"))
            self.v7("ls", "volume.v7", status=70, program=self.at("nothing"))
            self.v7("new", "x", "100", "8", status=5, program=self.program("#!/bin/sh\necho disk fault\nexit 5\n"))
            self.assertFalse(os.path.exists(self.at("x")))

    def test_a_transcript_that_is_cut_is_not_taken_for_done(self):
        self.new()
        call, last = "1 a mkdir /a 755 = 0", "end 2 faults 0 seal 2"
        for lines in ("", call, last, f"{call}\n{last}"):
            program = self.program(f"#!/bin/sh\ncat >/dev/null\necho '{lines}'\n")
            with self.unchanged():
                self.assertIn("transcript", self.v7("mkdir", "volume.v7", "/a", status=71, program=program)[1])

    def test_a_call_that_the_disk_fails(self):
        self.new()
        lines = "echo '1 a mkdir /a 755 = EIO device'\necho end 2 faults 0 seal 2\n"
        program = self.program(f"#!/bin/sh\ncat >/dev/null\n{lines}")
        with self.unchanged():
            said = self.v7("mkdir", "volume.v7", "/a", status=1, program=program)[1]
        self.assertIn("/a: the disk failed during the call (EIO)", said)

    def test_a_write_that_is_refused(self):
        self.new()
        self.file("f", bytes(range(256)) * 300)
        for reply, status, said in (("ENOSPC", 1, "ENOSPC"), ("11776", 0, ""), ("11775", 71, "/f: a write of 11776")):
            program = self.program(f"#!/bin/sh\n'{PROGRAM}' \"$@\" | sed '/^3 a hex/s/= .*/= {reply}/'\n")
            before = self.bytes()
            self.assertIn(said, self.v7("put", "volume.v7", "f", "/", status=status, program=program)[1])
            self.assertEqual(self.bytes() == before, status != 0)

    def test_a_get_that_fails_leaves_no_half_file(self):
        self.new()
        self.file("f", b"x" * 100_000)
        self.v7("put", "volume.v7", "f", "/")
        # the second of two reads is answered by an error
        edit = "s/^3 a read 3.*/3 a read 3 34976 = EIO device/"
        program = self.program(f"#!/bin/sh\n'{PROGRAM}' \"$@\" | sed '{edit}'\n")
        self.file("there", b"before")
        self.v7("get", "volume.v7", "/f", "there", status=1, program=program)
        self.v7("get", "volume.v7", "/f", "fresh", status=1, program=program)
        self.assertEqual(self.bytes(self.at("there")), b"before")
        self.assertEqual(sorted(os.listdir(self.folder)), ["f", "stand-in", "there", "volume.v7"])

    def test_a_command_that_is_stopped_leaves_the_image_as_it_was(self):
        self.new()
        began = self.at("began")
        program = self.program(f"#!/bin/sh\n'{PROGRAM}' \"$@\" >/dev/null\n: >'{began}'\nexec sleep 20\n")
        for number, status in ((signal.SIGTERM, 143), (signal.SIGINT, 130), (signal.SIGKILL, -9)):
            before = self.bytes()
            running = subprocess.Popen(
                [*PYTHON, TOOL, "mkdir", self.image, "/a"],
                env={**os.environ, "MEMBRANE": program},
                stderr=subprocess.DEVNULL,
                start_new_session=True,
            )
            while not os.path.exists(began):
                time.sleep(0.01)
            os.unlink(began)
            running.send_signal(number)
            self.assertEqual(running.wait(), status)
            with contextlib.suppress(ProcessLookupError):
                os.killpg(running.pid, signal.SIGKILL)
            self.assertEqual(self.bytes(), before)
            left = [name for name in os.listdir(self.folder) if name.startswith(".v7-")]
            self.assertEqual(len(left), 1 if number == signal.SIGKILL else 0)

    def test_changes_at_the_same_time_are_all_made(self):
        self.new()
        running = [
            subprocess.Popen(
                [*PYTHON, TOOL, "mkdir", self.image, f"/{number}"],
                env={**os.environ, "MEMBRANE": PROGRAM},
                stderr=subprocess.DEVNULL,
            )
            for number in range(8)
        ]
        self.assertEqual([one.wait() for one in running], [0] * 8)
        self.assertEqual(self.volume().nodes[b""].content, [b"%d" % number for number in range(8)])

    def test_the_launcher_is_found_beside_the_command_and_one_folder_up(self):
        self.new()
        for place in ("beside", "above/tools"):
            os.makedirs(self.at(place))
            shutil.copy(TOOL, self.at(place))
            launcher = self.at(os.path.dirname(place) or place, "membrane")
            with open(launcher, "w", encoding="utf-8") as file:
                file.write(f"#!/bin/sh\nexec '{PROGRAM}' \"$@\"\n")
            os.chmod(launcher, 0o755)
            environment = {name: value for name, value in os.environ.items() if name != "MEMBRANE"}
            done = subprocess.run([self.at(place, "v7"), "check", self.image], env=environment, capture_output=True)
            self.assertEqual((done.returncode, done.stderr), (0, b""))
            os.unlink(launcher)
            done = subprocess.run([self.at(place, "v7"), "ls", self.image], env=environment, capture_output=True)
            self.assertEqual(done.returncode, 70)


class PromptAndPages(Case):
    """The prompt, the help and the man page."""

    def test_commands_at_the_prompt(self):
        self.new()
        self.file("h", b"hello\n")
        out, said = self.v7(
            "sh",
            "volume.v7",
            stdin=b"mkdir d\ncd d\npwd\nput h .\nls\ncp h :/k\ncat ../k h\ncp :h back\nfrob\nrm none\n"
            b"chmod 600 h\nmkdir -m 700 ../x\ncd /none\ncd ..\nls -l d\n\n# nothing\nls 'a\nlcd /\nget -r d /none/x\n",
            status=7,
        )
        self.assertEqual(out, b"/d\nh\nhello\nhello\n-rw------- 1 0 0 6 2 h\n")
        self.assertIn("frob: no command", said)
        self.assertIn("/d/none: no such file or directory (ENOENT)", said)
        self.assertIn("/none: no such file or directory (ENOENT)", said)
        self.assertEqual(self.bytes(self.at("back")), b"hello\n")
        self.assertEqual(sorted(self.volume().nodes), [b"", b"/d", b"/d/h", b"/k", b"/x"])
        self.assertEqual(self.v7("sh", "volume.v7", stdin=b"ls /none\nexit\nmkdir /y\n", status=1)[0], b"")
        self.v7("sh", "h", status=3)

    def test_completion_of_commands_and_paths(self):
        self.new()
        self.file("host", b"")
        self.v7("mkdir", "volume.v7", "/usr", "/usr/dmr", "/unix")
        prompt = self.module().Prompt(self.image)
        for text, before, found in (
            ("ch", [], ["check ", "chmod ", "chown "]),
            ("u", ["ls"], ["unix/", "usr/"]),
            ("/usr/", ["ls", "-l"], ["/usr/dmr/"]),
            ("/us", ["put", "host"], ["/usr/"]),
            (":/us", ["cp", "host"], [":/usr/"]),
            (self.at("ho"), ["put"], [self.at("host")]),
            (self.at("ho"), ["get", "a"], [self.at("host")]),
        ):
            self.assertEqual(prompt.begin_with(text, before), found)

    def test_the_session_of_the_read_me_is_as_it_says(self):
        with open(os.path.join(TOP, "tools", "README.md"), encoding="utf-8") as file:
            session = re.findall(r"(?m)^    \$ (.*)\n((?:(?:    (?!\$).*)?\n(?!\|))*)", file.read())
        self.assertEqual(len(session), 8)
        path = os.path.dirname(TOOL) + os.pathsep + os.environ["PATH"]
        environment = {**os.environ, "PATH": path, "MEMBRANE": PROGRAM}
        for words, printed in session:
            done = subprocess.run(
                ["bash", "-euc", f"umask 22; {words}"], cwd=self.folder, env=environment, capture_output=True
            )
            self.assertEqual((done.returncode, done.stderr), (0, b""), words)
            self.assertEqual(done.stdout.decode().rstrip(), re.sub("(?m)^    ", "", printed).rstrip(), words)

    def test_help_and_man_page_have_every_command_and_status(self):
        said = self.v7("--help")[0].decode()
        with open(os.path.join(TOP, "docs", "v7.1"), encoding="utf-8") as file:
            page = file.read()
        commands = re.findall(r"^    ([a-z]+) ", said, re.M)
        self.assertEqual(len(commands), 17)
        for command in commands:
            self.assertRegex(page, rf'(?m)^\.(B|BI) "?(v7 )?{command}\b')
        statuses = re.findall(r"^  (\d[\d, ]*?)  ", said, re.M)
        self.assertEqual(statuses, ["0", "1", "2", "3", "4", "5", "6", "7", "8", "70", "71", "129, 130, 143"])
        listed = page[page.index(".SH EXIT STATUS") : page.index(".SH", page.index(".SH EXIT STATUS") + 1)]
        listed = re.findall(r'(?m)^\.BR? (\d+(?: ", " \d+)*)$', listed)
        self.assertEqual([numbers.replace(' ", " ', ", ") for numbers in listed], statuses)


if __name__ == "__main__":
    unittest.main()
