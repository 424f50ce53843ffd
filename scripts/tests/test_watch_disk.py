"""Tests the rules of scripts/tests/watch_disk.py, which compares a program's calls with docs/operate/DISK.md, on short
traces."""
import unittest

from watch_disk import faults_of

OPENING = """1 openat(AT_FDCWD, "j", O_RDWR|O_CREAT|O_NOCTTY|O_CLOEXEC, 0666) = 3
1 fcntl(3, F_DUPFD_CLOEXEC, 3) = 4
1 close(3) = 0
1 getcwd("/t", 1024) = 3
1 openat(AT_FDCWD, "/t", O_RDONLY|O_NOCTTY|O_CLOEXEC) = 3
1 statx(4, "", AT_EMPTY_PATH, STATX_ALL, {stx_mode=S_IFREG|0644, stx_size=0, ...}) = 0
1 flock(4, LOCK_EX|LOCK_NB) = 0
1 fsync(4) = 0
1 fadvise64(4, 0, 0, POSIX_FADV_DONTNEED) = 0
1 fsync(3) = 0
1 close(3) = 0
"""
WRITE = """1 pwrite64(4, "abc", 3, 64) = 3
"""
SYNC = """1 fdatasync(4) = 0
"""
TELL = """1 write(1, "said", 4) = 4
"""


class Rules(unittest.TestCase):
    """Short traces, and what is wrong in each."""

    def check(self, text: str, said: str | None) -> None:
        faults = faults_of("j", text)
        self.assertEqual(bool(faults), said is not None, faults)
        if said is not None:
            self.assertIn(said, faults[0])

    def test_the_table_is_allowed(self) -> None:
        for text in (
            OPENING + WRITE + SYNC + TELL,
            OPENING + '1 pread64(4, "ab", 8, 0) = 2\n1 pread64(4, "", 6, 2) = 0\n' + TELL,
            OPENING + '1 pwrite64(4, "abc", 3, 64) = 1\n1 pwrite64(4, "bc", 2, 65) = 2\n' + SYNC + TELL,
            OPENING + "1 fdatasync(4) = -1 EINTR (Interrupted)\n" + SYNC,
            OPENING + '1 pread64(4, 0x7f, 8, 0) = -1 EINTR (Interrupted)\n1 pread64(4, "", 8, 0) = 0\n',
            OPENING[: OPENING.index("1 fsync(4)")].replace("LOCK_NB) = 0", "LOCK_NB) = -1 EAGAIN (Taken)")
            + "1 close(3) = 0\n1 close(4) = 0\n",
            OPENING + WRITE + '1 pwrite64(4, "d", 1, 67) = -1 ENOSPC (No space)\n' + TELL,
            OPENING + WRITE + "1 fdatasync(4) = -1 EIO (Input/output error)\n" + TELL,
            OPENING + '1 pwrite64(4, "abc", 3, 64 <unfinished ...>\n2 write(1, "b", 1) = 1\n'
            '1 <... pwrite64 resumed>) = 3\n' + SYNC + TELL,
        ):
            with self.subTest(text):
                self.check(text, None)

    def test_a_wrong_opening_is_told(self) -> None:
        for old, new, said in (
            ("1 fcntl(3, F_DUPFD_CLOEXEC, 3) = 4\n", "", "first descriptor"),
            ("1 flock(4, LOCK_EX|LOCK_NB) = 0\n", "", "calls flock here"),
            ("1 fsync(4) = 0\n", "", "calls fsync here"),
            ("1 fadvise64(4, 0, 0, POSIX_FADV_DONTNEED) = 0\n", "", "before the file is settled"),
            ("1 fsync(3) = 0\n", "", "calls close here"),
            ("S_IFREG", "S_IFBLK", "calls statx here"),
            ("|O_CLOEXEC, 0666", ", 0666", "without O_CLOEXEC"),
        ):
            with self.subTest(old):
                self.assertIn(old, OPENING)
                self.check(OPENING.replace(old, new, 1) + WRITE + SYNC, said)
        low = OPENING.replace("(4,", "(1,").replace("(4)", "(1)").replace("= 4", "= 1")
        self.check(low + WRITE.replace("(4,", "(1,"), "below 3")

    def test_a_wrong_call_is_told(self) -> None:
        failed = "1 fdatasync(4) = -1 EIO (Input/output error)\n"
        for text, said in (
            (WRITE + TELL + SYNC, "before it synced"),
            ('1 pwrite64(4, "abc", 3, 64) = 1\n' + SYNC, "isn't asked for"),
            ('1 pread64(4, "ab", 8, 0) = 2\n' + TELL + WRITE, "isn't asked for"),
            ("1 fdatasync(4) = -1 EINTR (Interrupted)\n" + WRITE, "isn't made again"),
            (failed + SYNC, "after a sync that failed"),
            ("1 ftruncate(4, 0) = 0\n", "no call of the table"),
            ("", "no call on j"),
        ):
            with self.subTest(text):
                self.check(OPENING + text, said)
