"""What is written over, and what isn't; and bad input, of which one line tells."""

import os
import signal
import subprocess
import sys
import tempfile
import threading
import unittest
from pathlib import Path

from helpers import EXAMPLES, TOP, command

from actus.errors import TextError
from actus.text import read_text

TEXT = "journal 1\n1 ask *\nanswers 1\nanswer 1 1 {version}\ncontract A\n{day} IP EUR {amount}.000000000 1.000000000 " \
       "0.000000000 0.000000000\nend\nwork 1\n"
PLAIN = EXAMPLES / "p1.out"


def text(version="0", day="2021-01-01", amount="1") -> bytes:
    return TEXT.format(version=version, day=day, amount=amount).encode()


def listen_to_the_keyboard() -> None:
    """Lets Ctrl-C stop the process, also where the tests run in the background and don't hear of it."""
    signal.signal(signal.SIGINT, signal.SIG_DFL)


class Written(unittest.TestCase):
    def setUp(self):
        held = tempfile.TemporaryDirectory()
        self.addCleanup(held.cleanup)
        self.folder = Path(held.name)

    def test_a_link_stays_and_its_file_is_written(self):
        (self.folder / "real.csv").write_text("old")
        (self.folder / "link.csv").symlink_to("real.csv")
        self.assertEqual(command("table", PLAIN, "-o", self.folder / "link.csv").returncode, 0)
        self.assertTrue((self.folder / "link.csv").is_symlink())
        self.assertTrue((self.folder / "real.csv").read_text().startswith("caller,"))

    def test_a_pipe_stays_and_is_written(self):
        pipe, found = self.folder / "pipe.csv", []
        os.mkfifo(pipe)
        reader = threading.Thread(target=lambda: found.append(pipe.read_text()), daemon=True)
        reader.start()
        self.assertEqual(command("table", PLAIN, "-o", pipe).returncode, 0)
        reader.join(10)
        self.assertTrue(pipe.is_fifo())
        self.assertTrue(found[0].startswith("caller,"))


    def test_a_device_stays(self):
        self.assertEqual(command("table", PLAIN, "-o", "/dev/null").returncode, 0)
        self.assertTrue(Path("/dev/null").is_char_device())

    def test_a_database_behind_a_link_is_made_anew(self):
        (self.folder / "link.sqlite").symlink_to("real.sqlite")
        for _ in range(2):
            self.assertEqual(command("table", PLAIN, "-o", self.folder / "link.sqlite").returncode, 0)
        self.assertTrue((self.folder / "link.sqlite").is_symlink())
        self.assertEqual((self.folder / "real.sqlite").read_bytes()[:6], b"SQLite")
        done = command("table", PLAIN, "--form", "sqlite", "-o", "/dev/null")
        self.assertEqual((done.returncode, len(done.stderr.splitlines())), (7, 1))


class BadInput(unittest.TestCase):
    def refused(self, *words, data=None):
        done = command(*words, data=data)
        self.assertNotEqual(done.returncode, 0)
        self.assertEqual(len(done.stderr.splitlines()), 1, done.stderr)
        self.assertNotIn("Traceback", done.stderr)

    def test_long_numbers(self):
        for data in (text(version="9" * 20), text(version="9" * 5000), text(amount="9" * 5000)):
            for form in ("csv", "jsonl"):
                self.refused("table", "--form", form, data=data)
            self.refused("table", "--ladder", "year", data=data)
            with tempfile.TemporaryDirectory() as folder:
                self.refused("table", "-o", Path(folder) / "a.sqlite", data=data)

    def test_days_that_no_calendar_has(self):
        for day in ("2021-02-30", "0000-01-01"):
            self.refused("table", data=text(day=day))
            self.refused("picture", "-o", "/nowhere/a.svg", data=text(day=day))

    def test_two_answers_to_one_ask(self):
        answer = b"answer 1 1 0\ncontract A\nend\n"
        twice = b"journal 2\n1 ask *\n1 ask *\nanswers 2\n" + answer + answer + b"work 0\n"
        self.refused("table", data=twice)
        self.refused("table", "--ladder", "month", data=twice)
        with self.assertRaises(TextError):
            read_text(twice).whole()

    def test_files_that_are_none(self):
        for words in (["table", TOP], ["lint", TOP], ["table", "/nowhere"], ["standard", "compare", TOP],
                      ["table", "--program", "/nowhere", "--run", EXAMPLES / "p1.json"]):
            with self.subTest(words):
                self.refused(*words)

    def test_not_utf_8(self):
        self.refused("table", data=b"\xff\xfe\n")
        with tempfile.TemporaryDirectory() as folder:
            file = Path(folder) / "a.json"
            file.write_bytes(b'[{"contractID": "\xff"}]')
            for words in (["standard", "convert", file], ["split", file, "-o", Path(folder) / "parts"]):
                done = command(*words)
                self.assertNotIn("Traceback", done.stderr)

    def test_the_keyboard_stops_it(self):
        environment = dict(os.environ, PYTHONPATH=str(TOP / "python"))
        with tempfile.TemporaryDirectory() as folder:
            pipe = os.path.join(folder, "pipe")
            os.mkfifo(pipe)
            with subprocess.Popen([sys.executable, "-m", "actus", "table", pipe], stdout=subprocess.DEVNULL,
                                  stderr=subprocess.PIPE, env=environment, preexec_fn=listen_to_the_keyboard) as process:
                with open(pipe, "wb"):          # opened once the other end is: it waits for the first line then
                    process.send_signal(signal.SIGINT)
                    _, said = process.communicate(timeout=60)
        self.assertEqual((process.returncode, said), (130, b"actus: stopped by the keyboard\n"))

    def test_nobody_reads(self):
        environment = dict(os.environ, PYTHONPATH=str(TOP / "python"))
        for words in (["table", PLAIN], ["--help"]):
            reading, writing = os.pipe()
            os.close(reading)
            done = subprocess.run([sys.executable, "-m", "actus", *map(str, words)], stdout=writing,
                                  stderr=subprocess.PIPE, env=environment)
            os.close(writing)
            self.assertEqual(done.stderr, b"", words)
