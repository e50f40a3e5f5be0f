"""The module on every stored sample, every kind of buffer, in threads, and without its library."""

import array
import concurrent.futures
import dataclasses
import mmap
import os
import pathlib
import re
import subprocess
import sys
import tempfile
import unittest

import flangemint

ROOT = pathlib.Path(__file__).resolve().parent.parent
SAMPLES = ROOT / "samples"


def tracks_of(bundle):
    """The tracks of a bundle; none where its framing is the fault."""
    tracks, at = [], 0
    while at < len(bundle):
        end = at + 6 + int.from_bytes(bundle[at + 2 : at + 6], "big")
        if end > len(bundle):
            return []
        tracks.append(bundle[at + 6 : end])
        at = end
    return tracks


def samples():
    """The tracks of each bundle and the text that belongs to it."""
    for block in (SAMPLES / "expected.txt").read_text("ascii").split("== ")[1:]:
        name, text = block.split("\n", 1)
        tracks = tracks_of((SAMPLES / name).read_bytes())
        if tracks:
            yield name, tracks, text


def printed(tracks, verdict):
    """The verdict as the program intake prints it."""
    if not verdict.accepted:
        return f"refused {verdict.number} track {verdict.track} at {verdict.place}\n"
    first = f"accepted tracks {len(tracks)} fragments {verdict.count} timescale {verdict.timescale}\n"
    return first + "".join(f"{tick}\n" for tick in verdict.boundaries)


class Module(unittest.TestCase):
    def test_samples(self):
        tried = 0
        for name, tracks, text in samples():
            with self.subTest(name):
                self.assertEqual(printed(tracks, flangemint.check_set(tracks)), text)
                if len(tracks) == 1:
                    self.assertEqual(printed(tracks, flangemint.check_track(tracks[0])), text)
                tried += 1
        self.assertGreater(tried, 20)

    def test_pieces(self):
        for name, tracks, _ in samples():
            for track in tracks:
                whole = flangemint.check_track(track)
                ends = (whole.boundaries[0], whole.boundaries[-1]) if whole.accepted else (0, 0)
                wanted = flangemint.Answer(dataclasses.replace(whole, boundaries=()), *ends)
                for length in (1, 7, 100, 5000, len(track)):
                    pieces = flangemint.Pieces()
                    for at in range(0, len(track), length):
                        pieces.feed(memoryview(track)[at : at + length])
                        pieces.feed(b"")
                    self.assertEqual(pieces.finish(), wanted, f"{name} in pieces of {length}")
                    self.assertEqual(pieces.finish(), wanted, "finish changes nothing")
        for size, number in ((flangemint.MAX_GATHERED, 4), (flangemint.MAX_GATHERED + 1, 29)):
            pieces = flangemint.Pieces()
            pieces.feed(size.to_bytes(4, "big") + b"moov")
            self.assertEqual(pieces.finish(), flangemint.Answer(flangemint.Verdict(number, 0, 0, 0, 0), 0, 0))
        for data in ("text", 7, None):
            self.assertRaises(TypeError, pieces.feed, data)
        with mmap.mmap(-1, flangemint.MAX_BYTES) as longest:
            pieces = flangemint.Pieces()
            pieces.feed(longest)
            self.assertEqual(str(pieces.finish().verdict), "refused 3 track 0 at 0")
            pieces.feed(b"x")
            self.assertEqual(str(pieces.finish().verdict), "refused 1 track 0 at 0")

    def test_buffers(self):
        track = tracks_of((SAMPLES / "good-aac.bundle").read_bytes())[0]
        wanted, boxes = flangemint.check_track(track), flangemint.boxes(track)
        self.assertTrue(wanted.accepted)
        with tempfile.TemporaryFile() as file:
            file.write(track)
            file.flush()
            for access in (mmap.ACCESS_READ, mmap.ACCESS_WRITE, mmap.ACCESS_COPY):
                with mmap.mmap(file.fileno(), 0, access=access) as mapped:
                    self.assertEqual(flangemint.check_track(mapped), wanted)
                    self.assertEqual(flangemint.check_set([mapped]), wanted)
        padded = b"xyz" + track + b"xyz"
        part = memoryview(padded)[3:-3]
        for data in (bytearray(track), memoryview(track), memoryview(bytearray(track)), part, array.array("B", track)):
            self.assertEqual(flangemint.check_track(data), wanted)
            self.assertEqual(flangemint.check_set([data]), wanted)
            self.assertEqual(flangemint.boxes(data), boxes)
        grown = bytearray(track)
        flangemint.check_track(grown)
        grown.append(0)  # nothing keeps hold of the buffer
        self.assertEqual(flangemint.check_track(grown).number, 2)

    def test_no_bytes(self):
        for data in (b"", bytearray(), memoryview(b""), array.array("B")):
            self.assertEqual(str(flangemint.check_track(data)), "refused 6 track 0 at 0")
            self.assertEqual(flangemint.boxes(data), [])
            self.assertEqual(str(flangemint.check_set([data])), "refused 6 track 0 at 0")

    def test_no_buffer(self):
        for data in ("text", 7, None):
            for check in (flangemint.check_track, flangemint.boxes, lambda data: flangemint.check_set([data])):
                self.assertRaises(TypeError, check, data)
        self.assertRaises(BufferError, flangemint.check_track, memoryview(b"abcd")[::2])

    def test_limits(self):
        track = tracks_of((SAMPLES / "good-aac.bundle").read_bytes())[0]
        self.assertTrue(flangemint.check_set([track] * 16).accepted)
        self.assertEqual(str(flangemint.check_set([track] * 17))[:19], "refused 24 track 16")
        free = b"\0\0\0\x08free"
        self.assertEqual(len(flangemint.boxes(free * flangemint.MAX_BOXES)), flangemint.MAX_BOXES)
        with self.assertRaises(flangemint.Refused) as refused:
            flangemint.boxes(free * (flangemint.MAX_BOXES + 1))
        self.assertEqual(refused.exception.verdict, flangemint.Verdict(5, 0, 8 * flangemint.MAX_BOXES, 0, 0))
        full = track + free * (flangemint.MAX_BOXES - len(flangemint.boxes(track)))
        self.assertEqual(flangemint.check_track(full), flangemint.check_track(track))
        self.assertEqual(flangemint.check_track(full + free), flangemint.Verdict(5, 0, len(full), 0, 0))
        # the smallest boxes there are, and then a few bytes: tables are as long as the data asks for
        for count in (0, 1, 2, 1000):
            self.assertEqual(len(flangemint.boxes(free * count)), count)
            self.assertRaises(flangemint.Refused, flangemint.boxes, free * count + b"\0\0\0\x08")
        with mmap.mmap(-1, flangemint.MAX_BYTES + 1) as long:
            self.assertEqual(str(flangemint.check_track(long)), "refused 1 track 0 at 0")
            self.assertEqual(str(flangemint.check_set([long])), "refused 1 track 0 at 0")
        with mmap.mmap(-1, flangemint.MAX_BYTES // 2) as half:
            self.assertEqual(str(flangemint.check_set([half, half])), "refused 1 track 0 at 0")

    def test_frozen(self):
        with self.assertRaises(AttributeError):
            flangemint.check_track(b"").number = 0

    def test_sentences(self):
        for number in range(30):
            self.assertRegex(flangemint.Verdict(number, 0, 0, 0, 0).sentence, r"^\w.*\.$")
        self.assertEqual(flangemint.Verdict(30, 0, 0, 0, 0).sentence, "No rule has this number.")

    def test_threads(self):
        cases = [(tracks, text) for _, tracks, text in samples()] * 20
        with concurrent.futures.ThreadPoolExecutor(8) as pool:
            verdicts = pool.map(lambda case: flangemint.check_set(case[0]), cases)
            for (tracks, text), verdict in zip(cases, verdicts):
                self.assertEqual(printed(tracks, verdict), text)

    def test_header(self):
        defines = dict(re.findall(r"#define FLANGEMINT_(\w+) (.+)", (ROOT / "include/flangemint.h").read_text("ascii")))
        self.assertEqual(defines["VERSION"], f'"{flangemint.__version__}"')
        numbers = [defines[f"VERSION_{part}"] for part in ("MAJOR", "MINOR", "PATCH")]
        self.assertEqual(".".join(numbers), flangemint.__version__)
        for name in ("MAX_BYTES", "MAX_BOXES", "MAX_GATHERED"):
            self.assertEqual(int(defines[name].split()[0]), getattr(flangemint, name))
        for name in ("INDEX_ROOM", "TRACK_ROOM"):
            formula = defines[name].replace("FLANGEMINT_MAX_BOXES", defines["MAX_BOXES"].split()[0]).replace("/", "//")
            self.assertEqual(eval(formula), getattr(flangemint, name))

    def test_without_library(self):
        for path, said in (("/none/libflangemint.so", "make archive"), (__file__, "can't be used")):
            words = "import flangemint\ntry: flangemint.check_track(b'')\nexcept flangemint.NotBuilt as e: print(e)"
            env = {**os.environ, "FLANGEMINT_LIBRARY": path, "PYTHONPATH": str(ROOT / "python")}
            told = subprocess.run([sys.executable, "-c", words], env=env, capture_output=True, text=True, check=True)
            self.assertIn(said, told.stdout)
            self.assertIn(path, told.stdout)


if __name__ == "__main__":
    unittest.main()
