"""Recording.can against log2uds, the proved program: rows with what comes out, and some thousand damaged captures. Both get the same frames."""

import os
import pathlib
import platform
import random
import re
import struct
import subprocess
import sys
import unittest

HERE = pathlib.Path(__file__).resolve()
sys.path[:0] = [str(HERE.parents[1]), str(HERE.parent)]

import bintrochis as uds  # noqa: E402
from messages import SKIPPED, STAND_IN, Message  # noqa: E402

TOP = HERE.parents[3]
PROGRAM = TOP / "target/bin/log2uds"
READ = uds.read_data_by_identifier(0x2101)
CAPTURES = 3000
LINE = re.compile(r"\((\d+)\.(\d{6})\) +\S+ +([0-9A-F]{3}|[0-9A-F]{8})#(?:(#[0-9A-F])|(R\d?))?((?:[0-9A-F]{2})*)")


def message(line):
    """A line of candump as python-can reads it: an error frame's identifier is without its flag."""
    seconds, micros, said, fd, remote, data = LINE.fullmatch(line).groups()
    number = int(said, 16)
    return Message(
        timestamp=float(seconds + "." + micros),
        arbitration_id=number & 0x1FFFFFFF,
        is_extended_id=len(said) == 8,
        is_error_frame=number > 0x1FFFFFFF,
        is_remote_frame=remote is not None,
        is_fd=fd is not None,
        data=bytes.fromhex(data),
    )


def program(request, reply, text):
    """What log2uds says: the request's line, replies and lines of drops; or a refusal's number."""
    command = [str(PROGRAM), request, reply]
    if platform.machine() != "x86_64":
        command.insert(0, str(TOP / "scripts/run"))
    said = subprocess.run(command, input=text.encode(), stdout=subprocess.PIPE, check=True).stdout.decode().splitlines()
    if said[0].startswith("refused"):
        return int(said[0].split()[1])
    words = [line.split() for line in said]
    (start,) = (int(at) for word, at, *_ in words if word == "request")
    replies = [(int(time), data) for word, time, *rest in words if word == "reply" for data in rest]
    return start, replies, [int(at) for word, at, *_ in words if word == "dropped"]


def module(lines, start, ids):
    """The same of the module: the recording, and the lines of its drops; or a refusal's number."""
    heard = uds.Recording()
    listed = [message(line) for line in lines]
    request = listed[start - 1]
    try:
        heard.can(listed, request, ids)
    except uds.Refused as refused:
        return refused.number
    if all(each.timestamp < request.timestamp for each in listed[: start - 1]):  # then its time alone says which replies came behind it
        again = uds.Recording().can(listed, request.timestamp, ids)
        assert (again.events, again.replies, again.dropped) == (heard.events, heard.replies, heard.dropped)
    place = {id(each): line for line, each in enumerate(listed, 1)}
    return heard, [place[id(each)] for each in heard.dropped]


def replies(heard, source):
    """Of a recording: the times and bytes of the replies from an address."""
    found = []
    for time, kind, offset, length, of in struct.iter_unpack(">IHHHH", heard.events):
        assert kind == 0
        if of == source:
            found.append((time, heard.replies[offset : offset + length].hex()))
    return found


def text_of(frames):
    """Lines of candump, from (microseconds, what stands behind the interface)."""
    return ["(%d.%06d) can0 %s" % (1_700_000_000 + micros // 1_000_000, micros % 1_000_000, said) for micros, said in frames]


ASK = (0, "7E0#03222101")
GOOD = "7E8#0562210103E8"
POSITIVE = "positive %d 1 0 03e8"
SILENCE = "timeout 50 0 0 -"
LONG = "7E8#1014622101414243"  # 20 bytes: 6 here, then 7 and 7
LONGER = "positive %d 1 0 4142430102030405060708090a0b0c0d0e"
NEXT, LAST = "7E8#2101020304050607", "7E8#2208090A0B0C0D0E"
# Frames, the line of the request's last one, the verdict of a read of 2101, the lines of drops.
ROWS = {
    "a reply at 50.4 ms is in time": ([ASK, (50_400, GOOD)], 1, POSITIVE % 50, []),
    "50.999 ms too, 51 ms not": ([ASK, (50_999, GOOD)], 1, POSITIVE % 50, []),
    "at 51 ms": ([ASK, (51_000, GOOD)], 1, SILENCE, []),
    "the difference, then down": ([(999, "7E0#03222101"), (1998, GOOD)], 1, POSITIVE % 0, []),
    "a consecutive frame that is too short": ([ASK, (1, "7E8#100E622101414243"), (2, "7E8#2101"), (3, "7E8#2202030405060708")], 1, SILENCE, [4]),
    "it comes again, whole": ([ASK, (1000, LONG), (2000, "7E8#2101"), (3000, NEXT), (4000, LAST)], 1, LONGER % 4, []),
    "the last one is too short": ([ASK, (1000, LONG), (2000, NEXT), (3000, "7E8#2208090A")], 1, SILENCE, []),
    "a first frame with length 3": ([ASK, (1000, "7E8#1003622101414243"), (2000, "7E8#2144"), (3000, GOOD)], 1, POSITIVE % 3, []),
    "with length 7": ([ASK, (1000, "7E8#1007622101414243"), (2000, "7E8#2144")], 1, SILENCE, []),
    "with length 8": ([ASK, (1000, "7E8#1008622101414243"), (2000, "7E8#214445")], 1, "positive 2 1 0 4142434445", []),
    "with length 0, the escape": ([ASK, (1000, "7E8#1000000010006221"), (2000, "7E8#210141424344"), (3000, GOOD)], 1, POSITIVE % 3, []),
    "with seven bytes": ([ASK, (1000, "7E8#10086221014142"), (2000, "7E8#21434445")], 1, SILENCE, []),
    "a first frame of CAN FD": ([ASK, (1000, "7E8##010000000100062210141"), (2000, "7E8##02142"), (3000, GOOD)], 1, POSITIVE % 3, []),
    "a single frame of CAN FD": ([ASK, (1000, "7E8##00562210103E8"), (2000, GOOD)], 1, POSITIVE % 2, []),
    "a single frame of CAN FD with the escape": ([ASK, (1000, "7E8##00009622101414243444546")], 1, SILENCE, []),
    "an error frame of that number": ([ASK, (1000, "200007E8#037F2231AAAAAAAA"), (2000, GOOD)], 1, POSITIVE % 2, []),
    "a remote frame": ([ASK, (1000, LONG), (1500, "7E8#R8"), (2000, NEXT), (2500, "7E8#R"), (3000, LAST)], 1, LONGER % 3, []),
    "29 bits, 000007E8": ([ASK, (1000, "000007E8#037F2231"), (2000, GOOD)], 1, POSITIVE % 2, []),
    "29 bits inside a message": ([ASK, (1000, LONG), (1500, "000007E8#2101020304050607"), (2000, NEXT), (3000, LAST)], 1, LONGER % 3, []),
    "a reply from before the request": ([(0, "7E8#037F2231"), (1000, "7E0#03222101"), (3000, GOOD)], 2, POSITIVE % 2, []),
    "from before, at its very time": ([(1000, "7E8#037F2231"), (1000, "7E0#03222101"), (1000, GOOD)], 2, POSITIVE % 0, []),
    "one that began before": ([(0, LONG), (500, NEXT), (1000, "7E0#03222101"), (3000, LAST)], 3, LONGER % 2, []),
    "dropped before the request": ([(0, LONG), (500, LAST), (1000, "7E0#03222101"), (3000, GOOD)], 3, POSITIVE % 2, [2]),
    "a request of two frames": ([(0, "7E0#1008222101020304"), (7000, "7E0#210506"), (57_900, GOOD)], 2, POSITIVE % 50, []),
    "a single frame of length 0": ([ASK, (1000, "7E8#00"), (2000, GOOD)], 1, POSITIVE % 2, []),
    "of length 8": ([ASK, (1000, "7E8#0862210103E80000"), (2000, GOOD)], 1, POSITIVE % 2, []),
    "of more than is there": ([ASK, (1000, "7E8#0662210103E8"), (2000, GOOD)], 1, POSITIVE % 2, []),
    "these inside a message": ([ASK, (1, LONG), (2, "7E8#00"), (3, "7E8#06622101"), (4, NEXT), (5, "7E8#1003"), (6, LAST)], 1, LONGER % 0, []),
    "no data": ([ASK, (1000, "7E8#"), (2000, GOOD)], 1, POSITIVE % 2, []),
    "types 4 to F and flow control": ([ASK, (1, LONG), (2, "7E8#45"), (3, "7E8#F0"), (4, NEXT), (5, "7E8#300000"), (6, LAST)], 1, LONGER % 0, []),
    "the number before the length": ([ASK, (1000, "7E8#1011622101414243"), (2000, "7E8#2208090A0B")], 1, SILENCE, [3]),
    "a consecutive frame alone": ([ASK, (1000, NEXT), (2000, GOOD)], 1, POSITIVE % 2, []),
    "one behind the end": ([ASK, (1000, LONG), (2000, NEXT), (3000, LAST), (4000, LAST)], 1, LONGER % 3, []),
    "a single frame inside a message": ([ASK, (1000, LONG), (2000, GOOD), (3000, NEXT)], 1, POSITIVE % 2, [3]),
    "a first frame inside a message": ([ASK, (1, LONG), (2, LONG), (3, NEXT), (4, LAST)], 1, LONGER % 0, [3]),
    "a frame sent twice": ([ASK, (1, LONG), (2, NEXT), (3, NEXT), (4, LAST)], 1, SILENCE, [4]),
    "a lost frame": ([ASK, (1, LONG), (2, LAST), (3, NEXT)], 1, SILENCE, [3]),
    "a single frame padded to four bytes": ([ASK, (1000, "7E8#037F2231AA")], 1, "negative 1 1 0 31", []),
    "another identifier": ([ASK, (1000, "7E9#037F2231"), (2000, GOOD)], 1, POSITIVE % 2, []),
    "a time goes back": ([ASK, (2000, GOOD), (1999, "123#00")], 1, 16, None),
    "of an error frame": ([ASK, (2000, GOOD), (1999, "200007E8#00")], 1, 16, None),
    "512 replies": ([ASK] + [(k, "7E8#017F") for k in range(512)], 1, "deviation 0 1 0 087f", []),
    "513 replies": ([ASK] + [(k, "7E8#017F") for k in range(513)], 1, 17, None),
    "the latest time": ([ASK, (2000, GOOD), (4_294_967_295_999, GOOD)], 1, POSITIVE % 2, []),
    "a later one": ([ASK, (2000, GOOD), (4_294_967_296_000, GOOD)], 1, 17, None),
}


def cut(data, pad=b""):
    """A message as frames."""
    if len(data) < 8:
        return [bytes([len(data)]) + data + pad[: 7 - len(data)]]
    frames = [bytes([0x10 | len(data) >> 8, len(data) & 255]) + data[:6]]
    for k, at in enumerate(range(6, len(data), 7), 1):
        part = data[at : at + 7]
        frames.append(bytes([0x20 | k % 16]) + part + pad[: 7 - len(part)])
    return frames


for name, sizes, wanted in ("65,535 bytes", [4095] * 16 + [15], "positive"), ("65,536 bytes", [4095] * 16 + [16], 17):
    frames = [ASK]
    for size in sizes:
        frames += [(len(frames), "7E8#" + frame.hex().upper()) for frame in cut(b"\x62\x21\x01".ljust(size, b"A"))]
    ROWS[name] = frames, 1, wanted, []


def damaged(chance):
    """A capture of exchanges with what goes wrong on a bus: its lines, the two identifiers, and another one that speaks."""
    request, reply, other = chance.choice(
        [("7E0", "7E8", "7E9"), ("18DA10F1", "18DAF110", "18DAF111"), ("7E0", "7E8", "000007E8"), ("000007E0", "000007E8", "7E8")]
    )
    streams = {request: [], reply: [], other: []}
    for said, least, most in (request, 1, 3), (reply, 1, 7), (other, 0, 2):
        for _ in range(chance.randint(least, most)):
            size = chance.choice([chance.randint(1, 7), chance.randint(8, 30), chance.randint(8, 30), chance.randint(31, 150)])
            streams[said] += [(said, frame) for frame in cut(chance.randbytes(size), chance.choice([b"", b"\xaa" * 7, b"\0\0"]))]
    order = [said for said, frames in streams.items() for _ in frames]
    if chance.random() < 0.7:  # mostly one speaks at a time
        order = [request] * chance.randint(1, len(streams[request])) + order
    else:
        chance.shuffle(order)
    frames = [streams[said].pop(0) for said in order if streams[said]]
    lines, micros = [], chance.randint(0, 5000)
    rate = chance.choice([0, 0.02, 0.1, 0.3])
    for said, frame in frames:
        for _ in range(2 if chance.random() < rate / 4 else 1):  # sent twice
            if chance.random() < rate / 2:  # lost
                continue
            if frame and chance.random() < rate:
                flipped = bytes([frame[0] ^ 1 << chance.randint(0, 7)]) + frame[1:]
                frame = chance.choice([frame[: chance.randint(0, len(frame))], flipped, chance.randbytes(chance.randint(0, 8))])
            data, number = frame.hex().upper(), int(said, 16)
            text = "%s#%s" % (said, data)
            if chance.random() < rate:  # something else in its place
                others = "%s#R" % said, "%s#R8" % said, "%s##1%s" % (said, data), "%s#300000" % said
                text = chance.choice([*others, "%08X#%s" % (0x20000000 | number, data), "%03X#%s" % (number & 0x7FF, data)])
            micros += chance.choice([0, 1, 249, 999, 1000, 1001, 20_000])
            if chance.random() < 0.0005:
                micros -= min(micros, 2)
            lines.append((micros, text))
    return text_of(lines), request, reply, other


class Captures(unittest.TestCase):
    def test_rows(self):
        for name, (frames, start, verdict, drops) in ROWS.items():
            with self.subTest(name):
                lines = text_of(frames)
                said = module(lines, start, {0x7E8})
                if isinstance(verdict, int):
                    self.assertEqual(said, verdict)
                else:
                    heard, dropped = said
                    self.assertEqual(dropped, drops)
                    answer = READ.hear(heard)
                    self.assertIn(verdict, (answer.line, answer.outcome.word))
                if PROGRAM.is_file():
                    self.same("7E0", "7E8", lines, {0x7E8})

    def test_29_bits(self):
        lines = text_of([(0, "18DA10F1#03222101"), (50_400, "18DAF110#0562210103E8")])
        for ids in 0x18DAF110, {0x18DAF110}, "18DAF110", {0x18DAF110: 0}:
            heard, _ = module(lines, 1, ids)
            self.assertEqual(READ.hear(heard).line, POSITIVE % 50)
        if PROGRAM.is_file():
            self.same("18DA10F1", "18DAF110", lines, {0x18DAF110})

    def same(self, request, reply, lines, ids, source=0):
        """Compares the two, and counts what was compared: a capture, its replies, its drops, a refusal."""
        wanted = program(request, reply, "".join(line + "\n" for line in lines))
        if wanted == 15:
            return 0, 0, 0, 0
        got = module(lines, 1 if isinstance(wanted, int) else wanted[0], ids)
        if isinstance(wanted, int):
            if wanted == 17:  # the request is the first line of such a row
                self.assertEqual(lines[0], text_of([ASK])[0])
            self.assertEqual(got, wanted)
            return 1, 0, 0, 1
        heard, dropped = got
        _, wanted_replies, wanted_drops = wanted
        self.assertEqual(replies(heard, source), wanted_replies, lines)
        asked = {_key(said) for said in ([ids] if isinstance(ids, str) else ids)}
        of_reply = [at for at in wanted_drops if _key(lines[at - 1].split()[2].partition("#")[0]) == _key(reply)]
        of_module = [at for at in dropped if _key(lines[at - 1].split()[2].partition("#")[0]) == _key(reply)]
        self.assertEqual(of_module, of_reply, lines)
        if len(asked) == 1:
            self.assertEqual(of_module, dropped)
        return 1, len(wanted_replies), len(of_reply), 0

    def test_damaged(self):
        if not PROGRAM.is_file():
            self.skipTest("there is no %s" % PROGRAM)
        chance = random.Random(37)
        total = [0, 0, 0, 0]
        for k in range(CAPTURES):
            lines, request, reply, other = damaged(chance)
            counts = [self.same(request, reply, lines, reply)]
            if k % 3 == 0:
                counts.append(self.same(request, reply, lines, {reply: 5, other: 6}, 5))
                counts.append(self.same(request, other, lines, {reply: 5, other: 6}, 6))
            if k % 3 == 1 and len(reply) == len(other) == 3:
                counts.append(self.same(request, other, lines, [reply, other], int(other, 16)))
            total = [sum(column) for column in zip(total, *counts)]
        print("\ncompared with log2uds: %d captures, %d replies, %d drops, %d refusals" % tuple(total))
        captures, found, dropped, refused = total
        self.assertGreater(captures, CAPTURES)
        self.assertTrue(found > 5000 and dropped > 1000 and refused > 10, total)


def _key(said):
    return uds._identifier(said)


if __name__ == "__main__":
    if STAND_IN:
        print(SKIPPED)
    if not PROGRAM.is_file():
        print("skipped: captures against log2uds, since there is no %s; './log2uds --help' builds it." % os.path.relpath(PROGRAM, TOP))
    unittest.main()
