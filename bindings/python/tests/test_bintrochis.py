"""The module against the gate's lists of logs, and what it adds: numbers tested, enums, recordings, CAN frames put together."""

import array
import dataclasses
import doctest
import pathlib
import struct
import subprocess
import sys
import unittest
from types import SimpleNamespace
from unittest import mock

HERE = pathlib.Path(__file__).resolve()
sys.path[:0] = [str(HERE.parents[1]), str(HERE.parent)]

import bintrochis as uds  # noqa: E402
from bintrochis import Answer, Config, Memory, Outcome, Recording, Session  # noqa: E402
from bintrochis.door import door, numbers  # noqa: E402
from messages import SKIPPED, STAND_IN, Message  # noqa: E402

DATA = HERE.parents[3] / "crates/replay/data"
READ = uds.read_data_by_identifier(0x2101)
COUNT = "62 21 01 03 e8"
GOOD = Memory(0x2000, 4, 2, 1)

def cases(name):
    """The cases of a list, each with its line."""
    rest = (DATA / (name + ".bin")).read_bytes()
    for expected in (DATA / (name + ".expected")).read_text().splitlines():
        (length,) = struct.unpack_from(">I", rest)
        yield rest[4 : 4 + length], expected
        rest = rest[4 + length :]
    assert rest == b""


class Lists(unittest.TestCase):
    def test_logs(self):
        for name, least in ("logs", 6000), ("listings", 160), ("addressed", 223):
            count = 0
            for log, expected in cases(name):
                count += 1
                self.assertEqual(uds.line(log), expected, (name, count))
                if expected == "badlog 0 0 0 -":
                    self.assertRaises(uds.BadLog, uds.log, log)
                else:
                    self.assertEqual(uds.log(log).line, expected, (name, count))
            self.assertGreaterEqual(count, least)

    def test_names(self):
        for case, expected in cases("names"):
            number = uds.names.NAMES.index(uds.code_name(case[0]))
            self.assertEqual("name %d %d 0 -" % (case[0], number), expected)
        self.assertEqual(uds.code_name(0x31), "RequestOutOfRange")

    def test_blocks(self):
        for case, expected in cases("blocks"):
            length, block_length, k = struct.unpack(">QQQ", case)
            data, told = bytes(i % 251 for i in range(min(length, 9000))), numbers(3)
            refusal = door("bintrochis_door_block", data, block_length, k, told)
            counter, at, size = told
            self.assertEqual("block %d %d %d %s" % (refusal, counter, size, data[at : at + size].hex() or "-"), expected)


class Calls(unittest.TestCase):
    def test_requests(self):
        wanted = [
            (uds.request(0x3F), "3f"),
            (uds.request(0x3F, 1, "aa"), "3f 01 aa"),
            (uds.diagnostic_session_control(3), "10 03"),
            (uds.ecu_reset(1), "11 01"),
            (uds.security_access(1), "27 01"),
            (uds.security_access(2, b"\1\2"), "27 02 01 02"),
            (uds.tester_present(), "3e 00"),
            (uds.read_memory_by_address(GOOD), "23 12 20 00 04"),
            (uds.read_memory_by_address(("2000", "04")), "23 12 20 00 04"),
            (uds.write_memory_by_address(GOOD, "01 02 03 04"), "3d 12 20 00 04 01 02 03 04"),
            (READ, "22 21 01"),
            (uds.write_data_by_identifier(0x2102, "0f a0"), "2e 21 02 0f a0"),
            (uds.read_dtc_information_number_of_dtc_by_status_mask(8), "19 01 08"),
            (uds.routine_control(1, 0x0203, "04"), "31 01 02 03 04"),
            (uds.request_download(GOOD), "34 00 12 20 00 04"),
            (uds.request_upload(GOOD, 1, 2), "35 12 12 20 00 04"),
            (uds.transfer_data(1, "aa bb"), "36 01 aa bb"),
            (uds.request_transfer_exit(), "37"),
            (uds.read_dtc_information_dtc_by_status_mask(8), "19 02 08"),
        ]
        for call, sent in wanted:
            self.assertEqual(call.request().hex(" "), sent)
        self.assertEqual(uds.tester_present().request(Config(suppressed=True)).hex(" "), "3e 80")
        wide = uds.read_memory_by_address(Memory(1, 1, 9, 1))
        self.assertEqual(wide.request(Config(wide=True)).hex(" "), "23 19" + " 00" * 8 + " 01 01")

    def test_refusals(self):
        wanted = {
            1: uds.security_access(2),
            2: uds.read_memory_by_address((bytes(16), b"\4")),
            3: uds.read_memory_by_address((b"\4", b"")),
            4: uds.request_download(GOOD, compression=16),
            5: uds.request_upload(GOOD, encryption=16),
            6: uds.read_memory_by_address(Memory(1, 1, 9, 1)),
            7: uds.read_memory_by_address(Memory(256, 1, 1, 1)),
            8: uds.transfer_data(1, bytes(4094)),
        }
        for number, call in wanted.items():
            with self.assertRaises(uds.Refused) as refused:
                call.request()
            self.assertEqual(refused.exception.number, number)
            self.assertIn("refusal %d" % number, str(refused.exception))
        long = uds.read_memory_by_address((bytes(300), b"\4")).hear(Recording())
        self.assertEqual((long.outcome, long.detail, long.request), (Outcome.REFUSED, 2, b""))
        falling = READ.hear(Recording().idle(2).idle(1))
        self.assertEqual((falling.outcome, falling.detail), (Outcome.REFUSED, 10))

    def test_what_is_no_data(self):
        """A number would be that many zeros: the load limit of a crane overwritten."""
        takers = [
            lambda data: uds.write_data_by_identifier(0x2102, data),
            lambda data: uds.write_memory_by_address(GOOD, data),
            lambda data: Recording().reply(0, data),
            lambda data: READ.begin().reply(0, data),
            lambda data: uds.respond(bytearray(), data),
            lambda data: uds.blocks(data, 10),
            uds.line,
            uds.log,
        ]
        perhaps = [  # None is no data here
            lambda data: uds.Call(8, 0x2102, data=data).request(),
            lambda data: uds.request(0x3F, data=data),
            lambda data: uds.security_access(2, data),
            lambda data: uds.routine_control(1, 0x0203, data),
            lambda data: uds.transfer_data(1, data),
            uds.request_transfer_exit,
        ]
        for said in 4, True, False, 0, -1, 1 << 40, 1.5, object(), {1: 2}, {1, 2}, None:
            for take in takers + perhaps * (said is not None):
                self.assertRaisesRegex(TypeError, "is no bytes", take, said)
        for said in ["0f"], [1.0], [None], [b"a"]:
            self.assertRaisesRegex(TypeError, "is no byte", uds.write_data_by_identifier, 0x2102, said)
        for said in [256], [-1], [1, 1 << 80], memoryview(array.array("H", [0x1234])):
            self.assertRaisesRegex(ValueError, "is no byte", uds.write_data_by_identifier, 0x2102, said)
        self.assertRaises(ValueError, uds.write_data_by_identifier, 0x2102, "4")
        good = b"\x0f\xa0"
        two_bytes_each = array.array("H", [15, 160])
        for said in good, bytearray(good), memoryview(good), "0fa0", "0F A0", [15, 160], (15, 160), iter(good), two_bytes_each:
            self.assertEqual(uds.write_data_by_identifier(0x2102, said).request().hex(), "2e21020fa0")
        self.assertEqual(uds.write_data_by_identifier(0x2102, b"").request().hex(), "2e2102")

    def test_memory_as_numbers_needs_widths(self):
        numbers = (0x20004000, 4), (1 << 40, 4), (b"\x20", 4), [True, b"\4"], 0x2000, None
        for memory in *numbers, "2000", b"\x20\0", (b"\x20",), (b"\1", b"\2", b"\3"):
            for call in (
                lambda: uds.read_memory_by_address(memory),
                lambda: uds.write_memory_by_address(memory, "00"),
                lambda: uds.request_download(memory),
                lambda: uds.request_upload(memory),
                lambda: uds.Call(5, memory=memory).request(),
            ):
                self.assertRaisesRegex(TypeError, r"Memory\(address, size, address_width, size_width\)", call)
        self.assertEqual(uds.read_memory_by_address(Memory(0x20004000, 4, 4, 1)).request().hex(), "23142000400004")

    def test_methods(self):
        for ask in uds.request_download, uds.request_upload:
            for name, method in ("encryption", 256), ("encryption", 65536), ("encryption", -1), ("compression", 256), ("compression", -1):
                with self.assertRaisesRegex(ValueError, "%s: .* is out of range" % name):
                    ask(GOOD, **{name: method})
            for methods, number in ({"compression": 16}, 4), ({"encryption": 16}, 5), ({"compression": 255}, 4), ({"encryption": 255}, 5):
                with self.assertRaises(uds.Refused) as refused:
                    ask(GOOD, **methods).request()
                self.assertEqual(refused.exception.number, number)

    def test_misuse(self):
        self.assertRaises(uds.Misuse, uds.Call(16).request)
        self.assertRaises(uds.Misuse, uds.Call(7, 0x2101, data=b"").request)
        self.assertRaises(uds.Misuse, uds.Call(7, 0x2101, memory=GOOD).request)
        self.assertRaises(uds.Misuse, uds.transfer_data(256).request)
        for limit in 256, 65534, 65535, -1:  # 65535 is how the library is told that there is none
            self.assertRaisesRegex(ValueError, "notice_limit: .* out of range", READ.request, Config(notice_limit=limit))
            self.assertRaisesRegex(ValueError, "notice_limit: .* out of range", READ.begin, Config(notice_limit=limit))
        for call, config in (
            (uds.read_data_by_identifier(65536), Config()),
            (uds.ecu_reset(256), Config()),
            (uds.read_data_by_identifier(-1), Config()),
            (READ, Config(overall=1 << 32)),
            (READ, Config(listens=65536)),
            (READ, Config(notice_limit=65536)),
            (uds.read_memory_by_address(Memory(1 << 64, 1, 8, 1)), Config()),
        ):
            self.assertRaisesRegex(ValueError, "out of range", call.request, config)
        for time, said, source in (-1, "", 0), (1 << 32, "", 0), (0, bytes(65536), 0), (0, "", 65536):
            self.assertRaises(ValueError, Recording().reply, time, said, source)


class Answers(unittest.TestCase):
    def test_every_field(self):
        heard = Recording().reply(20, "7f 22 78").idle(30).reply(900, COUNT)
        self.assertEqual(
            READ.hear(heard),
            Answer(
                outcome=Outcome.POSITIVE,
                time=900,
                events=3,
                notices=1,
                data=b"\3\xe8",
                reply=bytes.fromhex(COUNT),
                detail=0,
                least=0,
                most=0,
                block_length=0,
                request=b"\x22\x21\1",
                session=Session(50, 5000),
            ),
        )

    def test_outcomes(self):
        wanted = [
            (Recording(), "timeout 50 0 0 -", "no answer in time: waiting ended at 50 ms"),
            (Recording().end(5), "disconnected 5 1 0 -", "the connection ended before an answer came"),
            (Recording().error(5, 7), "transport 5 1 0 0007", "the transport failed with its error 7"),
            (Recording().reply(5, "7f 22 31"), "negative 5 1 0 31", "the controller refused: RequestOutOfRange (code 31)"),
            (Recording().reply(5, "62 21 02 00"), "deviation 5 1 0 0562210200", "the reply breaks rule 5: it names another identifier"),
            (Recording().reply(5, COUNT), "positive 5 1 0 03e8", "the controller answered"),
        ]
        for heard, line, text in wanted:
            answer = READ.hear(heard)
            self.assertEqual((answer.line, answer.text), (line, text))
        short = READ.hear(Recording().reply(5, "7f 22"))
        self.assertEqual((short.detail, short.least, short.most), (8, 3, 3))
        none = READ.hear(Recording().reply(5, "62 21 01"))
        self.assertEqual((none.detail, none.least, none.most), (8, 4, None))
        limited = READ.hear(Recording().reply(5, "7f 22 78"), Config(notice_limit=0))
        self.assertEqual(limited.line, "pendinglimit 5 1 1 -")
        self.assertIn("1 times", limited.text)
        overall = READ.hear(Recording().reply(20, "7f 22 78"), Config(overall=100))
        self.assertEqual(overall.line, "timeout 100 1 1 -")
        lenient = READ.hear(Recording().reply(5, "62"), Config(strict=False))
        self.assertEqual(lenient.line, "length 5 1 0 -")
        quiet = uds.tester_present().hear(Recording(), Config(suppressed=True))
        self.assertEqual((quiet.line, quiet.text), ("suppressed 50 0 0 -", "silence, as asked for"))

    def test_words_of_a_length(self):
        """Rule 8 by its bounds, and call 15's first check, whose bounds a wrong length may keep."""
        faults = uds.read_dtc_information_dtc_by_status_mask(9)
        for call, said, bounds, words in (
            (READ, "", (1, None), "its length is 0, below 1"),
            (READ, "7f 22", (3, 3), "its length is 2, below 3"),
            (READ, "7f 22 31 00", (3, 3), "its length is 4, above 3"),
            (READ, "62 21 01", (4, None), "its length is 3, below 4"),
            (uds.diagnostic_session_control(3), "50 03 00 19 01 f4 00", (6, 6), "its length is 7, above 6"),
            (faults, "59", (2, None), "its length is 1, below 2"),
            (faults, "59 02", (3, None), "its length is 2, below 3"),
            (faults, "59 02 ff 01 02 03", (3, None), "its length is 6, not 3 plus a multiple of 4"),
        ):
            answer = call.hear(Recording().reply(5, said))
            self.assertEqual((answer.detail, answer.least, answer.most), (8, *bounds))
            self.assertEqual(answer.text, "the reply breaks rule 8: " + words)

    def test_words_of_every_log(self):
        """What is said of a length is so in each case of the gate's lists, and nobody hears that nothing was sent who sent something."""
        lengths = refusals = 0
        for name in "logs", "listings", "addressed":
            for log, expected in cases(name):
                if expected.startswith("deviation") and expected.split()[4].startswith("08"):
                    answer = uds.log(log)
                    size = len(answer.reply)
                    lengths += 1
                    if size < answer.least:
                        self.assertIn("%d, below %d" % (size, answer.least), answer.text)
                    elif answer.most is not None:
                        self.assertGreater(size, answer.most)
                        self.assertIn("%d, above %d" % (size, answer.most), answer.text)
                    else:
                        self.assertEqual((answer.request[0], answer.request[1] & 0x7F), (0x19, 2))
                        self.assertNotEqual(size % 4, 3)
                        self.assertIn("%d, not 3 plus a multiple of 4" % size, answer.text)
                elif expected.startswith("refused"):
                    answer = uds.log(log)
                    refusals += 1
                    self.assertEqual("nothing to send" in answer.text, answer.detail != 10)
        self.assertGreater(lengths, 100)
        self.assertGreater(refusals, 100)

    def test_words_of_refusals(self):
        key = uds.security_access(2)
        for answer in key.hear(Recording()), key.begin().answer:
            self.assertEqual(answer.text, "there is nothing to send: a key is to be sent, and there is no data (refusal 1)")
        self.assertEqual(READ.hear(Recording().idle(2).idle(1)).text, "no judgement: the list of events breaks a limit (refusal 10)")
        engine = READ.begin()
        self.assertIsNone(engine.idle(30))
        for step in lambda: engine.idle(29), lambda: engine.reply(40, bytes(4096)), lambda: engine.tick(29):
            with self.assertRaises(uds.Refused) as refused:
                step()
            self.assertNotRegex(str(refused.exception), "sent|send")
        self.assertEqual(READ.hear(Recording().reply(5, "7f 22 92")).text, "the controller refused (code 92)")

    def test_session(self):
        granted = Recording().reply(5, "50 03 00 19 01 f4")
        answer = uds.diagnostic_session_control(3).hear(granted)
        self.assertEqual(answer.session, Session(25, 5000))
        self.assertEqual(READ.hear(Recording(), session=answer.session).time, 25)
        kept = uds.diagnostic_session_control(3).hear(granted, Config(server_timing=False))
        self.assertEqual(kept.session, Session(50, 5000))

    def test_records(self):
        answer = READ.hear(Recording().reply(5, COUNT))
        self.assertEqual(answer.u16(), 1000)
        self.assertRaises(ValueError, answer.u8)
        self.assertEqual(READ.hear(Recording().reply(5, "62 21 01 00 00 03 e8")).u32(), 1000)
        with self.assertRaises(uds.NotPositive) as silent:
            READ.hear(Recording()).u16()
        self.assertEqual(silent.exception.answer.outcome, Outcome.TIMEOUT)
        faults = uds.read_dtc_information_dtc_by_status_mask(9)
        answer = faults.hear(Recording().reply(5, "59 02 ff 010203 08 040506 01 070809 09"))
        self.assertEqual(answer.faults(8), [(0x010203, 8), (0x070809, 9)])
        self.assertEqual(len(answer.faults()), 3)
        download = uds.request_download(GOOD).hear(Recording().reply(5, "74 20 0f fa"))
        self.assertEqual(download.block_length, 4090)

    def test_faults_are_asked_for_behind_the_last_one(self):
        """The library is handed each record once, however many there are: what it looks at and what is copied for it grows with the list."""
        for count in 1, 10, 1000:
            answer = dataclasses.replace(READ.hear(Recording().reply(5, COUNT)), data=b"\xff" + b"\1\2\3\x08" * count)
            looked = copied = 0

            def counting(name, mask, records, *k):
                nonlocal looked, copied
                place = door(name, mask, records, *k)
                looked += min(place + 4, len(records)) if k else len(records)
                copied += len(records) if isinstance(records, bytes) else 0
                return place

            with mock.patch.object(uds, "door", counting):
                self.assertEqual(answer.faults(8), [(0x010203, 8)] * count)
            self.assertLessEqual(looked + copied, 3 * 4 * count)
        broken = dataclasses.replace(answer, data=b"\xff" + b"\1\2\3\x08" + b"\1\2\3\4" + b"\4\5\6\x08" + b"\7\7\7")
        self.assertEqual(broken.faults(8), [(0x010203, 8), (0x040506, 8)])
        self.assertEqual(broken.faults(0), [])
        self.assertEqual(dataclasses.replace(answer, data=b"").faults(), [])

    def test_addresses(self):
        heard = Recording().reply(8, "62 21 01 07 d0", 0x7E9).reply(15, COUNT, 0x7E8)
        self.assertEqual(READ.hear(heard, Config(listens=0x7E8)).u16(), 1000)
        self.assertEqual(READ.hear(heard, Config(listens=0x7E9)).u16(), 2000)
        self.assertEqual(READ.hear(heard).outcome, Outcome.TIMEOUT)


class Steps(unittest.TestCase):
    def test_one_event_at_a_time(self):
        engine = READ.begin(Config(listens=0x7E8))
        self.assertEqual((engine.request.hex(), engine.deadline, engine.answer), ("222101", 50, None))
        self.assertIsNone(engine.reply(8, "62 21 01 07 d0", 0x7E9))
        self.assertIsNone(engine.reply(20, "7f 22 78", 0x7E8))
        self.assertEqual(engine.deadline, 5020)
        self.assertIsNone(engine.idle(25))
        self.assertIsNone(engine.tick(30))
        for step, number in ((lambda: engine.tick(29), 20), (lambda: engine.reply(40, bytes(4096)), 10), (lambda: engine.idle(29), 20)):
            with self.assertRaises(uds.Refused) as refused:
                step()
            self.assertEqual(refused.exception.number, number)
        answer = engine.reply(900, COUNT, 0x7E8)
        self.assertEqual((answer.line, answer.u16(), answer.request), ("positive 900 4 1 03e8", 1000, engine.request))
        self.assertEqual((engine.answer, engine.deadline), (answer, None))
        self.assertRaisesRegex(uds.Refused, "refusal 21", engine.tick, 901)

    def test_how_else_it_settles(self):
        self.assertEqual(READ.begin().tick(51).line, "timeout 50 0 0 -")
        self.assertIsNone(READ.begin().tick(50))
        self.assertEqual(READ.begin().end(5).line, "disconnected 5 1 0 -")
        self.assertEqual(READ.begin().error(5, 7).line, "transport 5 1 0 0007")
        self.assertEqual(uds.security_access(2).begin().answer.line, "refused 0 0 0 01")
        self.assertEqual(READ.begin(session=Session(25, 5000)).deadline, 25)
        granted = uds.diagnostic_session_control(3).begin().reply(5, "50 03 00 19 01 f4")
        self.assertEqual(granted.session, Session(25, 5000))
        memory = uds.read_memory_by_address(GOOD).begin()
        self.assertEqual(memory.reply(5, "63 01 02 03 04").record(), bytes([1, 2, 3, 4]))
        written = uds.write_memory_by_address(GOOD, "aa").begin()
        self.assertEqual(written.reply(5, "7d 12 20 01 04").line, "deviation 5 1 0 0d7d12200104")
        self.assertRaises(uds.Misuse, uds.Call(16).begin)
        limited = READ.begin(Config(notice_limit=0, overall=9))
        self.assertEqual(limited.reply(5, "7f 22 78").line, "pendinglimit 5 1 1 -")


class Frames(unittest.TestCase):
    """What test_captures.py, which has the joining, does not have: sources, identifiers, and what is refused."""

    def frames(self, *said):
        return [
            Message(timestamp=1000 + ms / 1000, arbitration_id=source, is_extended_id=source > 0x7FF, data=bytes.fromhex(frame))
            for ms, source, frame in said
        ]

    def test_single_and_many(self):
        frames = self.frames(
            (0, 0x7E0, "03 22 f1 90"),
            (20, 0x7E8, "03 7f 22 78 aa aa aa aa"),
            (30, 0x7E8, "10 09 62 21 01 00 01 02"),
            (30.2, 0x7E0, "30 00 00"),
            (31.4, 0x7E8, "21 03 04 05 aa"),
        )
        for ids in 0x7E8, {0x7E8}, [0x7E8], "7E8", "7e8", {0x7E8: 0}:
            for sent in 1000.0, 1000, frames[0]:
                answer = READ.hear(Recording().can(frames, sent, ids))
                self.assertEqual((answer.record().hex(), answer.time, answer.notices), ("000102030405", 31, 1))
        self.assertRaises(TypeError, Recording().can, frames, 1000.0)

    def test_a_forgotten_address_is_never_silence(self):
        """One identifier has address 0; of several the call must say which one it listens to."""
        frames = self.frames((5, 0x7E8, "05 62 21 01 03 e8"), (6, 0x7E9, "05 62 21 01 07 d0"), (7, 0x18DAF110, "05 62 21 01 0b b8"))
        alone = Recording().can(frames, 1000.0, {0x7E8})
        self.assertEqual(READ.hear(alone).u16(), 1000)
        self.assertRaisesRegex(ValueError, "address 0x7E8 is listened to.* 7E8 at 0x0", READ.hear, alone, Config(listens=0x7E8))
        self.assertRaisesRegex(ValueError, "another identifier already", alone.can, frames, 1000.0, {0x7E9})
        self.assertEqual(len(alone.events), 12)
        several = Recording().can(frames, 1000.0, {0x7E8, 0x7E9})
        self.assertEqual(READ.hear(several, Config(listens=0x7E8)).u16(), 1000)
        self.assertEqual(READ.hear(several, Config(listens=0x7E9)).u16(), 2000)
        for wrong in Config(), Config(listens=0x7EA):
            self.assertRaisesRegex(ValueError, "is listened to", READ.hear, several, wrong)
        told = Recording().can(frames, 1000.0, {0x7E8: 1, "7E9": 2, 0x18DAF110: 3})
        self.assertEqual([READ.hear(told, Config(listens=k)).u16() for k in (1, 2, 3)], [1000, 2000, 3000])
        silent = Recording().can(frames[:0], 1000.0, {0x7E8: 1})
        self.assertEqual(READ.hear(silent, Config(listens=1)).outcome, Outcome.TIMEOUT)
        self.assertRaisesRegex(ValueError, "is listened to", READ.hear, silent)
        self.assertEqual(READ.hear(Recording().can(frames, 1000.0, 0x18DAF110)).u16(), 3000)

    def test_identifiers(self):
        for ids in [], {}, -1, 0x20000000, "7E", "800", "20000000", "0x7", " 7E8", "", [0x7E8, "+7E"]:
            self.assertRaisesRegex(ValueError, "no identifier", Recording().can, [], 0.0, ids)
        for address in 65536, -1:
            self.assertRaisesRegex(ValueError, "no address", Recording().can, [], 0.0, {0x7E8: address})
        self.assertRaisesRegex(ValueError, "mapping", Recording().can, [], 0.0, {0x7E8, 0x18DAF110})
        narrow, wide = self.frames((5, 0x7E8, "05 62 21 01 03 e8"), (6, 0x7E8, "05 62 21 01 07 d0"))
        wide.is_extended_id = True
        self.assertEqual(READ.hear(Recording().can([narrow, wide], 1000.0, "7E8")).u16(), 1000)
        self.assertEqual(READ.hear(Recording().can([narrow, wide], 1000.0, "000007E8")).u16(), 2000)

    def test_refused_and_as_before(self):
        heard = Recording().reply(1, COUNT)
        before = heard.events, heard.replies, list(heard.dropped)
        back = self.frames((5, 0x7E8, "02 7e 00"), (4, 0x123, "00"))
        many = self.frames(*((5, 0x7E8, "02 7e 00") for _ in range(512)))
        for frames, number, words in (back, 16, "message 2 of the list: the time of a message goes back"), (many, 17, "more than 512 events"):
            with self.assertRaises(uds.Refused) as refused:
                heard.can(frames, 1000.0, 0x7E8)
            self.assertEqual(refused.exception.number, number)
            self.assertIn(words, str(refused.exception))
            self.assertEqual((heard.events, heard.replies, heard.dropped), before)
        self.assertEqual(len(heard.can(many[1:], 1000.0, 0x7E8).events), 512 * 12)

    def test_what_is_no_frame_of_classic_can(self):
        def frame(data, **more):
            return SimpleNamespace(timestamp=1000.005, arbitration_id=0x7E8, data=bytes.fromhex(data), **more)

        self.assertEqual(len(Recording().can([frame("02 7e 00")], 1000.0, 0x7E8).events), 12)  # without flags it is one, of 11 bits
        for flag in "is_error_frame", "is_remote_frame", "is_fd", "is_extended_id":
            self.assertEqual(Recording().can([frame("02 7e 00", **{flag: True})], 1000.0, 0x7E8).events, b"", flag)
        long = [frame("10 09 62 21 01 00 01 02 03"), frame("21 03 04 05")]
        self.assertEqual(Recording().can(long, 1000.0, 0x7E8).events, b"")


class Beside(unittest.TestCase):
    def test_lengths_have_64_bits_everywhere(self):
        """The library's lengths do, also where size_t has 32: a module that is loaded under such a size_t has no type of it."""
        code = (
            "import ctypes; ctypes.c_size_t = ctypes.c_uint32\n"
            "from bintrochis.door import _door\n"
            "sizes = {name: [ctypes.sizeof(kind) for kind in function.argtypes] for name, (function, _) in _door.items()}\n"
            "for name, (function, _) in _door.items():\n"
            "    for kind, size in zip(function.argtypes, sizes[name][1:]):\n"
            "        assert kind is not ctypes.c_void_p or size == 8, name\n"
            "assert sizes['bintrochis_door_fault'][3] == 8 and sizes['bintrochis_door_call_alfid'][3:7] == [8] * 4\n"
            "for name in 'line', 'faults', 'fault':\n"
            "    assert ctypes.sizeof(_door['bintrochis_door_' + name][0].restype) == 8, name\n"
        )
        subprocess.run([sys.executable, "-c", code], cwd=HERE.parents[1], check=True)

    def test_version(self):
        self.assertEqual(uds.__version__, "0.2.0")

    def test_the_modules_own_example(self):
        self.assertEqual(doctest.testmod(uds), (0, 4))

    def test_blocks(self):
        ten = bytes(range(10))
        self.assertEqual(uds.blocks(ten, 6), [(1, ten[:4]), (2, ten[4:8]), (3, ten[8:])])
        self.assertEqual(uds.blocks(b"", 6), [])
        self.assertEqual([counter for counter, _ in uds.blocks(bytes(257), 3)][254:], [255, 0, 1])
        with self.assertRaises(uds.Refused) as refused:
            uds.blocks(ten, 2)
        self.assertEqual(refused.exception.number, 11)

    def test_both_ends(self):
        store = bytearray(hex_file("examples/stores/hoist-drive.hex"))
        limit = uds.read_data_by_identifier(0x2102)
        write = uds.write_data_by_identifier(0x2102, "0f a0")
        said = [uds.respond(store, call.request()).hex() for call in (READ, limit, write, limit)]
        self.assertEqual(said, ["62210103e8", "6221021388", "6e2102", "6221020fa0"])
        self.assertEqual(READ.hear(Recording().reply(0, said[0])).u16(), 1000)
        self.assertEqual(uds.respond(store, "3e 80"), b"")
        with self.assertRaises(uds.Refused) as refused:
            uds.respond(store, READ.request(), room=4)
        self.assertEqual(refused.exception.number, 13)


def hex_file(name):
    """Commented hex, as scripts/hex-to-log reads it."""
    lines = (HERE.parents[3] / name).read_text().splitlines()
    return bytes.fromhex("".join(line.partition("#")[0] for line in lines))


if __name__ == "__main__":
    if STAND_IN:
        print(SKIPPED)
    unittest.main()
