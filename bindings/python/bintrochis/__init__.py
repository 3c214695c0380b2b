"""Bintrochis for Python: a UDS client (ISO 14229-1) in which every call is proved, for notebooks and scripts.

A log or a recording in, an answer out:

    >>> import bintrochis as uds
    >>> heard = uds.Recording().reply(20, "7f 22 78").reply(900, "62 21 01 03 e8")
    >>> answer = uds.read_data_by_identifier(0x2101).hear(heard)
    >>> answer.outcome, answer.time, answer.notices, answer.u16()
    (<Outcome.POSITIVE: 0>, 900, 1, 1000)

The proved library decides. What this module adds has no proof: it tests numbers, turns them into an enum and places into bytes, and puts
CAN frames together. It is tested, and two files of it are to be read, this one and door.py; names.py is a list. The standard library is
enough.
"""

import collections.abc
import dataclasses
import enum
import operator
import struct

from . import names
from .door import DONE, NO_FAULT, NO_LIMIT, NUMBERS, STATE, VERSION, door, numbers

__version__ = "%d.%d.%d" % (VERSION // 10000, VERSION // 100 % 100, VERSION % 100)

LONGEST_REQUEST = 4095
LONGEST_LINE = 8222
MOST_EVENTS = 512
MOST_REPLY_BYTES = 65535
LATEST = 2**32 - 1

STRICT, SERVER_TIMING, SUPPRESSED, OVERALL, SUB, DATA = 1, 2, 4, 8, 16, 32


class Outcome(enum.IntEnum):
    POSITIVE = 0
    SUPPRESSED = 1  # silence, which was asked for
    NEGATIVE = 2
    TIMEOUT = 3
    DISCONNECTED = 4
    TRANSPORT = 5
    DEVIATION = 6  # strict: the reply breaks a rule
    LENGTH = 7  # lenient: the reply is too short to read
    OVERFLOW = 8
    REFUSED = 9  # no request can be made, or the list of events breaks a limit
    PENDING_LIMIT = 10

    @property
    def word(self):
        """The word that a log's line begins with."""
        return self.name.lower().replace("_", "")


REFUSALS = {
    1: "a key is to be sent, and there is no data",
    2: "the address has not 1 to 15 bytes",
    3: "the size has not 1 to 15 bytes",
    4: "the compression method is above 15",
    5: "the encryption method is above 15",
    6: "the width of address or size is out of range",
    7: "address or size needs more bytes than its width",
    8: "the request is longer than 4,095 bytes",
    9: "the buffer is too short for the request",
    10: "the list of events breaks a limit",
    11: "the block length is below 3",
    12: "there is no block of that number",
    13: "the buffer is too short for the reply",
    16: "the time of a message goes back",
    17: "there are more than 512 events, more than 65,535 bytes of replies, or a reply later than 4,294,967,295 ms",
    20: "earlier than the last step",
    21: "the call has settled",
}

DEVIATIONS = {
    1: "it answers another service",
    2: "it refuses another service",
    3: "it names another sub-function",
    4: "silence was asked for, and it is positive",
    5: "it names another identifier",
    6: "it names another routine",
    7: "it names another block",
    8: "its length is wrong",
    9: "its block length has no bytes",
    10: "its length format has bits that are to be 0",
    11: "its block length is below 3",
    12: "it names other lengths of address and size",
    13: "it names another address",
    14: "it names another size",
    15: "it has not as many bytes as were asked for",
}


class BadLog(ValueError):
    """These bytes are no log."""


class Refused(ValueError):
    """A refusal, by its number; `of` says of what it is, where there are many."""

    def __init__(self, number, of=""):
        super().__init__("%s%s (refusal %d)" % (of and of + ": ", REFUSALS[number], number))
        self.number = number


class Misuse(ValueError):
    """These numbers ask no call."""


class NotPositive(Exception):
    """There is no record to read; `answer` says why."""

    def __init__(self, answer):
        super().__init__(answer.text)
        self.answer = answer


def code_name(code):
    """The name of a negative code, or "" where it has none."""
    return names.NAMES[door("bintrochis_name_number", code)]


@dataclasses.dataclass(frozen=True)
class Session:
    """The session's timing, in milliseconds."""

    p2: int = 50
    p2_star: int = 5000


@dataclasses.dataclass(frozen=True)
class Config:
    """How a call is made; docs/LENIENT.md says when strict may be off."""

    strict: bool = True
    server_timing: bool = True
    suppressed: bool = False
    overall: int | None = None  # the overall timeout, in milliseconds since sending
    notice_limit: int | None = None  # 0 to 255
    listens: int | None = None  # the address listened to
    wide: bool = False  # widths of 1 to 15 bytes


@dataclasses.dataclass(frozen=True)
class Memory:
    """Address and size as numbers, each with a width in bytes."""

    address: int
    size: int
    address_width: int
    size_width: int


@dataclasses.dataclass(frozen=True)
class Answer:
    """What a call answers."""

    outcome: Outcome
    time: int  # the finishing time, in milliseconds since sending
    events: int  # how many were read, and how many of these were wait notices
    notices: int
    data: bytes  # what a positive hands out
    reply: bytes  # the reply that settled the call
    detail: int  # a negative's code, a transport error's, a deviation's or a refusal's number; else 0
    least: int  # deviation 8: the least and the greatest length; None is no greatest
    most: int | None
    block_length: int  # of a download or an upload that was answered positive
    request: bytes  # what is sent
    session: Session  # the timing that the next call finds

    @property
    def text(self):
        """The outcome in words that a technician understands."""
        number = self.detail
        name = code_name(number & 255)
        return {
            Outcome.POSITIVE: "the controller answered",
            Outcome.SUPPRESSED: "silence, as asked for",
            Outcome.NEGATIVE: "the controller refused%s (code %02x)" % (name and ": " + name, number),
            Outcome.TIMEOUT: "no answer in time: waiting ended at %d ms" % self.time,
            Outcome.DISCONNECTED: "the connection ended before an answer came",
            Outcome.TRANSPORT: "the transport failed with its error %d" % number,
            Outcome.DEVIATION: "the reply breaks rule %d: %s" % (number, self._length_words() if number == 8 else DEVIATIONS.get(number, "")),
            Outcome.LENGTH: "the reply is too short to read",
            Outcome.OVERFLOW: "the block length does not fit 64 bits",
            Outcome.REFUSED: "%s: %s (refusal %d)"
            % ("no judgement" if number == 10 else "there is nothing to send", REFUSALS.get(number, ""), number),
            Outcome.PENDING_LIMIT: "the controller asked to wait %d times, more than the limit" % self.notices,
        }[self.outcome]

    def _length_words(self):
        """Deviation 8 by its bounds. Those of call 15 do not say all: its reply also wants whole records."""
        size = len(self.reply)
        if size < self.least:
            return "its length is %d, below %d" % (size, self.least)
        if self.most is not None and size > self.most:
            return "its length is %d, above %d" % (size, self.most)
        return "its length is %d, not 3 plus a multiple of 4" % size

    @property
    def line(self):
        """The line that `udslog` prints, without its newline."""
        detail = {
            Outcome.POSITIVE: self.data,
            Outcome.NEGATIVE: bytes([self.detail & 255]),
            Outcome.TRANSPORT: self.detail.to_bytes(2, "big"),
            Outcome.DEVIATION: bytes([self.detail & 255]) + self.reply,
            Outcome.OVERFLOW: self.reply,
            Outcome.REFUSED: bytes([self.detail & 255]),
        }.get(self.outcome, b"")
        return "%s %d %d %d %s" % (self.outcome.word, self.time, self.events, self.notices, detail.hex() or "-")

    def record(self):
        """The record of a positive; else NotPositive."""
        if self.outcome != Outcome.POSITIVE:
            raise NotPositive(self)
        return self.data

    def _number(self, size):
        record = self.record()
        if len(record) != size:
            raise ValueError("the record has %d bytes where %d were to be read" % (len(record), size))
        return int.from_bytes(record, "big")

    def u8(self):
        return self._number(1)

    def u16(self):
        return self._number(2)

    def u32(self):
        return self._number(4)

    def faults(self, mask=0xFF):
        """Of call 15: the faults whose status shares a bit with the mask, as (code, status)."""
        found = []
        rest = memoryview(bytearray(self.record()))[1:]
        while (at := door("bintrochis_door_fault", mask, rest, 0)) != NO_FAULT:  # the first one behind the last one
            found.append((int.from_bytes(rest[at : at + 3], "big"), rest[at + 3]))
            rest = rest[at + 4 :]
        return found


def _bytes(said):
    """Bytes as they are, as hex text, or as numbers 0 to 255 one by one. A number alone is no bytes: how many it has is not said."""
    if isinstance(said, str):
        return bytes.fromhex(said)
    if isinstance(said, (bytes, bytearray)) or isinstance(said, memoryview) and said.itemsize == 1:
        return bytes(said)
    if not isinstance(said, collections.abc.Iterable) or isinstance(said, (collections.abc.Set, collections.abc.Mapping)):
        raise TypeError("%r is no bytes: give bytes, hex text such as '0f a0', or a list of numbers 0 to 255" % (said,))
    found = bytearray()
    for number in said:
        try:
            number = operator.index(number)
        except TypeError:
            raise TypeError("%r is no byte: a list of bytes has numbers 0 to 255" % (number,)) from None
        if not 0 <= number <= 255:
            raise ValueError("%d is no byte: a list of bytes has numbers 0 to 255" % number)
        found.append(number)
    return bytes(found)


def _memory(memory):
    """A Memory, or address and size as bytes. Numbers need their widths."""
    if isinstance(memory, Memory):
        return memory
    fields = () if isinstance(memory, (str, bytes, bytearray)) or not isinstance(memory, collections.abc.Iterable) else tuple(memory)
    if len(fields) != 2 or any(isinstance(field, int) for field in fields):
        raise TypeError(
            "%r is no memory: give Memory(address, size, address_width, size_width) for numbers, or a pair of bytes or hex text" % (memory,)
        )
    return tuple(_bytes(field) for field in fields)


def _identifier(said):
    """A CAN identifier's number, and whether it has 29 bits: a number by its size, text by its digits, three or eight, as for `log2uds`."""
    if isinstance(said, str):
        if len(said) not in (3, 8) or not set(said) <= set("0123456789abcdefABCDEF"):
            raise ValueError("%r is no identifier: three hex digits are one of 11 bits, eight are one of 29" % said)
        number, extended = int(said, 16), len(said) == 8
    else:
        number = operator.index(said)
        extended = number > 0x7FF
    if not 0 <= number <= (0x1FFFFFFF if extended else 0x7FF):
        raise ValueError("%r is no identifier of %d bits" % (said, 29 if extended else 11))
    return number, extended


def _addresses(ids):
    """The address of each identifier: told by a mapping; 0 where there is one; the number of each of several."""
    if isinstance(ids, collections.abc.Mapping):
        told = {_identifier(said): operator.index(address) for said, address in ids.items()}
        for address in told.values():
            if not 0 <= address <= 65535:
                raise ValueError("%d is no address: it has 16 bits" % address)
    else:
        alone = isinstance(ids, str) or not isinstance(ids, collections.abc.Iterable)
        asked = dict.fromkeys(_identifier(said) for said in ((ids,) if alone else ids))
        if len(asked) > 1 and any(extended for _, extended in asked):
            raise ValueError("an identifier of 29 bits is no address: give ids as a mapping, such as {0x18DAF110: 0x10, 0x18DAF111: 0x11}")
        told = {(number, extended): number if len(asked) > 1 else 0 for number, extended in asked}
    if not told:
        raise ValueError("ids: no identifier is asked for")
    return told


def _feed(under, frame):
    """One frame more of an identifier, as crates/isotp joins them. `under` is the message under way, None or the bytes due, the next frame's
    number and the bytes so far. Gives the one under way from now on, whether the one before is given up, and a whole message or None."""
    kind, low = (frame[0] >> 4, frame[0] & 15) if frame else (0, 0)
    if kind == 0 and 1 <= low <= 7 and low < len(frame):
        return None, under is not None, frame[1 : 1 + low]
    if kind == 1 and len(frame) == 8 and low << 8 | frame[1] >= 8:
        return ((low << 8 | frame[1]) - 6, 1, frame[2:]), under is not None, None
    if kind == 2 and under is not None:
        due, number, heard = under
        if low != number:
            return None, True, None
        part = frame[1 : 1 + min(7, due)]
        if len(part) == min(7, due):
            return (None, False, heard + part) if due <= 7 else ((due - 7, (number + 1) % 16, heard + part), False, None)
    return under, False, None


def _micros(seconds):
    """A message's time in microseconds, which is what captures have."""
    return round(seconds * 1_000_000)


class Recording:
    """What was heard, in order; times in milliseconds since sending. Bytes may be said in hex."""

    def __init__(self):
        self.events = b""  # twelve bytes each, as in a log of version 2
        self.replies = b""
        self.dropped = []  # messages at which `can` gave up a reply that was under way
        self._sources = set()
        self._frames = {}  # what `can` was asked for: identifier -> address

    def _heard(self, time, kind, offset=0, length=0, source=0):
        try:
            self.events += struct.pack(">IHHHH", time, kind, offset, length, source)
        except struct.error as error:
            raise ValueError("no event of a recording: %s" % error) from None
        return self

    def reply(self, time, said, source=0):
        said = _bytes(said)
        self._heard(time, 0, len(self.replies), len(said), source)
        self.replies += said
        self._sources.add(source)
        return self

    def idle(self, time):
        return self._heard(time, 1)

    def end(self, time):
        return self._heard(time, 2)

    def error(self, time, number):
        return self._heard(time, 3, 0, number)

    def can(self, messages, sent, ids):
        """Replies in messages of python-can, put together from their frames as `log2uds` does it (ISO 15765-2, normal addressing).

        `sent` is the message of the request's last frame, or its timestamp in seconds. A reply has the time of its last frame: whole milliseconds
        since `sent`, rounded down. What was whole before `sent` is passed over.

        `ids` are the identifiers of the replies. A number up to 0x7FF is one of 11 bits, a larger one has 29; text says it by its digits, "7E8" or
        "000007E8", and a message by `is_extended_id`. The replies of one identifier have address 0, which a call listens to where nothing else
        is said. Of several, each has its number as address; a mapping from identifiers to addresses says others, and is needed for 29 bits.

        Error, remote and CAN FD frames and frames of other identifiers are passed over, and channels are not looked at. `dropped` gets each message
        at which a reply under way was given up. Refused where the time of any message goes back (16), or where a recording cannot hold the
        replies (17); the recording is then as before."""
        addresses = _addresses(ids)
        for address in set(addresses.values()):
            others = {key for key, at in self._frames.items() if at == address} - addresses.keys()
            if others and not isinstance(ids, collections.abc.Mapping):
                raise ValueError("address 0x%X has the replies of another identifier already: give ids as a mapping" % address)
        start, place, last = _micros(getattr(sent, "timestamp", sent)), 0, None
        under, dropped, found = dict.fromkeys(addresses), [], []
        for count, message in enumerate(messages, 1):
            time = _micros(message.timestamp)
            if last is not None and time < last:
                raise Refused(16, "message %d of the list" % count)
            last = time
            if message is sent:
                place = count
            if any(getattr(message, flag, False) for flag in ("is_error_frame", "is_remote_frame", "is_fd")):
                continue
            number = message.arbitration_id
            key = number, bool(getattr(message, "is_extended_id", number > 0x7FF))
            if key not in addresses or len(message.data) > 8:
                continue
            under[key], drops, whole = _feed(under[key], bytes(message.data))
            if drops:
                dropped.append(message)
            if whole is not None and time >= start:
                found.append((count, (time - start) // 1000, whole, addresses[key]))
        found = [reply for count, *reply in found if count > place]
        size = len(self.replies) + sum(len(whole) for _, whole, _ in found)
        late = any(time > LATEST for time, _, _ in found)
        if len(self.events) // 12 + len(found) > MOST_EVENTS or size > MOST_REPLY_BYTES or late:
            raise Refused(17)
        for time, whole, source in found:
            self.reply(time, whole, source)
        self.dropped += dropped
        self._frames.update(addresses)
        self._sources.update(addresses.values())
        return self

    def _heard_at(self, listens):
        """Frames were put together, and none of the identifiers has this address: silence would be nobody's."""
        if self._frames and listens not in self._sources:
            told = ", ".join("%0*X at 0x%X" % (8 if extended else 3, number, at) for (number, extended), at in self._frames.items())
            raise ValueError(
                "address 0x%X is listened to, and the identifiers have others: %s. One identifier alone has address 0, which needs no "
                "listens; Config(listens=..) says which of several is listened to" % (listens, told)
            )


@dataclasses.dataclass(frozen=True)
class Call:
    """A call, by its number in a log; the functions below make one. `memory` is a Memory, or address and size as bytes."""

    number: int
    value: int = 0
    sub: int | None = None
    memory: Memory | tuple = (b"", b"")
    data: bytes | None = None

    def request(self, config=Config()):
        """The bytes to send; Refused where there are none."""
        answer = self.hear(Recording(), config)
        if answer.outcome == Outcome.REFUSED:
            raise Refused(answer.detail)
        return answer.request

    def _fields(self, config):
        flags = STRICT * config.strict + SERVER_TIMING * config.server_timing + SUPPRESSED * config.suppressed
        flags += OVERALL * (config.overall is not None) + SUB * (self.number == 0 and self.sub is not None) + DATA * (self.data is not None)
        return _fields(self.number, flags, self.value, self.sub or 0, self.memory, config.wide, b"" if self.data is None else self.data)

    def _timing(self, config, session):
        limit = config.notice_limit
        if limit is not None and not 0 <= limit <= 255:
            raise ValueError("notice_limit: %d is out of range, which is 0 to 255; None is no limit" % limit)
        return session.p2, session.p2_star, config.overall or 0, NO_LIMIT if limit is None else limit

    def hear(self, heard, config=Config(), session=Session()):
        """The answer to what was heard. Without `listens`, address 0 is listened to, where Recording.reply puts replies."""
        heard._heard_at(config.listens or 0)
        timing = (*self._timing(config, session), True, config.listens or 0)
        return _call(self._fields(config), timing, heard.events, heard.replies)

    def begin(self, config=Config(), session=Session()):
        """An Engine that waits for what will be heard; `config.listens` as for `hear`."""
        return Engine(self._fields(config), (*self._timing(config, session), config.listens or 0))


def _fields(number, flags, value, sub, memory, wide, data):
    """Which form of a function takes the call, its numbers, and its argument bytes."""
    if isinstance(memory, Memory):
        return "_alfid", (number, flags, value, memory.address, memory.size, memory.address_width, memory.size_width, wide), _bytes(data)
    # a field of more than 16 bytes is refused as one of 16 is, and its length may not fit the door's byte
    address, size = (field[:16] for field in _memory(memory))
    return "", (number, flags, value, sub, len(address), len(size)), address + size + _bytes(data)


def _call(fields, timing, events, replies):
    form, numbered, arguments = fields
    request, told = bytearray(LONGEST_REQUEST), numbers(NUMBERS)
    if door("bintrochis_door_call" + form, *numbered, *timing, arguments, request, events, replies, told) != DONE:
        raise Misuse("these numbers ask no call")
    return _answer(told, request, replies)


def _answer(told, request, replies):
    outcome, detail, least, most, time, read, notices, data_at, data_length, reply_at, reply_length, block_length, p2, p2_star, sent = told
    return Answer(
        outcome=Outcome(outcome),
        time=time,
        events=read,
        notices=notices,
        data=replies[data_at : data_at + data_length],
        reply=replies[reply_at : reply_at + reply_length],
        detail=detail,
        least=least,
        most=None if most == 2**64 - 1 else most,
        block_length=block_length,
        request=bytes(request[:sent]),
        session=Session(p2, p2_star),
    )


class Engine:
    """A call that is handed one event, or the time, at each step: `request` is sent, and from then on times are in milliseconds since sending.
    Each step gives the answer once the call has settled, and None before; Refused says that it was not taken and changed nothing."""

    WAITING = 11

    def __init__(self, fields, timing):
        form, numbered, arguments = fields
        buffer, self._state = bytearray(LONGEST_REQUEST), numbers(STATE)
        if door("bintrochis_door_begin" + form, *numbered, *timing, arguments, buffer, self._state) != DONE:
            raise Misuse("these numbers ask no call")
        self.request = bytes(buffer[: self._state[14]])
        self.answer = None
        self._settled(b"")

    @property
    def deadline(self):
        """Until when the call waits; what comes at the deadline is in time. None once it has settled."""
        return self._state[4] if self.answer is None else None

    def _settled(self, replies):
        if self.answer is None and self._state[0] != self.WAITING:
            self.answer = _answer(self._state[:NUMBERS], self.request, replies)
        return self.answer

    def _event(self, time, kind, length, source, replies):
        refusal = door("bintrochis_door_event", self._state, self.request, time, kind, 0, length, source, replies)
        if refusal != DONE:
            raise Refused(refusal)
        return self._settled(replies)

    def reply(self, time, said, source=0):
        said = _bytes(said)
        return self._event(time, 0, len(said), source, said)

    def idle(self, time):
        return self._event(time, 1, 0, 0, b"")

    def end(self, time):
        return self._event(time, 2, 0, 0, b"")

    def error(self, time, number):
        return self._event(time, 3, number, 0, b"")

    def tick(self, now):
        refusal = door("bintrochis_door_tick", self._state, now)
        if refusal != DONE:
            raise Refused(refusal)
        return self._settled(b"")


def request(sid, sub_function=None, data=None):
    return Call(0, sid, sub_function, data=_given(data))


def diagnostic_session_control(session_type):
    return Call(1, sub=session_type)


def ecu_reset(reset_type):
    return Call(2, sub=reset_type)


def security_access(access_type, data=None):
    return Call(3, sub=access_type, data=_given(data))


def tester_present():
    return Call(4)


def read_memory_by_address(memory):
    return Call(5, memory=_memory(memory))


def write_memory_by_address(memory, data):
    return Call(6, memory=_memory(memory), data=_bytes(data))


def read_data_by_identifier(identifier):
    return Call(7, identifier)


def write_data_by_identifier(identifier, data):
    return Call(8, identifier, data=_bytes(data))


def read_dtc_information_number_of_dtc_by_status_mask(status_mask):
    return Call(9, status_mask)


def routine_control(control_type, identifier, data=None):
    return Call(10, identifier, control_type, data=_given(data))


def request_download(memory, compression=0, encryption=0):
    return Call(11, _methods(compression, encryption), memory=_memory(memory))


def request_upload(memory, compression=0, encryption=0):
    return Call(12, _methods(compression, encryption), memory=_memory(memory))


def transfer_data(counter, data=None):
    return Call(13, counter, data=_given(data))


def request_transfer_exit(data=None):
    return Call(14, data=_given(data))


def read_dtc_information_dtc_by_status_mask(status_mask):
    return Call(15, status_mask)


def _given(data):
    return None if data is None else _bytes(data)


def _methods(compression, encryption):
    """Each has a byte; above 15 it is the library that refuses."""
    for name, method in ("compression", compression), ("encryption", encryption):
        if not 0 <= method <= 255:
            raise ValueError("%s: %d is out of range" % (name, method))
    return compression << 8 | encryption


def line(log):
    """The line that `udslog` prints of a log, without its newline."""
    room = bytearray(LONGEST_LINE)
    return room[: door("bintrochis_door_line", _bytes(log), room)].decode("ascii").rstrip("\n")


def log(log):
    """The answer that a log gives; BadLog where it is none."""
    log = _bytes(log)
    if line(log).startswith("badlog"):
        raise BadLog("these bytes are no log")
    (version,) = struct.unpack_from(">H", log)
    moved = version - 1  # version 2 has an address of two bytes at byte 9, and all behind it one byte further
    number, flags, value, sub, address, size = struct.unpack_from(">BBHBBB", log, 2)
    listens = struct.unpack_from(">H", log, 9)[0] if moved else log[9]
    counts = struct.unpack_from(">6H", log, 10 + moved)
    p2, p2_star, overall = struct.unpack_from(">III", log, 24 + moved)
    arguments, events, replies = (
        log[at : at + count * each] for count, at, each in zip(counts[::2], counts[1::2], (1, 10 + 2 * moved, 1))
    )
    memory = (arguments[:address], arguments[address : address + size])
    fields = _fields(number, flags, value, sub, memory, False, arguments[address + size :])
    return _call(fields, (p2, p2_star, overall, NO_LIMIT, bool(moved), listens), events, replies)


def blocks(data, block_length):
    """The blocks of a download, as (counter, bytes), under the block length that call 11 returned."""
    data, told = _bytes(data), numbers(3)
    lent, found = memoryview(bytearray(data)), []
    while (refusal := door("bintrochis_door_block", lent, block_length, len(found), told)) == DONE:
        counter, at, length = told
        found.append((counter, data[at : at + length]))
    if refusal != 12:
        raise Refused(refusal)
    return found


def respond(store, request, room=LONGEST_REQUEST):
    """The reply of a controller on the bench, whose store is a bytearray as for `udsbench`; b"" is silence. A write changes the store."""
    reply, told = bytearray(room), numbers(1)
    refusal = door("bintrochis_door_respond", store, _bytes(request), reply, told)
    if refusal != DONE:
        raise Refused(refusal)
    return bytes(reply[: told[0]])
