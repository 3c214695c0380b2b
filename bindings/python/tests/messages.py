"""Messages of python-can, or a stand-in with the same fields where it is not there."""

import dataclasses

try:
    from can import Message
except ImportError:

    @dataclasses.dataclass
    class Message:
        timestamp: float = 0.0
        arbitration_id: int = 0
        is_extended_id: bool = True
        is_remote_frame: bool = False
        is_error_frame: bool = False
        is_fd: bool = False
        data: bytes = b""


STAND_IN = Message.__module__ == __name__
SKIPPED = "skipped: messages of python-can itself, since it is not there; a stand-in has the same fields."
