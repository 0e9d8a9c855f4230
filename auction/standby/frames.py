"""What two machines say to each other: objects of JSON, a line each, some with bytes after it."""
import contextlib
import dataclasses
import json
import os
import select
from typing import IO, Any

MOST_LINE, MOST_BYTES = 1 << 20, 1 << 28
SILENCE = 20  # seconds after which the other machine is gone


class Silence(OSError):
    """The other machine says nothing more, or nothing that is a frame."""


@dataclasses.dataclass(frozen=True)
class Frame:
    """An object, and the bytes that come with it."""

    says: dict[str, Any]
    content: bytes = b""

    @property
    def kind(self) -> str:
        return str(self.says.get("kind"))


class Line:
    """A connection to the other machine: frames go out and come in."""

    def __init__(self, incoming: IO[bytes], outgoing: IO[bytes]) -> None:
        self.incoming, self.outgoing = incoming, outgoing
        self.buffer = b""

    def send(self, kind: str, content: bytes = b"", **says: Any) -> None:
        """Sends a frame. If the other machine reads no more, its last frame says why."""
        line = json.dumps({**says, "kind": kind, "length": len(content)})
        with contextlib.suppress(BrokenPipeError):
            self.outgoing.write(line.encode() + b"\n" + content)
            self.outgoing.flush()

    def receive(self, seconds: float = SILENCE) -> Frame:
        """The next frame, whole."""
        while b"\n" not in self.buffer:
            if len(self.buffer) > MOST_LINE:
                raise Silence("the other machine says something else")
            self.more(seconds)
        line, _, self.buffer = self.buffer.partition(b"\n")
        try:
            says = json.loads(line)
            length = int(says["length"])
        except (ValueError, LookupError, TypeError) as error:
            shown = line[:200].decode(errors="replace")
            raise Silence(f"the other machine says something else: {shown}") from error
        if not 0 <= length <= MOST_BYTES:
            raise Silence("the other machine says something else")
        while len(self.buffer) < length:
            self.more(seconds)
        content, self.buffer = self.buffer[:length], self.buffer[length:]
        return Frame(says, content)

    def more(self, seconds: float) -> None:
        """Reads on. Raises Silence at the end, or if nothing comes."""
        if not select.select([self.incoming], [], [], seconds)[0]:
            raise Silence(f"the other machine has said nothing for {seconds:.0f} s")
        piece = os.read(self.incoming.fileno(), 1 << 16)
        if not piece:
            raise Silence("the other machine has ended")
        self.buffer += piece
