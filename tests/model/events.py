"""Events and outcomes (SPECIFICATION 1.2, 1.3): what goes into a guard, and the one of four things that comes back.

An outcome's text is deskrun's line. A save's digest, which deskrun never sees, stands after its image.
"""

from dataclasses import dataclass

from .rules import ANSWER, REQUEST


@dataclass(frozen=True)
class Call:
    data: bytes
    answer_len: int = ANSWER
    request_len: int = REQUEST


@dataclass(frozen=True)
class Reply:
    data: bytes
    answer_len: int = ANSWER
    request_len: int = REQUEST


@dataclass(frozen=True)
class Save:
    buffer_len: int


@dataclass(frozen=True)
class Load:
    image: bytes
    digest: bytes


@dataclass(frozen=True)
class Done:
    number: int
    data: bytes = b""
    digest: bytes = b""

    def __str__(self):
        return " ".join(part for part in ("done", str(self.number), self.data.hex(), self.digest.hex()) if part)


@dataclass(frozen=True)
class Ask:
    data: bytes

    def __str__(self):
        return f"ask {self.data.hex()}"


@dataclass(frozen=True)
class Refused:
    number: int

    def __str__(self):
        return f"refused {self.number}"


@dataclass(frozen=True)
class Stopped:
    reason: int

    def __str__(self):
        return f"stopped {self.reason}"
