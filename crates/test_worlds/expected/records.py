"""What the model of the grant machine keeps: requests, rounds, grants and tokens (docs/MACHINE.md, sections 2 and 3), and what a signature says of itself."""

from dataclasses import dataclass, field
from typing import Optional


@dataclass(frozen=True)
class Mark:
    """What a signature says of itself (docs/SIGNATURES.md)."""
    nonce: bytes
    created: int


@dataclass
class Ask:
    """A token request."""
    rights: list
    label: Optional[str] = None
    bearer: bool = False


@dataclass
class Finish:
    push: bool
    uri: str
    nonce: str
    long: bool = False


@dataclass
class Modes:
    redirect: bool = False
    user_code: bool = False
    user_code_uri: bool = False
    finish: Optional[Finish] = None

    def starts(self):
        return self.redirect or self.user_code or self.user_code_uri

    def wants_code(self):
        return self.user_code or self.user_code_uri


@dataclass
class GrantRequest:
    asks: list
    single: bool = False
    subject: bool = False
    client: Optional[str] = None
    by_object: bool = False
    user: Optional[str] = None
    modes: Optional[Modes] = None
    repeats_flag: bool = False


@dataclass
class Decision:
    verdict: str
    rights: list
    subject: Optional[str]
    reference: Optional[str]


@dataclass
class Round:
    modes: Modes
    handle: str
    code: Optional[str]
    nonce: Optional[str]
    until: int
    over: int
    wrongs: int = 0
    decision: Optional[Decision] = None


@dataclass
class Grant:
    key: str
    user: Optional[str]
    end: int
    terms: GrantRequest
    consent: list = field(default_factory=list)
    round: Optional[Round] = None  # there exactly while the grant is pending
    ended: bool = False
    door: str = ""  # the continuation value
    earliest: int = 0

    def asked_rights(self):
        return [right for ask in self.terms.asks for right in ask.rights]

    def state(self, now):
        if self.ended or now >= self.end or (self.round and now >= self.round.over):
            return "finalized"
        return "pending" if self.round else "approved"


@dataclass
class Token:
    grant: Grant
    key: str
    ask: Ask
    issued: int
    until: int
    value: str
    manage: str
    retired: bool = False
    replaced: bool = False  # retired by a rotation or a modification
