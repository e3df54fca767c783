"""Says in words what a client asks for. All texts that come from a client pass `visible`."""

import itertools
import json
import re
from dataclasses import dataclass

DIMENSIONS = ("actions", "locations", "datatypes", "privileges")
LABELS = {
    "actions": "It may",
    "locations": "At",
    "datatypes": "Kinds of data",
    "privileges": "With the privileges",
    "identifier": "Which one",
}


HANDLE = re.compile(r"[A-Za-z0-9_-]{32}")


def is_handle(text: str) -> bool:
    """Whether the text has the form of a handle."""
    return HANDLE.fullmatch(text) is not None


def visible(text: str) -> str:
    """The text with a sign for each character that isn't seen or turns the writing around."""
    return "".join(sign if sign.isprintable() else f"⟨{ord(sign):04X}⟩" for sign in text)


def code_text(typed: str) -> str:
    """A code as devices show it, however it was typed."""
    letters = "".join(typed.replace("-", "").split()).upper()
    return f"{letters[:4]}-{letters[4:]}"


@dataclass(frozen=True)
class Key:
    """A token on the page: its name, whether that is the client's word, and whether anybody who holds the token can use it."""

    name: str
    theirs: bool
    bearer: bool


@dataclass(frozen=True)
class Choice:
    """A right on the page: its place among the asked ones, its name, what it is, and the tokens that would have it."""

    place: int
    title: str
    about: str
    details: tuple[tuple[str, str], ...]
    keys: tuple[Key, ...]


def _text_of(value: object) -> str:
    if isinstance(value, str):
        return value
    if isinstance(value, list) and all(isinstance(item, str) for item in value):
        return ", ".join(value)
    return json.dumps(value, ensure_ascii=False)


def _one_text(right: object) -> str:
    """A text that two rights share only where they are the same: to Python 1 and true are equal."""
    return json.dumps(right, sort_keys=True)


def details(right: object) -> tuple[tuple[str, str], ...]:
    """The members of a right in full, each with a word for it. A reference has none."""
    if isinstance(right, str):
        return ()
    members = ((name, value) for name, value in right.items() if name != "type")
    return tuple((LABELS.get(name, f"Further, “{name}”"), _text_of(value)) for name, value in members)


def keys(shown: dict) -> list[Key]:
    """The tokens that are asked for. The name of each is its label, or its number."""
    return [
        Key(token.get("label", f"number {number}"), "label" in token, "bearer" in token.get("flags", []))
        for number, token in enumerate(shown["access_token"], 1)
    ]


def asked_rights(shown: dict) -> list:
    """The rights of all tokens, each once, in their order."""
    rights: dict[str, object] = {}
    for right in itertools.chain.from_iterable(token["access"] for token in shown["access_token"]):
        rights.setdefault(_one_text(right), right)
    return list(rights.values())


def choices(shown: dict, known: dict[str, dict[str, str]]) -> list[Choice]:
    """What the user can allow, right by right."""
    named = [(key, {_one_text(right) for right in token["access"]}) for key, token in zip(keys(shown), shown["access_token"])]
    made = []
    for place, right in enumerate(asked_rights(shown)):
        name = right if isinstance(right, str) else right["type"]
        words = known.get(name, {"title": name, "about": "This server has no description of it."})
        opening = tuple(key for key, texts in named if _one_text(right) in texts)
        made.append(Choice(place, words["title"], words["about"], details(right), opening))
    return made


def _atoms(right: object) -> set:
    """The atoms of a right (RFC 9635, section 8): one for each choice of a value from each dimension."""
    if isinstance(right, str):
        return {right}
    lists = [right.get(name, [None]) for name in DIMENSIONS]
    others = json.dumps({name: value for name, value in right.items() if name not in DIMENSIONS}, sort_keys=True)
    return {(others, *values) for values in itertools.product(*lists)}


def included(asked: list, ticked: list[int]) -> list[int]:
    """The places of those rights that aren't ticked, and that the ticked ones give as well."""
    given = set().union(*(_atoms(asked[place]) for place in ticked))
    return [place for place, right in enumerate(asked) if place not in ticked and _atoms(right) <= given]


def time_left(seconds: int) -> str:
    """How long the user may still decide."""
    minutes = seconds // 60
    if minutes == 0:
        return "less than a minute"
    return "a minute" if minutes == 1 else f"{minutes} minutes"
