"""Lines of replays that are odd, and what is printed of them. The answers are taken from docs/FORMATS.md, sections 1 to 4."""

from rights import compact
from scripted_grants import BEGUN, PHOTOS
from scripts import INACTIVE, SETUP, V, active, asks, granted, looks_at, refused, step, token

INVALID = refused("invalid_request")
STRANGER = refused("invalid_client")
DENIED = refused("request_denied")
ACTIVE = active(["photos"], 1000, 4600)
LOOK = step(1001, "r1", "introspect", looks_at(1), ACTIVE).line()
BEGIN = BEGUN.line()
SETUP_LINE = compact(SETUP)
CALL_LINE_BYTES = 131_072


def begin_with(body):
    """A line of a grant request whose body is this text."""
    return '{"at":1000,"call":"begin","key":"c1","body":' + body + "}"


def nested(levels):
    """A body with so many levels, its own among them."""
    return compact(PHOTOS)[:-1] + ',"x":' + "[" * (levels - 1) + "]" * (levels - 1) + "}"


def padded(line, length):
    return line[:-1] + " " * (length - len(line)) + line[-1]


# Each group is one file: its lines after the setup line, each with its answer; None where nothing is printed.
GROUPS = {
    "lines that aren't of the form": [
        ("", None), ("{", INVALID), (" ", INVALID), ("[]", INVALID), ("1", INVALID), ("{}", INVALID), ("null", INVALID),
        ("\ufeff" + LOOK, INVALID), (LOOK + "}", INVALID), (LOOK + LOOK, INVALID), (LOOK.replace('"', "'"), INVALID),
        (LOOK.replace('"at":1001,', ""), INVALID), (LOOK.replace(',"key":"r1"', ""), INVALID),
        (LOOK.replace('"call":"introspect",', ""), INVALID),
        *[(LOOK.replace("1001", at), INVALID)
          for at in ("1001.0", "1e3", "-0", "-1", "01", '"1001"', "253402300800", "18446744073709551616", "null", "1E3")],
        *[(LOOK[:-1] + ',"draw":' + draw + "}", INVALID)
          for draw in ("0", "[-1]", "[0.0]", "[18446744073709551616]", '["0"]', "[" + "0," * 48 + "0]", "null")],
        *[(LOOK.replace('"introspect"', call), INVALID) for call in ("1", "null", '["introspect"]')],
        *[(LOOK[:-1] + ',"value":' + value + "}", INVALID) for value in ("1", "null", "[]")],
        *[(BEGIN.replace(compact(PHOTOS), body), INVALID) for body in ("null", '"x"', "[]", "1")],
        (LOOK.replace('"r1"', "1", 1), INVALID),
    ],
    "lines of an odd form": [
        ("\t " + BEGIN + " \r", BEGUN.answer), ("", None), ("", None),
        (LOOK[:-1] + ',"draw":[' + "0," * 47 + '18446744073709551615],"value":"","other":[1.5],"X":null}', ACTIVE),
        (LOOK.replace('"call":"introspect"', '"call":"dance","call":"introspect"'), ACTIVE),
        (LOOK.replace('"call":"introspect"', '"\\u0063all":"intr\\u006fspect"'), ACTIVE),
        (LOOK.replace('"introspect"', '"dance"'), "404"), (LOOK.replace('"introspect"', '"Introspect"'), "404"),
        (LOOK.replace('"introspect"', '"lapse"'), "404"), (LOOK.replace('"introspect"', '""'), "404"),
        (LOOK.replace('"introspect"', '"dance"').replace('"r1"', '"c9"'), "404"),
        (LOOK.replace("1001", "0"), ACTIVE),
        (padded(LOOK, CALL_LINE_BYTES), ACTIVE), (padded(LOOK, CALL_LINE_BYTES + 1), "413"), ("{" * (CALL_LINE_BYTES + 1), "413"),
        (LOOK.replace("1001", "253402300799"), INACTIVE), (LOOK, INACTIVE),
    ],
    "numbers and levels of bodies": [
        *[(begin_with(compact(PHOTOS)[:-1] + ',"x":' + number + "}"), INVALID)
          for number in ("1.0", "1e3", "-0", "18446744073709551616", "-9223372036854775809", "1e999", "01", "0.1", "-0.0", "NaN")],
        (begin_with(compact(PHOTOS)[:-1] + ',"x":{"y":[1,[2,{"z":3.5}]]}}'), INVALID),
        (begin_with(compact(PHOTOS)[:-1] + ',"x":1.5,"x":-9223372036854775808,"y":18446744073709551615}'),
         granted(token(1, ["photos"]), 3)),
        (begin_with(nested(126)), granted(token(4, ["photos"]), 6)), (begin_with(nested(127)), INVALID),
        ('{"at":1000,"call":"begin","key":"r1","body":{"x":1.5}}', STRANGER),
        ('{"at":1000,"call":"cancel","key":"c1","body":{"x":1.5}}', refused("invalid_continuation")),
        ('{"at":1000,"call":"continue","key":"c1","body":{"x":1.5}}', INVALID),
        ('{"at":1000,"call":"rotate","key":"c1","body":{"x":1.5}}', INVALID),
        ('{"at":1000,"call":"rotate","key":"c1","body":{}}', refused("invalid_rotation")),
        (begin_with('{"access_token":{"access":["photos","' + "\\ud83d\\ude00" + '"]},"client":"c1"}'), DENIED),
        (begin_with('{"access_token":{"access":["photos","' + "\\ud83d" + '"]},"client":"c1"}'), INVALID),
        (begin_with('{"access_token":{"access":["photos","' + "\t" + '"]},"client":"c1"}'), INVALID),
        (begin_with('{"access_token":{"access":["photos","' + "\\/\\b\x7f" + '"]},"client":"c1"}'), DENIED),
    ],
    "bytes that are no UTF-8": [
        (BEGIN, BEGUN.answer), (b'{"at":1001,"call":"introspect","key":"r1","x":"\xff"}', INVALID),
        (b'{"at":1001,"call":"introspect","key":"r1\xc3"}', INVALID), (b"\xed\xa0\x80", INVALID), (LOOK, ACTIVE),
    ],
}

SETUPS = {
    "an empty file": "", "an empty first line": "\n" + SETUP_LINE, "an object without members": "{}", "no JSON": SETUP_LINE + "}",
    "a member that isn't known": SETUP_LINE[:-1] + ',"more":1}', "an id that stands twice": SETUP_LINE.replace('"c2"', '"c1"'),
    "a base with a slash": SETUP_LINE.replace("//as.example", "//as.example/"),
    "a base with its scheme's port": SETUP_LINE.replace("//as.example", "//as.example:443"),
    "an upper-case base": SETUP_LINE.replace("//as.example", "//As.example"),
    "a secret of 15 bytes": SETUP_LINE.replace("c2VjcmV0LWtleS1vZi1jMQ==", "c2VjcmV0LWtleS1vZi1j"),
    "a secret whose last bits aren't zero": SETUP_LINE.replace("c2VjcmV0LWtleS1vZi1jMQ==", "c2VjcmV0LWtleS1vZi1jMR=="),
    "a secret without padding": SETUP_LINE.replace("c2VjcmV0LWtleS1vZi1jMQ==", "c2VjcmV0LWtleS1vZi1jMQ"),
    "a client that serves": SETUP_LINE.replace('"role":"client"', '"role":"client","serves":[]', 1),
    "a role that isn't known": SETUP_LINE.replace('"front"', '"owner"').replace('"owner":', '"front":'),
    "an id with a blank": SETUP_LINE.replace('"c2"', '"c 2"'), "an id of 65 bytes": SETUP_LINE.replace('"c2"', '"%s"' % ("c" * 65)),
    "a client without what it may ask for": SETUP_LINE.replace('"ask":["mail"],', ""),
}


def bytes_of(line):
    return line if isinstance(line, bytes) else line.encode()


def file_of(lines):
    return b"\n".join([SETUP_LINE.encode()] + [bytes_of(line) for line, _ in lines])


def answers_of(lines):
    return "".join(answer + "\n" for _, answer in lines if answer is not None)


def with_runs(text):
    """The text of a file for the table, and its long runs of one character, which are written as their byte and their number."""
    runs = []
    for char in (" ", "{"):
        while char * 1_000 in text:
            start = text.index(char * 1_000)
            end = start
            while end < len(text) and text[end] == char:
                end += 1
            runs.append([char, end - start])
            text = text[:start] + chr(255 + len(runs)) + text[end:]
    return text, runs


def replay_of(name, text):
    text, runs = with_runs(text.decode("latin-1"))
    case = {"name": name, "words": ["replay", "f"], "files": [["f", text]]}
    return {**case, "runs": runs} if runs else case


def cases():
    return ([replay_of(name, file_of(lines)) for name, lines in GROUPS.items()]
            + [replay_of("setup: " + name, text.encode() + b"\n" + LOOK.encode()) for name, text in SETUPS.items()])
