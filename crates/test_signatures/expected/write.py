"""Writes ../stdin, three tables, and ../stdout, what must come of each line.

fields.txt and signatures.txt hold two of them: each line, and behind it what must come of it in lines that begin with a tab. The third is that
of marks (signature_marks.py).

Run it anew where a case changes: python3 crates/test_signatures/expected/write.py
"""

from pathlib import Path

import signature_marks

HERE = Path(__file__).resolve().parent


def held(name):
    """Each line of a table that is held as a text, with the lines that must come of it."""
    lines = (HERE / name).read_text(encoding="utf-8").split("\n")[:-1]
    places = [place for place, line in enumerate(lines) if not line.startswith("\t")]
    for place, end in zip(places, places[1:] + [len(lines)]):
        yield lines[place], [line[1:] for line in lines[place + 1:end]]


def rows():
    """Each line of the three tables, with the lines that must come of it."""
    for table, name in (("field", "fields.txt"), ("signature", "signatures.txt")):
        for line, answers in held(name):
            yield f"{table} {line}", answers
    for line, answers in signature_marks.rows():
        yield f"mark {line}", answers


def main():
    table = list(rows())
    lines = [line for line, _ in table]
    assert len(set(lines)) == len(lines) and all(answers for _, answers in table)
    for name, written in (("stdin", lines), ("stdout", [line for _, answers in table for line in answers])):
        (HERE.parent / name).write_text("".join(line + "\n" for line in written), encoding="utf-8")


if __name__ == "__main__":
    main()
