"""Writes ../stdin, a table of cases, and ../stdout, what comes of each by the rules of docs/, without the program. For `test_equal_replays` it writes both
too: the lines of the replays among the cases, with an empty line behind each, and for each a line that says how many bytes it prints.

Run it anew where a rule or a case changes: python3 crates/test_worlds/expected/write.py
"""

import json
from pathlib import Path

import client_cases
import derived_cases
import edge_cases
import failing_calls
import generated_histories
import http_cases
import line_cases
import mark_cases
import marked_histories
import outside_cases
import resource_cases
import rights_cases
import rotated_histories
import rotation_cases
import run_cases
import scripted_grants
import scripted_interactions
import set_cases
import stored_histories
import written_cases
from checks import check_all
from replays import replay
from worlds import outcome


def cases():
    for module in (
        http_cases, edge_cases, outside_cases, rights_cases, line_cases, mark_cases, rotation_cases, marked_histories, rotated_histories, written_cases,
        client_cases, resource_cases, set_cases, derived_cases, failing_calls,
    ):
        yield from module.cases()
    yield from run_cases.cases(scripted_grants.RUNS + scripted_interactions.RUNS)
    yield from map(run_cases.replay_case, scripted_grants.REPLAYS + generated_histories.runs() + stored_histories.runs())


def lines_of(values, sort_keys=False):
    return "".join(json.dumps(value, ensure_ascii=False, separators=(",", ":"), sort_keys=sort_keys) + "\n" for value in values)


def is_plain_replay(case):
    """A replay of a file that stands in the case, over devices that do as they are told."""
    return case["words"][:1] == ["replay"] and set(case) == {"name", "words", "files"}


def is_utf8(text):
    try:
        return bool(text.decode())
    except UnicodeDecodeError:
        return False


def histories(table):
    """For each replay of a file of UTF-8 its lines, none of them empty, and what it prints without those that are."""
    for case in filter(is_plain_replay, table):
        lines = [line for line in case["files"][0][1].encode("latin-1").split(b"\n") if line]
        text = b"\n".join(lines)
        if lines and outcome(case)["status"] == 0 and is_utf8(text):
            yield text.decode(), replay(text)[1].encode()


def write(crate, given, wanted):
    folder = Path(__file__).resolve().parent.parent.parent / crate
    (folder / "stdin").write_text(given, encoding="utf-8")
    (folder / "stdout").write_text(wanted, encoding="utf-8")


def main():
    check_all()
    table = list(cases())
    assert len({case["name"] for case in table}) == len(table)
    write("test_worlds", lines_of(table), lines_of(map(outcome, table), sort_keys=True))
    replays = list(histories(table))
    write("test_equal_replays", "".join(lines + "\n\n" for lines, _ in replays), "".join(f"{len(printed)} bytes\n" for _, printed in replays))


if __name__ == "__main__":
    main()
