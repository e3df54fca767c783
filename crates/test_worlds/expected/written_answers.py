"""The answers that stand beside the steps of scripted runs and beside odd lines: whether the model gives them too.

Run as a program it says which it doesn't give.
"""

import sys

import line_cases
import mark_cases
import scripted_grants
import scripted_interactions
from replays import replay


def compare(name, file, lines):
    """How many of the pairs of a line and its answer the model answers in another way."""
    status, out = replay(file)
    answers = out.splitlines()
    wrong = [(line, answer, got) for (line, answer), got in zip(lines, answers) if got != answer]
    for line, answer, got in wrong:
        print(name, line[:300], "gives " + got, "and not " + answer, sep="\n  ")
    return len(wrong) + (status != 0) + (len(answers) != len(lines))


def count_differences():
    wrong = 0
    for run in scripted_grants.RUNS + scripted_grants.REPLAYS + scripted_interactions.RUNS:
        wrong += compare(run.name, run.file().encode(), [(line, step.answer) for line, step in zip(run.lines(), run.steps)])
    for name, lines in [*line_cases.GROUPS.items(), *mark_cases.GROUPS.items()]:
        wrong += compare(name, line_cases.file_of(lines), [pair for pair in lines if pair[1] is not None])
    for name, text in line_cases.SETUPS.items():
        wrong += replay(text.encode() + b"\n") != (3, "")
    return wrong


if __name__ == "__main__":
    sys.exit(count_differences() > 0)
