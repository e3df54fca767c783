"""Goes through the pages as a person would, checks what comes of it, and takes pictures.

    python3 -m tour WORK PICTURES [--quick]
"""

import argparse
import signal
import sys
import time
from pathlib import Path

from tour import deriving, elsewhere, guards, visits
from tour.browser import Browser, NotThere
from tour.checks import Failed, Tour, start_tour


def go_around(tour: Tour, quick: bool) -> None:
    """All visits. The one that takes ten minutes begins first and ends last."""
    begun = time.monotonic()
    expiring = visits.begin_expiring(tour)
    for visit in (
        visits.grant_in_part,
        visits.grant_all_by_push,
        visits.deny,
        visits.user_code,
        visits.code_of_another,
        visits.part_of_another,
        visits.taken_back,
        visits.somebody_else,
        visits.moved_to_a_new_key,
        deriving.derived_token,
        guards.hostile_texts,
        guards.forms_and_cookies,
        guards.other_site,
        guards.colours,
        elsewhere.signed_in_elsewhere,
        guards.caught,
        guards.terminator,
    ):
        print(visit.__doc__, flush=True)
        visit(tour)
    if not quick:
        print(visits.expired.__doc__, flush=True)
        visits.expired(tour, expiring, begun)
    print(guards.logs.__doc__, flush=True)
    guards.logs(tour)


def main() -> int:
    """Reads the words of the command."""
    parser = argparse.ArgumentParser(prog="tour", description="Goes through the pages of a deployment.")
    parser.add_argument("work", type=Path)
    parser.add_argument("pictures", type=Path)
    parser.add_argument("--quick", action="store_true", help="leave out the request that expires, which takes ten minutes")
    words = parser.parse_args()
    # What ends this ends Chromium too.
    signal.signal(signal.SIGTERM, lambda *_: sys.exit(1))
    with Browser(words.work / "chromium") as browser:
        tour = start_tour(words.work, words.pictures, browser)
        try:
            go_around(tour, words.quick)
        except (Failed, NotThere) as failed:
            print(f"FAILED: {failed}", file=sys.stderr)
            return 1
    print(f"{tour.passed} checks passed. The pictures are in {words.pictures}")
    return 0


if __name__ == "__main__":
    sys.exit(main())
