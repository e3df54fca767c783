"""Serves the front whose setup stands in a file.

    python3 -m front CONFIG
"""

import logging
import sys
from pathlib import Path

import waitress

from front.pages import make_app
from front.settings import read_settings


def main() -> None:
    """Serves until somebody ends it."""
    logging.basicConfig(format="%(asctime)s %(name)s %(message)s")
    # The server beneath logs the path of a request that fails, and a handle may stand there.
    logging.getLogger("waitress").setLevel(logging.CRITICAL)
    settings = read_settings(Path(sys.argv[1]))
    host, port = settings.listen
    waitress.serve(make_app(settings), host=host, port=port, threads=8, ident=None, url_scheme="https")


if __name__ == "__main__":
    main()
