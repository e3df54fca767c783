"""Who is signed in, in memory, and the tokens that forms carry against cross-site requests."""

import hashlib
import hmac
import secrets
import threading
import time
from collections import deque

SECONDS = 900
MOST = 10_000


class Sessions:
    """Sessions end after a quarter of an hour, and with the front. Where there are too many the oldest is dropped."""

    def __init__(self) -> None:
        self._key = secrets.token_bytes(32)
        self._lock = threading.Lock()
        self._signed_in: dict[str, tuple[str, float]] = {}

    def new_visit(self) -> str:
        """The cookie's value for somebody who isn't signed in. Nothing is kept of it."""
        return secrets.token_urlsafe(32)

    def sign_in(self, user: str) -> str:
        """Begins a session of this user, under a value that nobody had before."""
        value = self.new_visit()
        with self._lock:
            if len(self._signed_in) >= MOST:
                del self._signed_in[next(iter(self._signed_in))]
            self._signed_in[value] = (user, time.monotonic() + SECONDS)
        return value

    def user(self, value: str) -> str | None:
        """The user who is signed in under this value."""
        with self._lock:
            user, end = self._signed_in.get(value, (None, 0.0))
            if user is not None and time.monotonic() >= end:
                del self._signed_in[value]
                return None
            return user

    def sign_out(self, value: str) -> None:
        """Ends the session."""
        with self._lock:
            self._signed_in.pop(value, None)

    def form_token(self, value: str, account: str) -> str:
        """What a form has to carry that is sent with this cookie, and by this account where one signed in elsewhere."""
        return hmac.new(self._key, f"{value}\n{account}".encode(), hashlib.sha256).hexdigest()

    def is_form_token(self, value: str, account: str, token: str) -> bool:
        """Whether a form came from a page of ours for this cookie and this account. None does without a cookie."""
        return value != "" and hmac.compare_digest(self.form_token(value, account).encode(), token.encode())


class Devices:
    """The interactions that were reached by a code, until somebody says that the device with this code is at hand."""

    def __init__(self) -> None:
        self._lock = threading.Lock()
        self._codes: dict[str, str] = {}

    def came(self, handle: str, code: str) -> None:
        """Somebody typed the code, and came to this interaction."""
        with self._lock:
            if len(self._codes) >= MOST:
                del self._codes[next(iter(self._codes))]
            self._codes[handle] = code

    def code(self, handle: str) -> str:
        """The code of an interaction whose device is still to be asked for; an empty one for all others."""
        with self._lock:
            return self._codes.get(handle, "")

    def is_at_hand(self, handle: str) -> None:
        """The device is at hand."""
        with self._lock:
            self._codes.pop(handle, None)


class WrongCodes:
    """Counts the wrong user codes of each user, so that codes can't be tried one after another."""

    def __init__(self, most: int = 5, seconds: float = 600) -> None:
        self._most = most
        self._seconds = seconds
        self._lock = threading.Lock()
        self._times: dict[str, deque[float]] = {}

    def may_try(self, user: str) -> bool:
        """Whether the user had fewer wrong ones than are allowed, in the time that counts."""
        with self._lock:
            times = self._times.get(user, deque())
            while times and times[0] <= time.monotonic() - self._seconds:
                times.popleft()
            return len(times) < self._most

    def was_wrong(self, user: str) -> None:
        """Counts one."""
        with self._lock:
            self._times.setdefault(user, deque()).append(time.monotonic())
