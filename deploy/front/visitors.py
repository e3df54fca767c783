"""Who sends a request: the cookie, the token of its form, and the user who is signed in, here or elsewhere."""

from flask import Response, g, request

from front.sessions import Sessions
from front.settings import Settings, User

COOKIE = "__Host-consent"


class Visitors:
    """Keeps what it found out about the sender of a request in Flask's `g`: `value` of the cookie, and `account`."""

    def __init__(self, settings: Settings):
        self._settings = settings
        self._sessions = Sessions()

    def arrive(self) -> bool:
        """Finds out who asks, and says whether the request may be taken: a form has to come from a page of this front.

        A POST from another site comes without the cookie. Its reply sets none, since that would end the session.
        """
        g.account = self._account()
        g.value = request.cookies.get(COOKIE, "")
        if request.method == "POST":
            return self._sessions.is_form_token(g.value, g.account, request.form.get("form_token", ""))
        if request.method == "GET" and not g.value:
            self._is_now(self._sessions.new_visit())
        return True

    def _account(self) -> str:
        """The account that signed in elsewhere, where that is set up: the field has it in UTF-8."""
        elsewhere = self._settings.elsewhere
        if elsewhere is None:
            return ""
        try:
            return request.headers.get(elsewhere.header, "").encode("latin-1").decode()
        except UnicodeError:
            return ""

    def _is_now(self, value: str) -> None:
        """From now on the visitor has this value of the cookie."""
        g.value = g.new_value = value

    def form_token(self) -> str:
        """What the forms of the page have to carry."""
        return self._sessions.form_token(g.value, g.account)

    def user(self) -> User | None:
        """The user who is signed in."""
        users, elsewhere = self._settings.users, self._settings.elsewhere
        if elsewhere is None:
            return users.get(self._sessions.user(g.value) or "")
        return (users.get(g.account) or elsewhere.user(g.account)) if g.account else None

    def sign_in(self, user: User) -> None:
        """Signs a user in, under a new value of the cookie."""
        self._sessions.sign_out(g.value)
        self._is_now(self._sessions.sign_in(user.id))

    def sign_out(self) -> None:
        """Ends the session."""
        self._sessions.sign_out(g.value)
        self._is_now(self._sessions.new_visit())


def keep_cookie(reply: Response) -> None:
    """Sets the cookie where its value is a new one."""
    if "new_value" in g:
        reply.set_cookie(COOKIE, g.new_value, secure=True, httponly=True, samesite="Lax", path="/")
