"""The pages of the front, as an application of Flask."""

import logging
import traceback
from collections.abc import Sequence

from flask import Flask, Response, g, redirect, render_template, request
from werkzeug.exceptions import HTTPException

from front import sentences, words
from front.finishing import push
from front.server_calls import Refused, ServerCalls, Unreachable
from front.sessions import Devices, WrongCodes
from front.settings import Settings, User
from front.visitors import Visitors, keep_cookie

LONGEST_FORM = 16 * 1024

log = logging.getLogger("front")


def message(title: str, text: str, status: int = 200) -> tuple[str, int]:
    """A page with one thing to say."""
    return render_template("message.html", title=title, text=text), status


class Pages:
    """What the routes do. Each answers with a page, or sends the user to another one."""

    def __init__(self, settings: Settings, calls: ServerCalls):
        self.settings = settings
        self.calls = calls
        self.visitors = Visitors(settings)
        self.wrong_codes = WrongCodes()
        self.devices = Devices()

    # Who is there

    def begin_request(self) -> tuple[str, int] | None:
        """Finds out who asks, and refuses forms that didn't come from a page of this front."""
        g.finish = ()
        return None if self.visitors.arrive() else message(*sentences.OLD_FORM, 403)

    def sign_in_page(self, handle: str = "", status: int = 200) -> tuple[str, int]:
        """The page on which a user signs in, to go on with this interaction or with a code."""
        if self.settings.elsewhere:
            return message(*sentences.NOT_SIGNED_IN, 403)
        return render_template("sign_in.html", users=self.settings.users.values(), handle=handle), status

    def sign_in(self) -> Response | tuple[str, int]:
        """Signs a user in. This demonstration asks for no password."""
        user = self.settings.users.get(request.form.get("user", ""))
        if user is None:
            return self.sign_in_page(request.form.get("handle", ""), 400)
        self.visitors.sign_in(user)
        return self.onward()

    def sign_out(self) -> Response:
        """Ends the session."""
        self.visitors.sign_out()
        return self.onward()

    def onward(self) -> Response:
        """To the interaction that the form speaks of, or to the page for codes."""
        handle = request.form.get("handle", "")
        return redirect(f"/i/{handle}" if words.is_handle(handle) else "/code", 303)

    # An interaction

    def interaction(self, handle: str) -> str | tuple[str, int]:
        """Shows what is asked; to somebody who typed a code, after the question whether the device is at hand."""
        if not words.is_handle(handle):
            return message(*sentences.ENDED, 404)
        user = self.visitors.user()
        if user is None:
            return self.sign_in_page(handle)
        shown = self.calls.look(handle)
        if self.devices.code(handle):
            return self.device_page(user, handle, shown)
        return self.consent_page(user, handle, shown)

    def consent_page(
        self, user: User, handle: str, shown: dict, problem: str = "", ticked: Sequence[int] = (), tells: bool = False
    ) -> str:
        """The page on which a user decides; the one for somebody else where the client named another user."""
        client = self.settings.client(shown["client"])
        g.finish = client.finish
        template = "consent.html" if shown.get("user", user.subject) == user.subject else "other_user.html"
        return render_template(
            template,
            user=user,
            handle=handle,
            client=client,
            choices=words.choices(shown, self.settings.rights),
            keys=words.keys(shown),
            asks_who=shown["subject"],
            time_left=words.time_left(shown["expires_in"]),
            problem=problem,
            ticked=ticked,
            tells=tells,
        )

    def decide(self) -> Response | str | tuple[str, int]:
        """Carries out what the user chose."""
        handle, verdict = request.form.get("handle", ""), request.form.get("verdict", "")
        if not words.is_handle(handle) or verdict not in ("grant", "all", "deny", "unknown"):
            return message(*sentences.NOT_TAKEN, 400)
        user = self.visitors.user()
        if user is None:
            return self.sign_in_page(handle)
        shown = self.calls.look(handle)
        if verdict in ("deny", "unknown"):
            return self.finish(shown, verdict, self.calls.decide(handle, verdict))
        if self.devices.code(handle):
            return self.device_page(user, handle, shown), 400
        return self.grant(user, handle, shown, verdict == "all")

    def grant(self, user: User, handle: str, shown: dict, whole: bool) -> Response | str | tuple[str, int]:
        """Grants all, or the rights that are ticked, and tells who the user is where that is ticked."""
        if shown.get("user", user.subject) != user.subject:
            return self.consent_page(user, handle, shown), 400
        asked = words.asked_rights(shown)
        ticked = [place for place in range(len(asked)) if whole or str(place) in request.form.getlist("right")]
        tells = bool(shown["subject"]) and (whole or "tell" in request.form)
        if not ticked and not tells:
            return self.consent_page(user, handle, shown, sentences.NOTHING_CHOSEN), 400
        more = words.included(asked, ticked)
        if more:
            choices = words.choices(shown, self.settings.rights)
            names = [words.visible(choices[place].title) for place in more]
            return self.consent_page(user, handle, shown, sentences.gives_more(names), ticked, tells), 400
        chosen = [asked[place] for place in ticked]
        return self.finish(shown, "grant", self.calls.decide(handle, "grant", chosen, user.subject if tells else None))

    def finish(self, shown: dict, verdict: str, decided: dict) -> Response | tuple[str, int]:
        """Has the client learn of the decision in the way that it asked for."""
        title = {"grant": sentences.ALLOWED, "deny": sentences.DENIED, "unknown": sentences.UNKNOWN}[verdict]
        if decided["finish"] == "none":
            return message(title, sentences.WILL_ASK)
        client = self.settings.client(shown["client"])
        if not client.may_be_told_at(decided["uri"]):
            return message(title, sentences.WRONG_PLACE)
        if decided["finish"] == "redirect":
            return redirect(decided["uri"], 303)
        told = push(decided["uri"], decided["body"])
        return message(title, sentences.TOLD if told else sentences.NOT_TOLD)

    # A user code

    def code_page(self, problem: str = "", status: int = 200) -> tuple[str, int]:
        """The page on which a user types the code that a device shows. What was typed stays there where it was wrong."""
        user = self.visitors.user()
        if user is None:
            return self.sign_in_page()
        return render_template("code.html", user=user, problem=problem, typed=request.form.get("code", "")), status

    def find_code(self) -> Response | tuple[str, int]:
        """Goes to the interaction with this code."""
        user = self.visitors.user()
        if user is None:
            return self.sign_in_page()
        if not self.wrong_codes.may_try(user.id):
            return self.code_page(sentences.TOO_MANY_CODES, 429)
        typed = request.form.get("code", "")
        try:
            handle = self.calls.find_code(typed)
        except Refused as refused:
            if refused.code == "invalid_request":
                return self.code_page(sentences.CODE_FORM, 400)
            self.wrong_codes.was_wrong(user.id)
            return self.code_page(sentences.CODE_UNKNOWN, 400)
        self.devices.came(handle, words.code_text(typed))
        return redirect(f"/i/{handle}", 303)

    def device_page(self, user: User, handle: str, shown: dict) -> str:
        """Asks whether the device that shows the code is at hand: a code can come from somebody far away (RFC 8628, section 5.4)."""
        client = self.settings.client(shown["client"])
        g.finish = client.finish
        return render_template("device.html", user=user, handle=handle, client=client, code=self.devices.code(handle))

    def device_is_at_hand(self) -> Response | tuple[str, int]:
        """The user says that it is, and goes on to what is asked."""
        handle = request.form.get("handle", "")
        if self.visitors.user() is None:
            return self.sign_in_page(handle)
        self.devices.is_at_hand(handle)
        return self.onward()


def guard(reply: Response) -> Response:
    """Sets the cookie where it is a new one, and the fields that each page has."""
    keep_cookie(reply)
    targets = " ".join(["'self'", *g.finish])
    reply.headers["Content-Security-Policy"] = (
        f"default-src 'none'; style-src 'self'; form-action {targets}; frame-ancestors 'none'; base-uri 'none'"
    )
    reply.headers["Cache-Control"] = "no-store"
    reply.headers["Referrer-Policy"] = "no-referrer"
    reply.headers["X-Content-Type-Options"] = "nosniff"
    reply.headers["X-Frame-Options"] = "DENY"
    reply.headers["Cross-Origin-Opener-Policy"] = "same-origin"
    return reply


def fault_page(fault: Exception) -> tuple[str, int]:
    """A page for what went wrong. What is logged has no address, since a handle stands there, and no value."""
    if isinstance(fault, Refused):
        return message(*(sentences.ENDED if fault.code == "unknown_interaction" else sentences.NOT_TAKEN), 400)
    if isinstance(fault, Unreachable):
        return message(*sentences.UNREACHABLE, 502)
    if isinstance(fault, HTTPException):
        return message(*sentences.NOT_HERE, fault.code or 400)
    log.error("%s\n%s", type(fault).__name__, "".join(traceback.format_tb(fault.__traceback__)))
    return message(*sentences.FAULT, 500)


def make_app(settings: Settings) -> Flask:
    """The application of a front with this setup."""
    app = Flask("front")
    app.config["MAX_CONTENT_LENGTH"] = LONGEST_FORM
    pages = Pages(settings, ServerCalls(settings))
    app.before_request(pages.begin_request)
    app.after_request(guard)
    app.register_error_handler(Exception, fault_page)
    app.add_template_filter(words.visible, "visible")
    app.context_processor(lambda: {"form_token": pages.visitors.form_token(), "elsewhere": settings.elsewhere})
    app.add_url_rule("/", view_func=lambda: redirect("/code", 303), endpoint="start")
    app.add_url_rule("/i/<handle>", view_func=pages.interaction, endpoint="interaction")
    app.add_url_rule("/code", view_func=pages.code_page, endpoint="code")
    app.add_url_rule("/code", view_func=pages.find_code, endpoint="find_code", methods=["POST"])
    forms = {"decide": pages.decide, "device": pages.device_is_at_hand}
    if settings.elsewhere is None:
        forms |= {"sign-in": pages.sign_in, "sign-out": pages.sign_out}
    for path, view in forms.items():
        app.add_url_rule(f"/{path}", view_func=view, endpoint=path, methods=["POST"])
    return app
