"""What people do at the front, and what the client gets of it."""

import subprocess
import sys
import time

from client.__main__ import client_of
from client.coming_back import ComingBack
from client.gnap_client import Grant, WrongHash
from tour.checks import Tour, form_token

ALLOW = "button[value=grant]"
ALLOW_ALL = "button[value=all]"
DENY = "button[value=deny]"
FIRST = "input[name=right][value='0']"
SECOND = "input[name=right][value='1']"
TELL = "input[name=tell]"
ROUND = 600

GRANTED_IN_PART = """\
Token 'pictures' for photos, calendar, 3600 seconds:
  GET /photos: 200 12 pictures
  GET /calendar: 200 3 entries
  GET /mail: 401 refused
  rotated. The old one:
  GET /photos: 401 refused
  GET /calendar: 401 refused
  GET /mail: 401 refused
  The new one:
  GET /photos: 200 12 pictures
  GET /calendar: 200 3 entries
  GET /mail: 401 refused
  revoked:
  GET /photos: 401 refused
  GET /calendar: 401 refused
  GET /mail: 401 refused
The grant is given back.
"""


def sign_in(tour: Tour, user: str) -> None:
    """Signs in on the page that asks for it."""
    tour.browser.click(f"input[name=user][value={user}]")
    tour.browser.click("button.main")


def decide_in_part(tour: Tour, client: subprocess.Popen) -> None:
    """Opens the link that the client prints, signs in, and ticks all but the letters."""
    link = next((line.strip() for line in client.stdout if "https://" in line), "")
    tour.check("the client prints a link", link != "")
    tour.secrets.add(link.rsplit("/", 1)[1])
    tour.browser.go(link)
    tour.shows("somebody who isn't signed in is asked who it is", "Who are you?", "Alice Moreau")
    tour.picture("1-sign-in")
    sign_in(tour, "alice")
    tour.shows(
        "the page says who asks for what",
        "Print Shop asks for access",
        "See your photos",
        "Read your letters",
        "read, write",
        "works for anybody who holds it",
        "Signed in as Alice Moreau",
    )
    tour.check("nothing is ticked beforehand", tour.browser.count("input[type=checkbox]") == 4 and tour.browser.count("input:checked") == 0)
    tour.shows("labels are told as the client's words", "its word: pictures", "its word: letters", "written by the application itself")
    tour.shows("the page says where it may send the user", "sent to 127.0.0.1 (your own machine), and nowhere else")
    tour.picture("2-consent")
    for box in (FIRST, SECOND, TELL):
        tour.browser.tick(box, True)
    tour.browser.click(ALLOW)
    tour.shows("the browser is back at the client", "You are back at the application")
    tour.check("on the loopback address", tour.browser.uri().startswith("http://127.0.0.1:"))
    tour.picture("3-back-at-the-client")


def grant_in_part(tour: Tour) -> None:
    """A user signs in and grants a part; the client, as people start it, comes through:"""
    words = [sys.executable, "-m", "client", str(tour.work / "client.json"), "--no-browser"]
    with subprocess.Popen(words, stdout=subprocess.PIPE, text=True) as client:
        try:
            decide_in_part(tour, client)
            said = client.stdout.read()
            client.wait()
        finally:
            client.kill()
    tour.check("the client ended well", client.returncode == 0)
    tour.check("it was told who the user is", "The user: " in said and "not told" not in said)
    tour.check("it got the part that was granted, used, rotated and revoked it", said.endswith(f"\n{GRANTED_IN_PART}"))


def grant_all_by_push(tour: Tour) -> None:
    """A user grants all; the front tells the client itself (push):"""
    with ComingBack() as back:
        grant = tour.begin(tour.config["wanted"], ["redirect"], ("push", back.uri))
        tour.browser.go(grant.interact["redirect"])
        tour.browser.click(ALLOW)
        tour.shows("nothing ticked is no decision", "Nothing is ticked")
        tour.check("the message is tied to the boxes", tour.browser.count("fieldset[aria-describedby=problem]") == 1)
        tour.check("the title says it too", tour.browser.title() == "Please check: Print Shop asks for access")
        tour.picture("4-nothing-ticked")
        tour.browser.click(ALLOW_ALL)
        tour.shows("the page says that the client knows", "You allowed it", "The application knows of it now")
        tour.picture("5-allowed")
        shown, reference = back.wait(20)
    tour.secrets |= {shown, reference}
    try:
        tour.client.finish(grant, shown[::-1], reference)
    except WrongHash:
        tour.check("a wrong hash is noticed by the client", True)
    tour.client.finish(grant, shown, reference)
    tour.remember(grant)
    tour.check("nobody told who the user is, since it wasn't asked", grant.user is None)
    resource = tour.config["resource"]
    pictures, letters = grant.tokens
    tour.check("the bound token opens the photos", tour.client.use(pictures, "GET", f"{resource}/photos").status == 200)
    tour.check("and not the letters", tour.client.use(pictures, "GET", f"{resource}/mail").status == 401)
    tour.check("the bearer token opens the letters", tour.client.use(letters, "GET", f"{resource}/mail").status == 200)
    target = f"{resource}/photos?a=%2F..%2f&b=//c&d"
    tour.check("the terminator leaves the signed target as it is", tour.client.use(pictures, "GET", target).status == 200)
    bare = tour.connections.send("GET", f"{resource}/photos", {"Authorization": f"GNAP {pictures.value}"})
    tour.check("a bound token without a signature is refused", bare.status == 401)
    tour.client.cancel(grant)
    tour.check("a token ends with its grant", tour.client.use(letters, "GET", f"{resource}/mail").status == 401)
    tour.browser.go(grant.interact["redirect"])
    tour.shows("a link that was used is told as ended", "This request has ended")


def deny(tour: Tour) -> None:
    """A user denies:"""
    with ComingBack() as back:
        grant = tour.begin(tour.config["wanted"], ["redirect"], ("redirect", back.uri), subject=True)
        tour.browser.go(grant.interact["redirect"])
        tour.browser.click(DENY)
        tour.shows("the browser is back at the client", "You are back at the application")
        shown, reference = back.wait(20)
    tour.secrets |= {shown, reference}
    tour.is_refused("the client is told", "user_denied", lambda: tour.client.finish(grant, shown, reference))
    tour.is_refused("the grant is over", "invalid_continuation", lambda: tour.client.cancel(grant))


def type_code(tour: Tour, code: str) -> None:
    """Types a code on the page for it."""
    tour.browser.type("#code", code)
    tour.browser.click("button.main")


def tells_wrong_code(tour: Tour, typed: str, problem: str) -> None:
    """Checks that the page tells what is wrong with a code, and keeps it."""
    tour.shows(f"{typed} isn't taken", problem)
    tour.check("it stays in its field", tour.browser.value("#code") == typed)
    tied = tour.browser.count("#code[aria-invalid=true][aria-describedby=problem]") == 1 and tour.browser.count("#problem") == 1
    tour.check("to which the message is tied", tied)
    tour.check("and the title says that something is to be checked", tour.browser.title() == "Please check: Type the code")


def isnt_gone_around(tour: Tour, handle: str) -> None:
    """Checks that the question for the device comes before all that allows something."""
    tour.secrets.add(handle)
    cookie = "; ".join(f"{one['name']}={one['value']}" for one in tour.browser.cookies())
    page = tour.fetch(f"/i/{handle}", cookie=cookie)
    tour.check("which isn't gone around by its link", b"Is the device with you?" in page.content)
    reply = tour.fetch("/decide", f"form_token={form_token(page)}&handle={handle}&verdict=all", cookie)
    tour.check("nor by a decision", reply.status == 400 and b"Is the device with you?" in reply.content)


def user_code(tour: Tour) -> None:
    """A user types the code that a device shows, and the device polls:"""
    grant = tour.begin({"access": ["photos"]}, ["user_code_uri"])
    shown = grant.interact["user_code_uri"]
    code = shown["code"]
    tour.browser.go(shown["uri"])
    tour.picture("6-code")
    type_code(tour, "AEIOU")
    tells_wrong_code(tour, "AEIOU", "A code has eight letters")
    wrong = "BBBBBBBB" if code != "BBBBBBBB" else "CCCCCCCC"
    type_code(tour, wrong)
    tells_wrong_code(tour, wrong, "No request waits under this code")
    tour.picture("6-wrong-code")
    type_code(tour, f"{code[:4]}-{code[4:]}".lower())
    tour.shows("the right one leads to a question", "Is the device with you?", "Print Shop", f"{code[:4]}-{code[4:]}")
    tour.picture("7-device")
    isnt_gone_around(tour, tour.browser.uri().rsplit("/", 1)[1])
    tour.browser.click("button.main")
    tour.shows("and then to what is asked", "Print Shop asks for access", "See your photos")
    tour.picture("7-consent-by-code")
    tour.browser.click(ALLOW_ALL)
    tour.shows("the page sends the user back to the device", "You allowed it", "go back to your device")
    tour.client.poll(grant)
    tour.remember(grant)
    reply = tour.client.use(grant.tokens[0], "GET", f"{tour.config['resource']}/photos")
    tour.check("the device got a token that opens the photos", reply.status == 200)


def code_of_another(tour: Tour) -> None:
    """A user was given the code of a device that is somewhere else:"""
    grant = tour.begin({"access": ["photos"]}, ["user_code_uri"])
    tour.browser.go(grant.interact["user_code_uri"]["uri"])
    type_code(tour, grant.interact["user_code_uri"]["code"])
    tour.shows("the page asks for the device", "If somebody sent or told you the code, it is their device")
    tour.secrets.add(tour.browser.uri().rsplit("/", 1)[1])
    tour.browser.click(DENY)
    tour.shows("no is a refusal", "You denied it")
    tour.is_refused("the device is told", "user_denied", lambda: tour.client.poll(grant))


def part_of_another(tour: Tour) -> None:
    """A user grants a right without one that it includes:"""
    write = next(right for right in tour.config["wanted"][0]["access"] if not isinstance(right, str))
    read = {**write, "actions": ["read"]}
    wanted = [{"label": "look", "access": [read]}, {"label": "change", "access": [write]}]
    grant = tour.begin(wanted, ["redirect"], subject=True)
    tour.browser.go(grant.interact["redirect"])
    tour.browser.tick(SECOND, True)
    tour.browser.tick(TELL, True)
    tour.browser.click(ALLOW)
    tour.shows("the page says what the choice includes", "includes this as well: Your calendar")
    tour.check("and keeps the other ticks", tour.browser.count(f"{TELL}:checked") == 1)
    tour.browser.tick(FIRST, True)
    tour.browser.tick(SECOND, False)
    tour.browser.click(ALLOW)
    tour.shows("the smaller right alone is granted", "You allowed it")
    tour.client.poll(grant)
    tour.remember(grant)
    tour.check("and one token is there for it", [(token.label, token.access) for token in grant.tokens] == [("look", [read])])


def taken_back(tour: Tour) -> None:
    """The client takes its request back while the page is open:"""
    grant = tour.begin(tour.config["wanted"], ["redirect"], ("redirect", "http://127.0.0.1:9/"))
    tour.browser.go(grant.interact["redirect"])
    tour.client.cancel(grant)
    tour.browser.click(ALLOW)
    tour.shows("the page says that it has ended", "This request has ended", "Nothing was shared by opening this page")
    tour.picture("8-ended")


def somebody_else(tour: Tour) -> None:
    """The client means another user; and one who signs in as somebody else:"""
    grant = tour.begin({"access": ["photos"]}, ["redirect"], user="nobody-here")
    tour.browser.go(grant.interact["redirect"])
    tour.shows("the page says that it is for somebody else", "asks for somebody else")
    tour.check("it offers no grant", tour.browser.count(ALLOW) == 0)
    tour.picture("9-somebody-else")
    tour.browser.click("button.main")
    tour.shows("after signing out the page asks who it is", "Who are you?")
    sign_in(tour, "bruno")
    tour.shows("the other user comes to the same request", "asks for somebody else", "Signed in as Bruno Haas")
    tour.browser.click("button[value=unknown]")
    tour.shows("the page says what was chosen", "You said that you aren't the one")
    tour.is_refused("the client is told", "unknown_user", lambda: tour.client.poll(grant))


def moved_to_a_new_key(tour: Tour) -> None:
    """The client moves a token to its second key:"""
    grant = tour.begin({"access": ["photos"]}, ["redirect"])
    tour.browser.go(grant.interact["redirect"])
    tour.browser.click(ALLOW_ALL)
    tour.shows("the user allows it", "You allowed it")
    tour.client.poll(grant)
    tour.remember(grant)
    second = client_of(tour.config, tour.config["new_key"])
    moved = tour.client.move(grant.tokens[0], second)
    tour.secrets |= {moved.value, moved.manage_value}
    photos = f"{tour.config['resource']}/photos"
    tour.check("the new key opens the photos", second.use(moved, "GET", photos).status == 200)
    tour.check("and the old one doesn't", tour.client.use(moved, "GET", photos).status == 401)
    tour.is_refused("nor does it rotate the token", "invalid_client", lambda: tour.client.rotate(moved))
    second.revoke(moved)
    tour.check("the new key gave it back", second.use(moved, "GET", photos).status == 401)
    tour.client.cancel(grant)


def begin_expiring(tour: Tour) -> Grant:
    """Begins the request that is left to expire."""
    return tour.begin(tour.config["wanted"], ["redirect"])


def expired(tour: Tour, grant: Grant, begun: float) -> None:
    """A user comes back to a page after its ten minutes:"""
    tour.browser.go(grant.interact["redirect"])
    tour.shows("before that the request can be decided", "Print Shop asks for access")
    time.sleep(max(0.0, begun + ROUND + 2 - time.monotonic()))
    tour.browser.click(ALLOW)
    tour.shows("afterwards it can't", "This request has ended")
    tour.picture("11-expired")
    tour.browser.go(grant.interact["redirect"])
    tour.shows("and its link shows nothing any more", "This request has ended")
