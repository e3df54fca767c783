"""What people read where something didn't work."""

ENDED = (
    "This request has ended",
    "It was decided already, its time is over, or the application took it back. Nothing was shared by opening this page. "
    "If you still want it, begin again in the application.",
)
UNREACHABLE = (
    "The server can't be reached",
    "Nothing was decided. Please try again in a moment.",
)
NOT_TAKEN = (
    "The server didn't take this",
    "Nothing was decided. Go back to the application and begin again; if it happens once more, tell those who run this page.",
)
OLD_FORM = (
    "This form can't be used any more",
    "It is too old, or it came from another page. Nothing was decided. Open the link of the application again.",
)
NOT_HERE = ("There is no such page", "The address may be incomplete. Open the link of the application again.")
FAULT = ("Something went wrong here", "It isn't your fault, and nothing more was done. Please try again in a moment.")

NOT_SIGNED_IN = (
    "You aren't signed in",
    "This page is told who you are by the sign-in before it, and was told of nobody. Sign in there, and open the link again.",
)

NOTHING_CHOSEN = "Nothing is ticked. Tick what you want to allow, or choose Allow all or Deny."
CODE_UNKNOWN = "No request waits under this code. Look at your device again: a code can be used once, and for ten minutes."
CODE_FORM = "A code has eight letters, such as BCDF-GHJK. It has no vowels and no digits."
TOO_MANY_CODES = "Too many codes were wrong. Please wait ten minutes."

ALLOWED = "You allowed it"
DENIED = "You denied it"
UNKNOWN = "You said that you aren't the one"
TOLD = "The application knows of it now. You can close this page and go on there."
WILL_ASK = "You can close this page and go back to your device: the application there asks for your decision within a few seconds."
NOT_TOLD = "Your decision is kept, but the application couldn't be told of it. Go back to the application."
WRONG_PLACE = (
    "Your decision is kept, but the application wants you to be sent to an address that isn't known to be its own, so you stay here. "
    "Don't go on with it if you don't know it well."
)


def gives_more(names: list[str]) -> str:
    """Why a choice can't be granted as it is: it gives more than what was ticked."""
    return f"What you ticked includes this as well: {', '.join(names)}. Tick that too, or untick what includes it."
