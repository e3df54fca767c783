"""The grant machine, written from docs/MACHINE.md alone: what each call answers after the calls before it.

A `Machine` is handed a moment, 48 words and a call, and gives a `Reply`. It knows no JSON but for rights.
"""

import base64

from records import Ask, Decision, Grant, Round, Token
from rights import covers, served_part, serves

GRANT_SECONDS = 2_592_000
TOKEN_SECONDS = 3_600
DECISION_SECONDS = 600
ROUND_SECONDS = 1_200
POLL_SECONDS = 5
LIVE_LIMIT = 65_536
WRONG_LIMIT = 5
LETTERS = "BCDFGHJKLMNPQRSTVWXZ"
MARK_SECONDS = 300
UNREMEMBERED = ("cancel", "revoke")


class Reply:
    """What a call is answered with: a kind and its fields."""

    def __init__(self, kind, **fields):
        self.kind = kind
        self.__dict__.update(fields)


def refusal(code):
    return Reply("Error", code=code)


def value_text(serial, first, second):
    number = b"".join(part.to_bytes(8, "big") for part in (serial, first, second))
    return base64.urlsafe_b64encode(number).decode()


def code_text(number):
    digits = []
    for _ in range(8):
        number, digit = divmod(number, 20)
        digits.append(LETTERS[digit])
    return "".join(reversed(digits))


class Machine:
    def __init__(self, setup):
        self.setup = setup
        self.now = 0
        self.serial = 0
        self.words = []
        self.taken_words = 0
        self.grants = []
        self.doors = {}
        self.tokens = {}
        self.managed = {}
        self.remembered = {}

    def take_signed(self, moment, words, key, mark, call, *arguments):
        """The reply to a call that the key signed with this mark: the mark is looked at first, and it is remembered also where the call is refused."""
        self.now = max(self.now, moment)
        until = mark.created + MARK_SECONDS
        if until < self.now or self.now <= self.remembered.get((key, mark.nonce), -1):
            return refusal("invalid_client")
        if call not in UNREMEMBERED:
            self.remembered[key, mark.nonce] = until
        return self.take(moment, words, call, *arguments)

    def take(self, moment, words, call, *arguments):
        """The reply to a call, which is the name of a method below without its leading `call_`."""
        self.now = max(self.now, moment)
        self.words = list(words) + [0] * (48 - len(words))
        self.taken_words = 0
        return getattr(self, "call_" + call)(*arguments)

    # what stands at this moment

    def live_grants(self):
        return sum(grant.state(self.now) != "finalized" for grant in self.grants)

    def is_live(self, token):
        return not token.retired and self.now < token.until and token.grant.state(self.now) == "approved"

    def live_tokens(self, but=None):
        return sum(self.is_live(token) for token in self.tokens.values() if token.grant is not but)

    def named_grant(self, value):
        grant = self.doors.get(value)
        if grant and grant.door == value and grant.state(self.now) != "finalized":
            return grant
        return None

    def named_token(self, manage):
        token = self.managed.get(manage)
        if token and not token.replaced and token.grant.state(self.now) != "finalized":
            return token
        return None

    def live_interactions(self):
        return [grant for grant in self.grants
                if grant.state(self.now) == "pending" and not grant.round.decision and self.now < grant.round.until]

    def interaction_with(self, handle):
        return next((grant for grant in self.live_interactions() if grant.round.handle == handle), None)

    # drawing

    def draw(self):
        first, second = self.words[self.taken_words:self.taken_words + 2]
        self.taken_words += 2
        self.serial += 1
        return value_text(self.serial, first, second)

    def draw_code(self, taken):
        number = self.words[47] % 20 ** 8
        while code_text(number) in taken:
            number = (number + 1) % 20 ** 8
        return code_text(number)

    def new_door(self, grant):
        grant.door = self.draw()
        grant.earliest = self.now + POLL_SECONDS
        self.doors[grant.door] = grant
        return grant.door

    def issue(self, grant, key, ask):
        token = Token(grant, key, ask, self.now, min(self.now + TOKEN_SECONDS, grant.end), self.draw(), self.draw())
        self.tokens[token.value] = token
        self.managed[token.manage] = token
        return token

    def issue_all(self, grant, asks):
        tokens = [self.issue(grant, grant.key, ask) for ask in asks]
        return tokens, self.new_door(grant)

    def granted(self, grant, asks, subject=None, instance=None):
        grant.round = None
        tokens, door = self.issue_all(grant, asks)
        return Reply("Granted", now=self.now, tokens=tokens, door=door, single=grant.terms.single,
                     subject=subject, instance=instance)

    def pending(self, grant, modes, taken, instance=None):
        door = self.new_door(grant)
        handle = self.draw()
        nonce = self.draw() if modes.finish else None
        code = self.draw_code(taken) if modes.wants_code() else None
        until = min(self.now + DECISION_SECONDS, grant.end)
        grant.round = Round(modes, handle, code, nonce, until, self.now + ROUND_SECONDS)
        return Reply("Pending", now=self.now, door=door, round=grant.round, instance=instance)

    # settling

    def settle(self, key, request, consent):
        row = self.setup.client(key)
        auto, ask = (row.auto, row.ask) if row else ([], [])
        wanted = [right for one in request.asks for right in one.rights]
        if not request.subject and covers(auto + consent, wanted):
            return "granted"
        if covers(auto + consent + ask, wanted) and request.modes and request.modes.starts():
            return "asked"
        return "denied"

    # the client's calls

    def call_begin(self, key, request, not_after=None):
        course = self.settle(key, request, [])
        is_past = not_after is not None and not_after <= self.now
        if course == "denied" or is_past or self.live_grants() >= LIVE_LIMIT:
            return refusal("request_denied")
        if course == "granted" and self.live_tokens() + len(request.asks) > LIVE_LIMIT:
            return refusal("request_denied")
        taken = {grant.round.code for grant in self.live_interactions()}
        end = self.now + GRANT_SECONDS
        grant = Grant(key, request.user, end if not_after is None else min(end, not_after), request)
        self.grants.append(grant)
        instance = key if request.by_object else None
        if course == "granted":
            return self.granted(grant, request.asks, instance=instance)
        return self.pending(grant, request.modes, taken, instance)

    def grant_of(self, key, value):
        """The grant that the value names, where it is the key's; else the refusal."""
        grant = self.named_grant(value)
        if grant is None:
            return None, refusal("invalid_continuation")
        if grant.key != key:
            return None, refusal("invalid_client")
        return grant, None

    def finalize(self, grant, code):
        grant.ended = True
        return refusal(code)

    def call_continue(self, key, value, reference):
        grant, fault = self.grant_of(key, value)
        if fault:
            return fault
        approved = grant.state(self.now) == "approved"
        if reference is not None and approved:
            return self.finalize(grant, "too_many_attempts")
        if reference is None and self.now < grant.earliest:
            return refusal("too_fast")
        if approved:
            return Reply("Continuing", door=self.new_door(grant))
        return self.continue_round(grant, reference)

    def continue_round(self, grant, reference):
        current, decision = grant.round, grant.round.decision
        if not decision and self.now >= current.until:
            return self.finalize(grant, "invalid_interaction")
        if reference is None and current.modes.finish:
            return refusal("invalid_request")
        if reference is not None and (decision is None or decision.reference != reference):
            current.wrongs += 1
            if current.wrongs == WRONG_LIMIT:
                return self.finalize(grant, "too_many_attempts")
            return refusal("invalid_interaction")
        if not decision:
            return Reply("Continuing", door=self.new_door(grant))
        if decision.verdict == "deny":
            return self.finalize(grant, "user_denied")
        if decision.verdict == "unknown":
            return self.finalize(grant, "unknown_user")
        return self.collect(grant, decision)

    def collect(self, grant, decision):
        asks = []
        for ask in grant.terms.asks:
            left = [right for right in ask.rights if covers(decision.rights, [right])]
            if left:
                asks.append(Ask(left, ask.label, ask.bearer))
        if self.live_tokens() + len(asks) > LIVE_LIMIT:
            return refusal("request_denied")
        grant.consent = decision.rights
        subject = decision.subject if grant.terms.subject else None
        return self.granted(grant, asks, subject=subject)

    def call_modify(self, key, value, request):
        grant, fault = self.grant_of(key, value)
        if fault:
            return fault
        course = self.settle(key, request, grant.consent)
        if course == "denied":
            return refusal("request_denied")
        if course == "granted" and self.live_tokens(but=grant) + len(request.asks) > LIVE_LIMIT:
            return refusal("request_denied")
        # the code of a live round of this grant counts as taken while the new one is drawn
        taken = {one.round.code for one in self.live_interactions()}
        for token in self.tokens.values():
            if token.grant is grant:
                token.retired = token.replaced = True
        grant.terms = request
        if course == "granted":
            return self.granted(grant, request.asks)
        return self.pending(grant, request.modes, taken)

    def call_cancel(self, key, value):
        grant, fault = self.grant_of(key, value)
        if fault:
            return fault
        grant.ended = True
        return Reply("Done")

    def call_rotate(self, key, manage, new_key):
        token = self.named_token(manage)
        if token is None or not self.is_live(token):
            return refusal("invalid_rotation")
        if token.key != key:
            return refusal("invalid_client")
        if new_key is not None and (token.ask.bearer or self.setup.client(new_key) is None):
            return refusal("invalid_rotation")
        token.retired = token.replaced = True
        return Reply("Rotated", now=self.now, token=self.issue(token.grant, key if new_key is None else new_key, token.ask))

    def call_revoke(self, key, manage):
        token = self.named_token(manage)
        if token is None:
            return refusal("invalid_request")
        if token.key != key:
            return refusal("invalid_client")
        token.retired = True
        return Reply("Done")

    # the resource server's call

    def call_introspect(self, server, value, binding, wanted):
        names = self.setup.served_by(server)
        if wanted and not all(serves(names, right) for right in wanted):
            return refusal("invalid_access")
        token = self.tokens.get(value)
        if token is None or not self.is_live(token):
            return Reply("Inactive")
        access = served_part(token.ask.rights, names)
        bound = "bearer" if token.ask.bearer else "httpsig"
        if not access or binding not in (None, bound) or (wanted and not covers(token.ask.rights, wanted)):
            return Reply("Inactive")
        return Reply("Active", token=token, access=access)

    # the consent front's calls

    def call_look(self, handle):
        grant = self.interaction_with(handle)
        if grant is None:
            return refusal("unknown_interaction")
        return Reply("Shown", grant=grant, expires_in=grant.round.until - self.now)

    def call_find_code(self, code):
        for grant in self.live_interactions():
            if grant.round.code == code:
                return Reply("Handle", handle=grant.round.handle)
        return refusal("unknown_interaction")

    def call_decide(self, handle, verdict, rights, subject):
        grant = self.interaction_with(handle)
        if grant is None:
            return refusal("unknown_interaction")
        asked = grant.asked_rights()
        if verdict == "grant" and rights is not None and not covers(asked, rights):
            return refusal("invalid_request")
        finish = grant.round.modes.finish
        reference = self.draw() if finish else None
        grant.round.decision = Decision(verdict, asked if rights is None else rights, subject, reference)
        return Reply("Decided", finish=finish, nonce=grant.round.nonce, reference=reference)
