"""Random histories whose lines tell nonces and moments of signatures. There are few nonces, so that they repeat; the moments are at and around the end of a
signature's time, and go back; and lines come again as they were, later on. The answers are the model's.
"""

from calls import Server
from generated_histories import Generator
from json_forms import read_setup
from line_cases import replay_of
from machine import MARK_SECONDS
from records import Mark
from rights import compact
from scripts import Step

LATER = (0, 0, 0, 1, 5, MARK_SECONDS - 1, MARK_SECONDS, MARK_SECONDS + 1)
SEEDS = range(40)


class MarkedGenerator(Generator):
    repeated = 25  # of a hundred calls those that were sent before

    def __init__(self, seed):
        super().__init__(seed)
        self.server = Server(read_setup(compact(self.setup).encode()))
        self.sent = []

    def mark(self, at):
        """A nonce of few, and a moment that is mostly now, else so far from it that the signature is just or just not taken."""
        now = max(at, self.server.machine.now)
        created = now if self.chance(75) else max(0, now + self.random.choice((-1, 1)) * self.random.choice(LATER))
        return Mark(b"n%d" % self.random.randrange(10), created)

    def next_step(self):
        """A new call with its mark, or one that was sent before, as it was, at a moment around the end of its signature's time."""
        if self.sent and self.chance(self.repeated):
            call, key, value, body, mark = self.random.choice(self.sent)
            return max(0, mark.created + self.random.choice(LATER)), call, key, value, body, mark
        call, key, value, body = self.call()
        at = self.moment()
        mark = self.mark(at)
        self.sent.append((call, key, value, body, mark))
        return at, call, key, value, body, mark

    def hear(self, call, key, value, body, form):
        """Takes the answer to this call."""
        self.observer.see(self.server.machine.now, form)

    def lines(self, length):
        yield compact(self.setup)
        for _ in range(length):
            at, call, key, value, body, mark = self.next_step()
            _, form, reached = self.server.answer(at, [], call, key, value or "", body, mark)
            if reached:
                self.hear(call, key, value, body, form)
            yield Step(at, key, call, value, body, "").line(nonce=mark.nonce.decode(), created=mark.created)


def cases():
    for seed in SEEDS:
        yield replay_of("marked history %d" % seed, "\n".join(MarkedGenerator(seed).lines(24)).encode())
