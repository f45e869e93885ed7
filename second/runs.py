"""Random and hostile runs: each has a page of its own, a book of the records answered so far, and makes calls."""

from second import bends, layout, requests, scenes, script
from second.script import Call

PLAYS = (
    (12, "advance"),
    (5, "again"),
    (8, "history"),
    (4, "cut"),
    (6, "look"),
    (8, "restart"),
    (5, "opening"),
    (16, "edge"),
    (36, "bent"),
)


class Run:
    """One page with its key, and what a host could have kept of it."""

    def __init__(self, chance, strangers, wide):
        self.chance = chance
        self.strangers = strangers  # records under other keys
        self.wide = wide
        self.key = chance.weighed(((20, chance.bytes(32)), (1, bytes(32)), (1, b"\xff" * 32)))
        self.page = layout.page_bytes(layout.ZERO_SUMMARY, self.key)
        self.current = b""
        self.book = []
        self.steps = []  # record and request of each perform that moved the page

    def make(self, call):
        """Makes a call and notes the record that it answers, if it is one under this page's key."""
        made = script.make(call)
        if call.letter in "opr" and made.answer.number == 0 and layout.page_key(call.buffers["page"]) == self.key:
            self.book.append(bytes(made.after["answer"][: layout.RECORD_SIZE]))
        return made

    def keep(self, made):
        """Takes over the page and the record of a perform, if it was accepted."""
        if made.answer.number == 0:
            self.page = bytes(made.after["page"])
            self.current = self.book[-1]
            self.steps.append((made.call.buffers["record"], made.call.buffers["request"]))

    def racks(self):
        """The racks of the current record."""
        return layout.read_state(layout.read_record(self.current).state)

    def step(self, letter, record, request):
        """A perform or a repeat on the page as it is."""
        answer = scenes.answer_buffer(self.chance)
        return Call(letter, {"page": self.page, "record": record, "request": request, "answer": answer})

    def calls(self, count):
        """Makes calls, about so many."""
        yield from self.start()
        made = 0
        while made < count:
            for each in getattr(self, self.chance.weighed(PLAYS))():
                made += 1
                yield each

    def start(self):
        """Begins with open, or on a page and a record from the middle of some history."""
        first = self.make(scenes.some_call(self.chance, "o", self.key))
        self.current = self.book[-1]
        yield first
        if self.chance.once_in(2):
            self.current = scenes.some_record(self.chance, self.key)
            self.page = layout.page_bytes(layout.read_record(self.current).summary, self.key)
            self.book.append(self.current)

    def advance(self):
        """A perform of a request that can be carried out; the page moves on."""
        made = self.make(self.step("p", self.current, requests.fitting(self.chance, self.racks())))
        self.keep(made)
        yield made

    def again(self):
        """A repeat of the perform that moved the page last."""
        if self.steps:
            yield self.make(self.step("r", *self.steps[-1]))

    def history(self):
        """A record of before, or the current one for repeat, offered as if it were the one to go on from."""
        request = requests.fitting(self.chance, self.racks())
        old = self.chance.one(self.book)
        steps = [("p", old, request), ("r", old, request), ("r", self.current, request)]
        if self.steps:
            steps += [("p", *self.steps[-1]), ("r", *self.chance.one(self.steps)), ("r", *self.chance.one(self.steps))]
        yield self.make(self.step(*self.chance.one(steps)))

    def cut(self):
        """A perform cut off with the page of before or of after, and then perform and repeat with the same parts."""
        record, request = self.current, requests.fitting(self.chance, self.racks())
        cut = self.make(self.step("p", record, request))
        yield cut
        moved = self.chance.once_in(2)
        if moved:
            self.keep(cut)
        if self.chance.once_in(2):
            yield self.make(Call("u", {"page": self.page, "ram": record, "disk": self.chance.one(self.book)}))
        for letter in self.chance.one(("pr", "rp", "prr", "rpr")):
            made = self.make(self.step(letter, record, request))
            if letter == "p":
                self.keep(made)
            yield made

    def look(self):
        """A view of the current record."""
        yield self.make(Call("v", {"page": self.page, "record": self.current}, self.chance.below(layout.RACKS)))

    def candidate(self):
        """What may lie in RAM or on disk at a restart."""
        return self.chance.weighed((
            (5, self.current),
            (2, self.chance.one(self.book)),
            (1, b""),
            (2, bends.part(self.chance, self, "ram", self.current)),
        ))

    def restart(self):
        """A resume over the records that a host may still have."""
        yield self.make(Call("u", {"page": self.page, "ram": self.candidate(), "disk": self.candidate()}))

    def opening(self):
        """An open on a fresh page, on the page as it is, or on one whose summary is zero but for a bit."""
        fresh = layout.page_bytes(layout.ZERO_SUMMARY, self.key)
        almost = bends.flipped(fresh, self.chance.below(8 * layout.SUMMARY_SIZE))
        page = self.chance.one((fresh, self.page, almost))
        yield self.make(Call("o", {"page": page, "answer": scenes.answer_buffer(self.chance)}))

    def edge(self):
        """A step at the edge of the charge rules; the run may go on from it."""
        made = self.make(scenes.tight_step(self.chance, self.chance.one("ppr"), self.key))
        if made.call.letter == "p" and self.chance.once_in(4):
            self.keep(made)
        yield made

    def good(self, letter):
        """A call of this letter on this run's page where that can be, else on one of its own, accepted as it stands."""
        if letter == "p" and self.chance.once_in(2):
            return self.step("p", self.current, requests.fitting(self.chance, self.racks()))
        if letter == "r" and self.steps and self.chance.once_in(2):
            return self.step("r", *self.steps[-1])
        if letter in "pr" and self.chance.once_in(3):
            return scenes.tight_step(self.chance, letter, self.key)
        return scenes.some_call(self.chance, letter, self.key)

    def bent(self):
        """A call with something bent in it."""
        letter = self.chance.weighed(((2, "o"), (6, "p"), (6, "r"), (4, "v"), (2, "u")))
        yield self.make(bends.call(self.chance, self, self.good(letter)))


def runs(chance, count, wide):
    """Calls of one run after the other, at least so many; with wide, some buffers are longer than 65,536 bytes."""
    strangers = [scenes.some_record(chance, chance.bytes(32))]
    made = 0
    while made < count:
        run = Run(chance, strangers[-8:], wide)
        for each in run.calls(chance.between(5, 80)):
            made += 1
            yield each
        strangers.append(run.current)
