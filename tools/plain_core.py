"""The core as plain lists and dictionaries: which steps of its callers are allowed, and what they do, over the first base of documents.

Entries are operations that leave the store of no documents: none (kind 0), `next` (5) and `count` (6) without a key."""

MARK = 2 ** 32
NO_NEED = 2 ** 64 - 1
TOP = 2 ** 40
WORD = 2 ** 64
OP_WORDS = 144
CELL_WORDS = 145
SET_WORDS = 513
GAP_SLOTS = 512
SLOT_WORDS = 16
LINE = 8
CELLS = 16
SLOTS = 8
OBJECT_START = 8 + CELL_WORDS * SLOTS
VERSION = 2

# The first word of the reply to each kind of entry in a store of no documents.
REPLY_KINDS = {0: 0, 5: 4, 6: 11}


class Caller:
    """What one caller knows and did."""

    def __init__(self, number):
        self.number = number
        self.front = 0
        self.own = []
        self.answered = 0
        self.cells = [{"words": {}, "ticket": None, "set": {}, "offer": 0} for _ in range(CELLS)]
        self.seen_slot = None
        self.seen_offer = None
        self.seen_free = 0
        self.seen_cur = 0
        self.fresh = False
        self.exclusive = None
        self.shared = None
        self.loaded = set()
        self.passer = None
        self.downgraded = None
        self.won = None
        self.raised = 0
        self.protection = None
        self.confirmed = False
        self.scan = None

    def next_number(self):
        return len(self.own) + 1

    def tickets(self):
        return [ticket for ticket, _ in self.own]


class Core:
    """The shared words and the callers. `step` makes an event, where its guard holds."""

    def __init__(self, callers, lines):
        self.n = callers
        self.q = CELLS * callers
        self.slots = GAP_SLOTS * callers
        self.region = 8 * (146 + lines)
        self.base = [0] * self.region
        self.base[OBJECT_START] = VERSION
        self.base[OBJECT_START + 3] = 1
        self.cur = self.dur = self.low = self.free = 0
        self.need = [NO_NEED] * callers
        self.lock = [1] + [0] * (2 * callers - 1)
        self.links = [0] * self.q
        self.offer_words = [0] * self.q
        self.vol = {}
        self.held = {}
        self.callers = [Caller(c) for c in range(callers)]
        self.history = []
        self.images = {0: tuple(self.base)}

    # ---- codes and images

    def place_of(self, code):
        return code // (2 * self.n)

    def replica_of(self, code):
        return code % (2 * self.n)

    def ticket_in(self, word):
        return (word - 1) // self.q

    def words_of(self, r):
        """The words of a replica, as loads give them."""
        if r not in self.vol:
            self.vol[r] = list(self.base)
        return self.vol[r]

    def image(self, place):
        """The full image after a place of the history."""
        if place not in self.images:
            words = list(self.image(place - 1))
            caller, number, kind = self.history[place - 1]
            words[0] = place
            at = 8 + CELL_WORDS * caller
            words[at:at + CELL_WORDS] = [number, REPLY_KINDS.get(kind, 0)] + [0] * (OP_WORDS - 1)
            self.images[place] = tuple(words)
        return self.images[place]

    def is_full(self, words):
        return words[0] <= len(self.history) and tuple(words) == self.image(words[0])

    def is_write_set(self, cell):
        """Whether the set in a cell leads from the full image at the cell's ticket to the next."""
        at = cell["set"].get
        count = at(0, 0)
        words = list(self.image(cell["ticket"]))
        if count > 256:
            return False
        for m in range(count):
            address = at(2 * m + 1, 0)
            if address >= self.region:
                return False
            words[address] = at(2 * m + 2, 0)
        return tuple(words) == self.image(cell["ticket"] + 1)

    def is_gap(self, s, word):
        """Whether a word of slot `s` of the ring of gaps names a gap: lines strictly between two, which its ticket leaves as they are."""
        ticket = word // 2**34 * self.slots + s
        first, last = word // 2**17 % 2**17, word % 2**17
        if first + 1 >= last:
            return True
        if ticket >= len(self.history):
            return False
        between = slice(LINE * (first + 1), LINE * last)
        return self.image(ticket)[between] == self.image(ticket + 1)[between]

    # ---- rights

    def rights(self, l):
        held = [l.exclusive, l.shared, l.passer]
        held.append(l.downgraded and l.downgraded[0])
        held.append(l.won and self.replica_of(l.won[1]))
        return [r for r in held if r is not None]

    def may_try(self, l, r):
        rights = self.rights(l)
        return r < 2 * self.n and len(rights) <= 1 and r not in rights

    def may_give_up(self, l, r):
        return (r < 2 * self.n and l.exclusive == r and l.downgraded is None
                and not self.held[r] and self.is_full(self.words_of(r)))

    def may_read(self, l, t, k):
        return (t < l.front and l.seen_slot == (t % self.q, t * self.q + k + 1) and k < self.q
                and l.confirmed and l.protection <= t)

    def own_cell(self, l, j):
        """The cell, where it has an own entry that is not offered yet."""
        if j >= CELLS:
            return None
        cell = l.cells[j]
        if cell["ticket"] not in l.tickets() or cell["offer"] == cell["ticket"] + 1:
            return None
        return cell

    def is_idle(self, l, j):
        return j < CELLS and (l.cells[j]["ticket"] is None or l.cells[j]["ticket"] < l.seen_free)

    # ---- steps: each answers whether its guard holds, and then it is made

    def step(self, caller, kind, arguments):
        return caller < self.n and getattr(self, kind)(self.callers[caller], *arguments)

    def write_cell(self, l, j, i, v):
        if not (i < CELL_WORDS and self.is_idle(l, j)):
            return False
        l.cells[j]["words"][i] = v
        l.cells[j]["ticket"] = None
        l.fresh = False
        return True

    def link(self, l, j):
        # `seen_slot` is the slot of the front, never used or with the ticket before
        if not self.is_idle(l, j) or l.cells[j]["words"].get(0, 0) != l.next_number() or l.front >= TOP:
            return False
        t = l.front
        if l.seen_slot is None or l.seen_slot[0] != t % self.q or l.answered != len(l.own):
            return False
        word = l.seen_slot[1]
        if word != 0 and self.ticket_in(word) + self.q != t:
            return False
        found = self.links[t % self.q]
        if found == word:
            self.links[t % self.q] = t * self.q + CELLS * l.number + j + 1
            words = l.cells[j]["words"]
            l.own.append((t, words.get(0, 0)))
            l.cells[j]["ticket"] = t
            l.front = t + 1
            # words behind the kind that are not 0 are no operation's here
            kind = 0 if any(word for i, word in words.items() if i > 1) else words.get(1, 0)
            self.history.append((l.number, words.get(0, 0), kind))
        elif found != 0:
            l.front = max(l.front, self.ticket_in(found) + 1)
        return True

    def look(self, l, s):
        if s >= self.q:
            return False
        found = self.links[s]
        l.seen_slot = (s, found)
        if found != 0:
            l.front = max(l.front, self.ticket_in(found) + 1)
        return True

    def read_cell(self, l, t, k, i):
        return i < CELL_WORDS and self.may_read(l, t, k)

    def load_free(self, l):
        l.seen_free = max(l.seen_free, self.free)
        return True

    def try_exclusive(self, l, r):
        if not self.may_try(l, r) or l.exclusive is not None:
            return False
        if self.lock[r] == 0:
            self.lock[r] = MARK
            l.exclusive = r
            self.held[r] = set()
        return True

    def try_shared(self, l, r):
        if not self.may_try(l, r) or l.shared is not None or l.passer is not None:
            return False
        if self.lock[r] < MARK:
            l.shared, l.loaded = r, set()
        else:
            l.passer = r
            if l.fresh and self.replica_of(l.seen_cur) == r:
                l.fresh = False
        self.lock[r] += 1
        return True

    def back_off(self, l, r):
        if r >= 2 * self.n:
            return False
        if l.shared == r:
            l.shared = None
        elif l.passer == r:
            l.passer = None
        elif l.downgraded is not None and l.downgraded[0] == r:
            l.downgraded = None
        else:
            return False
        self.lock[r] -= 1
        return True

    def downgrade(self, l, r):
        if not self.may_give_up(l, r):
            return False
        self.lock[r] -= MARK - 1
        l.exclusive = None
        l.downgraded = (r, self.words_of(r)[0])
        del self.held[r]
        return True

    def release_exclusive(self, l, r):
        if not self.may_give_up(l, r):
            return False
        self.lock[r] -= MARK
        l.exclusive = None
        del self.held[r]
        return True

    def load_word(self, l, r, i, refused=False):
        if not (r < 2 * self.n and i < self.region and r in (l.exclusive, l.shared)):
            return False
        found = self.words_of(r)[i]
        if refused:
            if i != 0 or l.shared != r or not l.fresh or self.replica_of(l.seen_cur) != r or found == self.place_of(l.seen_cur):
                return False
            l.fresh = False
        if l.shared == r:
            l.loaded.add((i, found))
        return True

    def store_word(self, l, r, i, v):
        if not (r < 2 * self.n and i < self.region and l.exclusive == r):
            return False
        self.words_of(r)[i] = v
        self.held[r].add(i)
        return True

    def persist(self, l, r, i):
        if not (r < 2 * self.n and l.exclusive == r and i in self.held[r]):
            return False
        self.held[r].discard(i)
        return True

    def load_cur(self, l):
        l.seen_cur = self.cur
        l.front = max(l.front, self.place_of(self.cur))
        l.fresh = True
        return True

    def publish(self, l):
        if l.downgraded is None or l.downgraded[1] <= self.place_of(l.seen_cur) or l.won is not None:
            return False
        r, place = l.downgraded
        if self.cur == l.seen_cur:
            self.cur = place * 2 * self.n + r
            l.won = (self.cur, l.seen_cur)
            l.downgraded = None
        l.seen_cur = self.cur
        l.front = max(l.front, self.place_of(self.cur))
        l.fresh = False
        return True

    def raise_(self, l, code, reads=False):
        if code != l.seen_cur and (l.won is None or code != l.won[0]):
            return False
        if reads and not (code == l.seen_cur and l.fresh and l.shared == self.replica_of(code)
                          and (0, self.place_of(code)) in l.loaded):
            return False
        self.dur = max(self.dur, code)
        l.raised = max(l.raised, code)
        if l.answered < len(l.own) and l.own[l.answered][0] < self.place_of(code):
            l.answered += 1
        l.fresh = False
        return True

    def retire(self, l):
        if l.won is None or l.won[0] > l.raised:
            return False
        self.lock[self.replica_of(l.won[1])] -= 1
        l.won = None
        return True

    def protect(self, l, p):
        if l.protection is not None or p > TOP:
            return False
        self.need[l.number] = p
        l.protection, l.confirmed = p, False
        return True

    def confirm(self, l):
        if l.protection is None or l.confirmed:
            return False
        if self.low <= l.protection:
            l.confirmed = True
        elif l.protection >= self.place_of(l.seen_cur):
            l.fresh = False
        return True

    def unprotect(self, l):
        if l.protection is None:
            return False
        self.need[l.number] = NO_NEED
        l.protection, l.confirmed = None, False
        return True

    def close_low(self, l, target):
        if target > self.place_of(l.seen_cur) or l.scan is not None:
            return False
        self.low = max(self.low, target)
        l.scan = (target, 0)
        return True

    def scan(self, l, d):
        if l.scan is None or l.scan[1] != d or d >= self.n:
            return False
        l.scan = (min(l.scan[0], self.need[d]), d + 1)
        return True

    def open_free(self, l):
        if l.scan is None or l.scan[1] != self.n:
            return False
        self.free = max(self.free, l.scan[0])
        l.seen_free = max(l.seen_free, self.free)
        l.scan = None
        l.fresh = False
        return True

    def write_set(self, l, j, i, v):
        cell = self.own_cell(l, j)
        if cell is None or i >= SET_WORDS:
            return False
        cell["set"][i] = v
        return True

    def offer(self, l, j):
        cell = self.own_cell(l, j)
        if cell is None or not self.is_write_set(cell):
            return False
        cell["offer"] = cell["ticket"] + 1
        self.offer_words[CELLS * l.number + j] = cell["offer"]
        return True

    def load_offer(self, l, k, t):
        if not self.may_read(l, t, k):
            return False
        l.seen_offer = (k, t, self.offer_words[k])
        return True

    def read_set(self, l, k, t, i):
        return i < SET_WORDS and self.may_read(l, t, k) and l.seen_offer == (k, t, t + 1)

    def note_gap(self, l, s, i, v):
        return self.load_gap(l, s, i) and self.is_gap(s, v)

    def load_gap(self, l, s, i):
        return s < self.slots and i < SLOT_WORDS

    # ---- crashes

    def codes_left(self):
        """The codes on the way of the wins from DUR up to CUR."""
        over = {l.won[1]: l.won[0] for l in self.callers if l.won is not None}
        codes = [self.dur]
        while codes[-1] in over:
            codes.append(over[codes[-1]])
        return codes

    def place_left(self, choice):
        """The place that is recovered by a choice: that of one of these codes."""
        codes = self.codes_left()
        return self.place_of(codes[choice % len(codes)])
