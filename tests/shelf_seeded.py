"""Shelf listings from a seed: the sessions of seeded.py with batches and bursts (document 02, W4), with parts of states (W6),
with queues (W8), with settings files (W11) and with logs (W13) among their lines, and most of them with two managers (W12).

A batch is aimed as single writes are, at the edges of ranges and units, by one controller or a few; often one of its notes
will be refused, in a random place. Parts come in sequences, mostly sensible ones of small states, with other lines, spoiled
parts and other controllers' between them. Queues are small, mostly, so that they go round and close; a few posts or a few
takes come at a time. Settings files hold the device's own settings or others; some are damaged, and what is saved is mostly
read again. A manager mostly asks for what it tracks itself, at times for what the other one does, and rarely it is no manager at
all. Listing K of seed N is always the same. A later request adds its lines to `kinds`.
"""

import random

import damaged
from batches import MOST_BURST, MOST_BYTES, MOST_LISTED, MOST_TAKEN, bad_note, batch_line, burst_line, line_of_bytes
from case import Case
from logs import log_line
from managers import TOLD, dev2_line
from parts import WORD, any_state, next_part, part_line, spoiled
from queues import CLOSING, ENTRY, MOST_BUFFER, MOST_PLACES, MOST_SIZE, WRONG_ENTRIES, WRONG_SIZES
from queues import Queue, any_entry, make_line, places_of, post_line, take_line
from seeded import Maker, lines_of
from settings_files import MOST_LIMIT, Settings, any_settings, broken, damaged_file, file_of, reader_line, save_line, spoiled_settings

FEW = [0, 1, 1, 2, 2, 3, 3, 4, 5, 8, 8, 13, 20, 40]
ABOUT_THE_MOST = [MOST_TAKEN - 1, MOST_TAKEN, MOST_TAKEN, MOST_TAKEN + 1, MOST_TAKEN + 1, MOST_LISTED, MOST_LISTED + 1]
WORDS = [b"batch", b"burst", b"part", b"queue", b"post", b"take", b"old", b"new", b"save", b"dev2", b"by", b"log", b"write", b"batches"]
MOSTS = (MOST_TAKEN, MOST_LISTED, MOST_BURST, ENTRY, 2 * ENTRY, MOST_PLACES * ENTRY, MOST_SIZE, MOST_BUFFER)
NUMBERS = [b"%d" % (most + more) for most in MOSTS for more in (-1, 0, 1)]
NUMBERS += [b"-", b"00000000", b"0000000A", CLOSING.hex().encode(), CLOSING.hex().upper().encode(), CLOSING.hex().encode()[2:]]


def cases(seed, count):
    return [Case(f"seed {seed}, listing {number}", listing(seed, number)) for number in range(count)]


def listing(seed, number):
    return lines_of(ShelfMaker(random.Random(f"shelf {seed}/{number}")))


def damage(dice, line):
    """A session's damage mostly; else the words, numbers and lengths of shelf listings, or `by` before any line."""
    return dice.choice([damaged.damage] * 16 + [other_word, other_word, other_number, other_number, other_length, said_by, said_by])(dice, line)


def other_word(dice, line):
    return b" ".join([dice.choice(WORDS), *line.split(b" ")[1:]])


def other_number(dice, line):
    words = line.split(b" ")
    words[dice.randrange(len(words))] = dice.choice(NUMBERS)
    return b" ".join(words)


def said_by(dice, line):
    """By any manager, also where the line may have none or has one."""
    return b"by %d %b" % (dice.choice([0, 1, 2, 3, 65535]), line)


def other_length(dice, _line):
    """A batch about the greatest length of a line, whose last note may mark something."""
    last = (dice.choice([5, 6, 7, 255]), dice.choice([0, 65536]), dice.choice([1, 2 ** 32]))
    return line_of_bytes(MOST_BYTES + dice.choice([-1, 0, 0, 1, 2]), last[0], last).encode()


class ShelfMaker(Maker):
    damage = staticmethod(damage)

    def __init__(self, dice):
        super().__init__(dice)
        self.owner, self.state, self.sent = None, b"", 0  # guess: whose state is on its way, and how many bytes were sent
        self.queues = {}                                  # guess: identifier -> queue
        self.logging = dice.choice([4, 20, 20, 60])       # how often lines of queues come
        self.trackers = {}                                # guess: identifier -> the manager that tracks it
        self.stopped = set()                              # guess: those that stopped and whose log was not asked for since
        self.by = None                                    # who makes the next start, and who made the last call
        self.telling = dice.choice([0, 0.2, 1])           # how often the first manager says who it is

    # ---- dev2, by

    def dev(self):
        """With one manager, by `dev` or `dev2`, or with two; often there is little left of some limit."""
        self.queues, self.trackers, self.stopped = {}, {}, set()
        line = super().dev()
        self.second, self.limit2, self.shelf = self.manager, 0, MOST_LIMIT
        if self.dice.random() < 0.3:
            return line
        if self.dice.random() < 0.85:
            self.second = self.dice.choice([name for name in (0, 1, 2, 4, 9, 258, 65533, 65534, 65535) if name not in (self.manager, *self.identifiers)])
            self.limit2 = self.dice.choice([0, 1, 2, 4, 16, 16, 33, 64, 128, 128])
        sums = [self.limit, self.limit2, self.limit + self.limit2 - 1, (self.limit + self.limit2) // 2]
        self.shelf = max(0, min(MOST_LIMIT, self.dice.choice([1, 3, 16, 18, *sums, *[MOST_LIMIT] * 6])))
        return dev2_line(self.device()).encode()

    def device(self):
        """The device's own settings."""
        return Settings(self.manager, self.least, self.greatest, self.rule, self.limit, self.second, self.limit2, self.shelf, tuple(self.identifiers))

    def refused_dev(self):
        if self.dice.random() < 0.4:
            return super().refused_dev()
        one = self.device()
        while not broken(one):
            one = spoiled_settings(self.dice, one)
        return dev2_line(one).encode()

    def any_manager(self):
        """One of the device's, rarely a controller or a stranger."""
        luck = self.dice.random()
        return self.dice.choice([*self.identifiers, 0, 3, 9, 65535, (self.second + 256) % 65536]) if luck < 0.03 else self.manager if luck < 0.5 else self.second

    def words(self, word, *numbers):
        line = super().words(word, *numbers)
        return self.told(line, word, numbers[0]) if word in TOLD else line

    def told(self, line, word, name):
        """The line by a manager: of a stop and a receive mostly the one that tracks. The first one need not be said."""
        if word != "start":
            self.by = self.trackers[name] if word in ("stop", "recv") and name in self.trackers and self.dice.random() < 0.85 else self.any_manager()
        return line if self.by == self.manager and self.dice.random() >= self.telling else b"by %d %b" % (self.by, line)

    def start(self):
        before, self.by = set(self.tracked), self.any_manager()
        line = super().start()
        self.trackers.update({name: self.by for name in set(self.tracked) - before})
        return line

    def stop(self, kept=None):
        before = dict(self.tracked)
        line = super().stop(kept)
        for name in set(before) - set(self.tracked):
            if self.trackers.get(name) != self.by:
                self.tracked[name] = before[name]
            else:
                self.stopped.add(name)
        return line

    def within_limits(self, count):
        limit = {self.second: self.limit2, self.manager: self.limit}.get(self.by, 0)
        own = sum(len(ranges) for name, (_, ranges) in self.tracked.items() if self.trackers.get(name) == self.by)
        return count + own <= limit and count + sum(len(ranges) for _, ranges in self.tracked.values()) <= self.shelf

    def kinds(self):
        batches = [(self.batch, 30 if self.tracked else 3), (self.burst, 8 if self.tracked else 2)]
        parts = [(self.parts, 30 if self.owner in self.suspended else 10 if self.tracked else 16)]
        missing = len(self.identifiers) - len(self.queues)
        queues = [(self.make, max(1, self.logging // 3 if missing else 0)), (self.posts, self.logging), (self.takes, self.logging)]
        settings, logs = [(self.settings_lines, 5)], [(self.logs, 60 if self.stopped else 20 if self.tracked else 6)]
        return super().kinds() + batches + parts + settings + logs + (queues if self.queues else queues[:1] + [(self.posts, 1), (self.takes, 1)])

    # ---- batch

    def batch(self):
        records = self.notes(self.dice.choice(FEW))
        if self.dice.random() < 0.35:
            for _ in range(self.dice.choice([1, 1, 1, 2, 3])):
                records.insert(self.dice.randrange(len(records) + 1), self.bad_note())
        if self.dice.random() < 0.02:
            records = self.many(records)
        return batch_line(records).encode()

    def many(self, records):
        """About as many records as a batch may have. The shortest are said again and again, so that most fit a line."""
        short = sorted(records or [self.bad_note()], key=lambda record: len(batch_line([record])))[:self.dice.choice([1, 2, 5])]
        return (short * max(ABOUT_THE_MOST))[:self.dice.choice(ABOUT_THE_MOST)]

    def notes(self, count):
        """So many notes, or a few more, of one controller, two or three; some of them in another unit each."""
        writers = [self.writer() for _ in range(self.dice.choice([1, 1, 2, 3]))]
        records = []
        while len(records) < count:
            identifier = self.dice.choice(writers)
            ranges = self.scattered(identifier) if self.dice.random() < 0.2 else [self.aimed(identifier)]
            records += [(identifier, *one) for one in ranges]
        return records

    def bad_note(self):
        dice, note = self.dice, self.notes(1)[0]
        unknown = dice.choice([self.manager, self.second, (note[0] + 1) % 65536, 4])
        suspended = dice.choice(sorted(self.suspended) or [note[0]])
        return bad_note(dice, note, unknown, suspended)

    # ---- burst

    def burst(self):
        many = [MOST_TAKEN - 1, MOST_TAKEN, MOST_TAKEN + 1, MOST_BURST, MOST_BURST + 1]
        count = self.dice.choice(many if self.dice.random() < 0.1 else [0, 1, 2, 3, 5, 16, 100])
        record = self.bad_note() if self.dice.random() < 0.2 else self.notes(1)[0]
        return burst_line(count, record).encode()

    # ---- part

    def parts(self):
        """A part or a few of the state on its way, or of one that begins; rarely of a controller that isn't suspended."""
        lines = []
        if self.owner not in self.suspended:
            self.owner, self.state, self.sent = self.identifier(self.suspended), any_state(self.dice), 0
            lines += [*self.suspended_too(self.owner, 0.9), *self.suspended_too(self.identifier(), 0.4)]
        for _ in range(self.dice.choice([1, 1, 2, 3, 5])):
            one = self.part()
            lines.append(self.told(part_line(one).encode(), "part", one.id))
            if self.owner is None:
                break
        return lines

    def suspended_too(self, identifier, share):
        """The line that suspends a controller which runs, so often; or none."""
        if identifier not in self.identifiers or identifier in self.suspended or self.dice.random() > share:
            return []
        self.suspended.add(identifier)
        return [self.words("susp", identifier, 1)]

    def part(self):
        """The next one of the state, as it should be; or else spoiled, of another controller, or the first of another state."""
        dice, good = self.dice, next_part(self.dice, self.owner, self.state, self.sent)
        luck = dice.random()
        if luck < 0.2:
            return spoiled(dice, good)
        if luck < 0.28:
            return good._replace(id=self.identifier(self.suspended - {self.owner}))
        if luck < 0.31:
            return next_part(dice, self.owner, any_state(dice), 0)
        self.sent += len(good.data)
        if good.indicator > 1:  # a last or an only one: nothing is on its way
            self.owner = None
        return good

    # ---- queue, post, take

    def make(self):
        """A queue of few places, mostly, for one that has none or whose own is stopped; rarely of a wrong size."""
        dice = self.dice
        done = {name for name, queue in self.queues.items() if not queue.stopped}
        name = self.identifier(set(self.identifiers) - done if dice.random() < 0.9 else self.identifiers)
        size = dice.choice(WRONG_SIZES) if dice.random() < 0.06 else ENTRY * dice.choice([2, 2, 3, 3, 4, 5, 6, 8, 16, 33, 1023, 1024])
        if name in self.identifiers and places_of(size):
            self.queues[name] = Queue(places_of(size))
        return make_line(name, size).encode()

    def posts(self):
        """A few entries of one controller; rarely of a wrong length."""
        name, size = self.logged(lambda queue: not queue.stopped)
        queue, lines = self.queues.get(name), []
        for _ in range(self.dice.choice([1, 1, 2, 3, 4, 6])):
            good = self.dice.random() < 0.95
            entry = any_entry(self.dice) if good else self.dice.randbytes(self.dice.choice(WRONG_ENTRIES))
            if good and queue and not queue.stopped and ENTRY * queue.places == size:
                queue.post(entry)
            lines.append(post_line(name, size, entry).encode())
        return lines

    def takes(self):
        """A take or a few of one controller: for less than is queued, for all, or for more; with room for some, or for none."""
        dice, (name, size) = self.dice, self.logged(lambda queue: queue.queued)
        queue, lines = self.queues.get(name), []
        for _ in range(dice.choice([1, 1, 1, 2, 3])):
            queued = len(queue.queued) if queue else 0
            asked = dice.choice([0, 1, 1, 2, 3, max(0, queued - 1), queued, queued + 1, 128, WORD - 1])
            room = dice.choice([1, 1, 2, 3, queued, queued, queued + 1, 128])
            buffer = max(0, min(MOST_BUFFER, ENTRY * room + dice.choice([-1, 0, 0, 0, 1, 31])))
            if queue and ENTRY * queue.places == size:
                queue.take(asked, buffer)
            lines.append(take_line(name, size, asked, buffer).encode())
        return lines

    def logged(self, wanted):
        """A controller whose queue is wanted, mostly, and its size; rarely another size."""
        dice = self.dice
        liked = {name for name, queue in self.queues.items() if wanted(queue)}
        name = self.identifier(liked if liked and dice.random() < 0.85 else set(self.queues))
        size = ENTRY * self.queues[name].places if name in self.queues else dice.choice([64, 96])
        return name, dice.choice([*WRONG_SIZES, 64, 96, 128, size + ENTRY, 32_768]) if dice.random() < 0.03 else size

    # ---- old, new, save

    def settings_lines(self):
        """Settings that are saved, and their file, as it is or damaged, for both readers; or only some of these lines."""
        dice, one = self.dice, self.settings()
        if dice.random() < 0.25:
            one = spoiled_settings(dice, one)
        version = dice.choice([1, 2, 2])
        file = file_of(version, one)
        if dice.random() < 0.5:
            file = damaged_file(dice, file)
        lines = [save_line(version if dice.random() < 0.9 else dice.choice([0, 1, 2, 3, 257, 513]), one), reader_line("new", file), reader_line("old", file)]
        return [line.encode() for line in dice.sample(lines, dice.choice([1, 2, 3]))]

    def settings(self):
        """The device's own, also with one manager, or with another second one; or any."""
        if self.dice.random() < 0.5:
            return any_settings(self.dice)
        own = self.device()
        alone = own._replace(second=self.manager, limit2=0, shelf=MOST_LIMIT)
        other = alone._replace(second=self.dice.choice([4, 9, 65533]), limit2=self.dice.choice([0, 4, 128]), shelf=self.dice.choice([0, 18, 128]))
        return self.dice.choice([own, own, alone, other])

    # ---- log

    def logs(self):
        """The numbers of one controller, mostly one that has stopped or else is tracked; or of all."""
        names = self.identifiers if self.dice.random() < 0.2 else [self.identifier(self.stopped or set(self.tracked))]
        self.stopped -= set(names)
        return [log_line(name).encode() for name in names]
