"""User-data queues (document 02, W8): their lines, queues as plain lists with what each line is answered with, and the queue
that a device record keeps, with its totals and its place."""

from typing import NamedTuple

from parts import WORD, hex_of

ENTRY = 32                # bytes of an entry, and of a place
MOST_PLACES = 1024
MOST_SIZE = 32_800        # bytes of area that a line lends; one with more is bad
MOST_ENTRY = 64           # bytes of a `post` line's entry; one with more is bad
MOST_BUFFER = 4096        # bytes of a `take` line's buffer; one with more is bad
CLOSING = b"\xff" * ENTRY


def places_of(size):
    """How many places an area of so many bytes has, where it is a whole 2 to 1,024 of them; else None."""
    places, rest = divmod(size, ENTRY)
    return places if rest == 0 and 2 <= places <= MOST_PLACES else None


def numbered(number):
    """An entry that tells its number, at both ends, and is told from all others by it."""
    return number.to_bytes(4, "big") + b"\x5a" * (ENTRY - 8) + number.to_bytes(4, "little")


# ---- Lines

def make_line(id, size):
    return f"queue {id} {size}"


def post_line(id, size, entry):
    return f"post {id} {size} {hex_of(entry)}"


def take_line(id, size, asked, buffer):
    return f"take {id} {size} {asked} {buffer}"


def posted(stopped=0):
    """The answer to a done post."""
    return f"0 stopped {int(stopped)}"


def taken(entries, closing=0):
    """The lines that a done take is answered with."""
    return [f"0 taken {len(entries)} closing {int(closing)}", *(entry.hex() for entry in entries)]


# ---- A queue as a list

class Queue:
    """What is queued, the oldest entry first. Here nothing has a place, and nothing is counted."""

    def __init__(self, places):
        self.places, self.queued, self.stopped = places, [], False

    def post(self, entry):
        """Queues the entry, or where it would fill the last free place the closing one. Answers whether it did that."""
        self.stopped = len(self.queued) == self.places - 1
        self.queued.append(CLOSING if self.stopped else entry)
        return self.stopped

    def take(self, asked, buffer):
        """Takes the least of those asked for, those queued and those that fit. Answers them, and whether the last of them is the
        closing one: behind that nothing is ever queued."""
        count = min(asked, len(self.queued), buffer // ENTRY)
        entries, self.queued = self.queued[:count], self.queued[count:]
        return entries, self.stopped and count > 0 and not self.queued


class Queues:
    """The queues of a device with these controllers. Each call answers a row: its line, and the lines of its answer."""

    def __init__(self, *identifiers):
        self.of = {id: None for id in identifiers}

    def make(self, id, size):
        number = self.refusal(id, size) if id not in self.of or not places_of(size) else 0
        if not number:
            self.of[id] = Queue(places_of(size))
        return make_line(id, size), str(number)

    def post(self, id, size, entry):
        number = self.refusal(id, size)
        if not number:
            number = 8 if len(entry) != ENTRY else 30 if self.of[id].stopped else 0
        return post_line(id, size, entry), str(number) if number else posted(self.of[id].post(entry))

    def take(self, id, size, asked, buffer):
        number = self.refusal(id, size)
        return take_line(id, size, asked, buffer), *([str(number)] if number else taken(*self.of[id].take(asked, buffer)))

    def refusal(self, id, size):
        """What a post and a take are both refused with: 2, then 28, then 29."""
        if id not in self.of:
            return 2
        queue, places = self.of[id], places_of(size)
        if places is None or queue and places != queue.places:
            return 28
        return 0 if queue else 29


# ---- The queue of a record

class Kept(NamedTuple):
    """What a device record keeps of a queue: 32-bit totals, and the place of the oldest entry."""
    size: int
    posted: int = 0
    taken: int = 0
    place: int = 0
    stopped: int = 0

    def fill(self):
        return (self.posted - self.taken) % WORD

    def is_sound(self):
        """Neither a fill above the size, nor a place outside, nor full and not stopped."""
        return self.fill() <= self.size and self.place < self.size and (self.fill() < self.size or self.stopped == 1)


def kept_refusal(call, queue, area, entry):
    """What a queue call of a known controller is refused with on a sound record, or 0. The area and the entry are bytes."""
    places = places_of(len(area))
    tests = [
        (28, places is not None and (call == "make" or queue is None or places == queue.size)),
        (29, call == "make" or queue is not None),
        (8, call != "post" or len(entry) == ENTRY),
        (30, call != "post" or queue is None or not queue.stopped),
    ]
    return next((number for number, passes in tests if not passes), 0)


def turned(queue, area):
    """The area's places in order, from the oldest entry's on."""
    places = [area[at:at + ENTRY] for at in range(0, len(area), ENTRY)]
    return places[queue.place:] + places[:queue.place]


def after_post(queue, area, entry):
    """The queue and the area after a done post."""
    places, fill = turned(queue, area), queue.fill()
    closes = fill == queue.size - 1
    places[fill] = CLOSING if closes else entry
    first = (queue.size - queue.place) % queue.size  # where the area's own first place stands among these
    return queue._replace(posted=(queue.posted + 1) % WORD, stopped=int(closes)), b"".join(places[first:] + places[:first])


def after_take(queue, area, asked, buffer):
    """The queue and the buffer after a done take, how many entries it took, and whether the last is the closing one."""
    count = min(asked, queue.fill(), len(buffer) // ENTRY)
    left = queue._replace(taken=(queue.taken + count) % WORD, place=(queue.place + count) % queue.size)
    buffer = b"".join(turned(queue, area)[:count]) + buffer[count * ENTRY:]
    return left, buffer, count, int(count > 0 and queue.stopped and left.fill() == 0)


# ---- For the makers of seeded cases

def any_entry(dice):
    """Mostly any 32 bytes; at times all of them are the same, FFh too, and at times it is the closing one but for a bit."""
    luck = dice.random()
    if luck < 0.15:
        return bytes([dice.choice([0, 1, 254, 255, 255])]) * ENTRY
    if luck < 0.25:
        entry = bytearray(CLOSING)
        entry[dice.choice([0, ENTRY - 1, dice.randrange(ENTRY)])] ^= 1 << dice.randrange(8)
        return bytes(entry)
    return dice.randbytes(ENTRY)


WRONG_SIZES = [0, 1, 31, 32, 33, 63, 65, 95, 97, 127, 2048 + 1, 32_767, 32_769, 32_799, 32_800]  # no whole 2 to 1,024 places
WRONG_ENTRIES = [0, 1, 16, 31, 31, 33, 33, 63, 64]  # bytes of what is no entry
