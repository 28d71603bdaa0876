"""The vectors of document 02's requests through the calls from C, for tools/test_examples.py: from the numbers of a
stream to the lines that the check programs of T-04, T-07, T-08, T-09, T-11 and T-12 print for it
(crates/check_*/stdout, from an independent model). Whatever a call must leave is judged here."""
from ctypes import Structure, byref, c_int16, c_uint16, c_uint64, c_uint8

STATE_WORDS, LIVE_WORDS, SEATS = 12295, 3330, 8
STAGE = 2050  # where a state has it
LIVE_ENDS, LIVE_LEVELS, LIVE_COUNTS = 2, 2050, 3074
OTHER = 7777  # what stands in lent words before a call


def words(numbers):
    return (c_uint16 * max(1, len(numbers)))(*numbers)


def levels(numbers):
    return (c_int16 * max(1, len(numbers)))(*numbers)


def lent(places):
    """So many words, and one past them that no call may touch."""
    return words([OTHER] * (places + 1))


def listed(stream):
    return [next(stream) for _ in range(next(stream))]


def table(stream):
    units = next(stream)
    ends = listed(stream)
    return units, ends, listed(stream)


def must(holds, what):
    if not holds:
        raise AssertionError(what)


class Turn(Structure):
    """struct link_survey_turn."""
    _fields_ = [("last", c_uint16)]


class Player:
    def __init__(self, library):
        self.library = library
        self.state = (c_uint16 * STATE_WORDS)()
        self.live = (c_uint16 * LIVE_WORDS)()

    def call(self, name, *arguments):
        return getattr(self.library, "link_survey_" + name)(*arguments)

    def tables(self, units, ends, heard):
        return c_uint16(units), words(ends), c_uint64(len(ends)), levels(heard), c_uint64(len(heard))

    def surveyed(self, stream):
        """Loads a table and makes the rounds of its budget."""
        units, ends, heard = table(stream)
        must(self.call("load", self.state, *self.tables(units, ends, heard)) == 0, "load")
        budget = next(stream)
        if budget:
            must(self.call("run", self.state, c_uint16(budget), byref(c_uint16())) == 0, "run")
        return units, ends

    def rings(self, stream):
        _, ends = self.surveyed(stream)
        return [" ".join(str(self.ring(ends, next(stream), next(stream), next(stream))) for _ in range(next(stream)))]

    def ring(self, ends, first, second, places):
        out, count = lent(places), c_uint16(OTHER)
        number = self.call("ring", self.state, c_uint16(first), c_uint16(second), out, c_uint64(places), byref(count))
        written = 0 if number else count.value
        must(not number or count.value == OTHER, "the count on a refusal")
        must(set(out[written:]) <= {OTHER}, "places past the ring")
        if written:
            walk = out[:written]
            links = [{ends[k], ends[k + 1]} for k in range(0, len(ends), 2)]
            steps = [{walk[k - 1], walk[k]} for k in range(written)]
            must(written >= 3 and len(set(walk)) == written, "different units")
            must(all(step in links for step in steps), "each linked to the next")
            must(links[first] in steps and links[second] in steps and set(walk[:2]) == links[first], "both links")
        return number or min(written, 1)

    def lifting(self, stream):
        units, _ = self.surveyed(stream)
        places = next(stream)
        pairs, out = listed(stream), lent(places)
        number = self.call("lifting_order", self.state, words(pairs), c_uint64(len(pairs)), out, c_uint64(places))
        must(set(out[0 if number else units:]) <= {OTHER}, "places past the order")
        return [" ".join(map(str, [number] if number else [0, *out[:units]]))]

    def doubtful(self, stream):
        self.surveyed(stream)
        marks = listed(stream)
        return [" ".join(str(self.doubt(marks, next(stream), next(stream))) for _ in range(next(stream)))]

    def doubt(self, marks, first, second):
        verdict, given = c_uint16(OTHER), (c_uint8 * max(1, len(marks)))(*marks)
        links = c_uint16(first), c_uint16(second)
        number = self.call("doubtful", self.state, *links, given, c_uint64(len(marks)), byref(verdict))
        must(not number or verdict.value == OTHER, "the verdict on a refusal")
        return number or verdict.value

    def one_way(self, stream):
        units, ends, places = next(stream), listed(stream), next(stream)
        numbers, passes = lent(places), c_uint16(OTHER)
        given = c_uint16(units), words(ends), c_uint64(len(ends))
        number = self.call("one_way", *given, numbers, c_uint64(places), byref(passes))
        must(not number or passes.value == OTHER, "the passes on a refusal")
        must(set(numbers[0 if number else units:]) <= {OTHER}, "places past the numbers")
        return [" ".join(map(str, [number] if number else [0, passes.value, *numbers[:units]]))]

    def seats(self, stream):
        """Steps 1 to 4 from eight empty seats and a turn that no tick has moved, then how each seat stands."""
        lines, seats, turn = [], (c_uint16 * STATE_WORDS * SEATS)(), Turn(7)
        for _ in range(next(stream)):
            step = next(stream)
            if step == 3:
                turn.last = next(stream)
            elif step == 4:
                seat = next(stream)
                seats[seat][STAGE] = next(stream)
            else:
                lines.append(self.seat_load(stream, seats) if step == 1 else self.tick(turn, seats))
        return lines + [f"1{self.status(seat)}" if seat[0] or seat[STAGE] else "0" for seat in seats]

    def seat_load(self, stream, seats):
        seat, before = next(stream), list(map(bytes, seats))
        number = self.call("seat_load", seats, c_uint16(seat), *self.tables(*table(stream)))
        must(all(bytes(seats[k]) == before[k] for k in range(SEATS) if number or k != seat), "the other seats")
        return str(number)

    def tick(self, turn, seats):
        last, before = turn.last, list(map(bytes, seats))
        number = self.call("tick", byref(turn), seats)
        must(all(bytes(seats[k]) == before[k] for k in range(SEATS) if number or k != turn.last), "the other seats")
        must(not number or turn.last == last, "the turn on a refusal")
        return str(number) if number else f"0 {turn.last}{self.status(seats[turn.last])}"

    def status(self, state):
        reply = words([OTHER] * 4)
        return "" if self.call("status", state, reply) else "".join(f" {word}" for word in reply)

    def changes(self, stream, given):
        """A live table: steps 1 to 4. With `given` each step tells its number alone, else what is in hand too."""
        lines = []
        for _ in range(next(stream)):
            step, before = next(stream), bytes(self.live)
            if step == 4:
                what, index, value = next(stream), next(stream), next(stream)
                self.live[[0, 1, LIVE_ENDS, LIVE_LEVELS, LIVE_COUNTS][what] + index] = value % 65536
                continue
            if step == 1:
                number = self.call("live_open", self.live, *self.tables(*table(stream)))
            elif step == 2:
                link = c_uint16(next(stream)), c_uint16(next(stream)), c_int16(next(stream))
                number = self.call("live_add", self.live, *link)
            else:
                number = self.call("live_withdraw", self.live, c_uint16(next(stream)), c_uint16(next(stream)))
            must(not number or bytes(self.live) == before, "a live table on a refusal")
            alone = given or (step == 1 and number)
            lines.append(" ".join(map(str, [number] if alone else [number, *self.counted()])))
        return lines if given else lines + [" ".join(map(str, self.in_hand()))]

    def counted(self):
        return [self.live[1], *self.live[LIVE_COUNTS:LIVE_COUNTS + self.live[0]]]

    def in_hand(self):
        links = self.live[1]
        heard = (c_int16 * links).from_buffer_copy(self.live, 2 * LIVE_LEVELS)
        return [self.live[0], links, *self.live[LIVE_ENDS:LIVE_ENDS + 2 * links], *heard]


def played(library, family, name, text):
    """The lines of a file of a family: the number of its cases, then the cases."""
    player, stream = Player(library), map(int, text.split())
    lines = []
    for _ in range(next(stream)):
        if family == "live":
            lines += player.changes(stream, "given" in name)
        else:
            lines += getattr(player, family)(stream)
    return lines
