"""An independent model of the program `engrave`, written from docs/RULES.md alone: it answers a file of calls by printing and hearing
everything anew. It shares no code with the engraver and is there to be compared with it.

    python3 tests/model.py FILE
"""
import sys

VALUES = [192, 144, 96, 72, 48, 36, 24, 18, 12, 9, 6, 3]
STEPS = "cdefgab"
HALF_TONES = [0, 2, 4, 5, 7, 9, 11]
SHARPS = [3, 0, 4, 1, 5, 2, 6]
WORDS = {"double flat": 0, "flat": 1, "sharp": 3, "double sharp": 4}
MARKS = {0: "", 1: "--", 2: "-", 3: "n", 4: "#", 5: "x"}


class Unfit(Exception):
    """A line that does not fit from this byte on."""

    def __init__(self, at):
        self.at = at


class Refused(Exception):
    def __init__(self, number, place=0):
        self.number = number
        self.place = place


# ---- lines of text


class Line:
    def __init__(self, text):
        self.text = text
        self.at = 0

    def word(self, word):
        for c in word.encode():
            if self.at >= len(self.text) or self.text[self.at] != c:
                raise Unfit(self.at)
            self.at += 1

    def one_of(self, words):
        start, furthest = self.at, self.at
        for i, w in enumerate(words):
            try:
                self.word(w)
                return i
            except Unfit as u:
                furthest = max(furthest, u.at)
                self.at = start
        raise Unfit(furthest)

    def number(self, most):
        start, n = self.at, 0
        while self.at < len(self.text) and 48 <= self.text[self.at] <= 57:
            n = 10 * n + self.text[self.at] - 48
            if n > most:
                raise Unfit(self.at)
            self.at += 1
        if self.at == start:
            raise Unfit(start)
        return n

    def field(self, most=2**32 - 1):
        self.word(" ")
        return self.number(most)

    def end(self):
        if self.at < len(self.text):
            raise Unfit(self.at)

    def event(self):
        step = self.one_of(list(STEPS) + ["silence"])
        if step == 7:
            return (None, 0, self.field(65535))
        alteration = 2
        if self.text[self.at : self.at + 1] == b" ":
            self.at += 1
            alteration = list(WORDS.values())[self.one_of([w + " " for w in WORDS])]
        octave = self.number((255 - step) // 7)
        return (7 * octave + step, alteration, self.field(65535))


def call_of(text):
    line = Line(text)
    verb = line.one_of(["put", "cut", "change", "show", "heard in", "how long"])
    if verb in (0, 2):
        fields = [line.field(), line.field()]
        line.word(" ")
        fields.append(line.event())
    else:
        fields = [line.field() for _ in range([0, 2, 0, 3, 2, 1][verb])]
    line.end()
    return verb, fields


def setting(text, name):
    line = Line(text)
    line.word(name)
    n = line.field()
    line.end()
    return n


# ---- what is heard and what is printed


def heard(voice):
    t, notes = 0, []
    for place, alteration, length in voice:
        if place is not None:
            notes.append((t, length, 12 * (place // 7) + HALF_TONES[place % 7] + alteration))
        t += length
    return notes


def in_key(key, place):
    if key >= 7:
        return 3 if place % 7 in SHARPS[: key - 7] else 2
    return 1 if place % 7 in SHARPS[::-1][: 7 - key] else 2


def printed(key, bar, voice):
    """A list of bars, each a list of symbols; the last is not ended by a line."""
    bars, page, at, holds = [], [], 0, {}
    for place, alteration, length in voice:
        first = True
        while length > 0:
            part = min(length, bar - at)
            length -= part
            at += part
            while part > 0:
                value = next(v for v in VALUES if v <= part)
                part -= value
                if place is None:
                    page.append("r%d" % value)
                    continue
                mark = ""
                if first and holds.get(place, in_key(key, place)) != alteration:
                    mark = MARKS[alteration + 1]
                    holds[place] = alteration
                first = False
                tie = "~" if part > 0 or length > 0 else ""
                page.append("%s%s%d:%d%s" % (mark, STEPS[place % 7], place // 7, value, tie))
            if at == bar:
                page.append("bar")
                bars.append(page)
                page, at, holds = [], 0, {}
    bars.append(page)
    return bars


# ---- calls


class Score:
    def __init__(self, key, bar, voices, events):
        self.key, self.bar, self.limit = key, bar, events
        self.voices = [[] for _ in range(voices)]

    def voice(self, v):
        if v >= len(self.voices):
            raise Refused(4, v)
        return self.voices[v]

    def changed(self, v, voice):
        events = sum(len(x) for i, x in enumerate(self.voices) if i != v) + len(voice)
        if events > self.limit or sum(e[2] for e in voice) >= 2**24:
            raise Refused(6)
        self.voices[v] = voice
        return "done"

    def answer(self, verb, fields):
        if verb in (0, 2):
            place, alteration, length = fields[2]
            if (place is not None and (place >= 70 or alteration > 4)) or length == 0 or length % 3:
                raise Refused(2)
        if verb in (0, 1, 2):
            v, i = fields[:2]
            voice = self.voice(v)
            if i > len(voice) or (verb != 0 and i == len(voice)):
                raise Refused(5, i)
            middle = [] if verb == 1 else [fields[2]]
            return self.changed(v, voice[:i] + middle + voice[i + (verb != 0) :])
        if verb == 3:
            v, b, n = fields
            if n > 16:
                raise Refused(2)
            bars = printed(self.key, self.bar, self.voice(v))[b : b + n]
            return " ".join(" ".join(x) for x in bars if x)
        if verb == 4:
            a, b = fields
            if b > a + 1536:
                raise Refused(2)
            notes = [(t, v, d, h) for v, x in enumerate(self.voices) for t, d, h in heard(x) if a <= t < b]
            return ", ".join("%d %d %d %d" % (v, t, d, h) for t, v, d, h in sorted(notes))
        return str(sum(e[2] for e in self.voice(fields[0])))


def answers(text):
    lines = [x for x in text.split(b"\n") if x and not x.startswith(b";")]
    opening = []
    for i, name in enumerate(["key", "bar", "voices", "events"]):
        try:
            opening.append(setting(lines[i] if i < len(lines) else b"", name))
        except Unfit as u:
            yield "refused 1 at %d" % u.at
            return
    key, bar, voices, events = opening
    if key > 14 or not 0 < bar <= 768 or bar % 3 or not 0 < voices <= 8 or events > 1024:
        yield "refused 3 at 1"
        return
    score = Score(key, bar, voices, events)
    for text in lines[4:]:
        try:
            yield score.answer(*call_of(text))
        except Unfit as u:
            yield "refused 1 at %d" % u.at
        except Refused as r:
            yield "refused %d at %d" % (r.number, r.place)


if __name__ == "__main__":
    with open(sys.argv[1], "rb") as f:
        for line in answers(f.read()):
            print(line)
