"""line.py RUN PORTAL BOX STRIPS JOINER SEED: the portal's side of bench/line.

Starts the box (RUN box ..) on the pty BOX, sends frames on PORTAL, and compares every answer, and at the end the file STRIPS, with what the
model below says. The model was written from the papers (documents 01 and 02), before the first run, though not blind to the box's rules:
contents are lists of items, and of a refusal only the 15h is known, since no number goes over the line.
"""
import datetime, os, random, select, signal, subprocess, sys, termios, time, tty

WATCHDOG = 1  # seconds
PAUSE = WATCHDOG + 0.6  # surely silence
START = datetime.datetime(2024, 2, 29, 23, 58, 30)  # the day, the month and the minute change while the box runs
MOMENT = START.strftime("%Y-%m-%dT%H:%M:%S")
ACK, NACK = b"\x06", b"\x15"
GOOD = bytes(11) + b"\x89" + b"00000000700000000901" + b"\x00\x00\x01" + bytes(2)  # parameters
MONTHS = "JAN FEV MAR AVR MAI JUN JUI AOU SEP OCT NOV DEC".split()


def frame(identifier, data=b""):
    """identifier, length (2), data, and their exclusive OR"""
    s = bytes([identifier]) + len(data).to_bytes(2, "big") + data
    check = 0
    for b in s:
        check ^= b
    return s + bytes([check])


# ---- What a content is: lines of blocks of items, as (kind, first place, bytes).
def items(s):
    """the items of a content, the marks of lines and blocks among them; None where it is none"""
    if len(s) > 512 or s[:1] != b"\x0a" or s[-1:] != b"\x0d":
        return None
    out, i, lines, fields, in_block = [], 0, 0, 0, False
    while i < len(s):
        b = s[i]
        if b == 0x0A:
            lines += 1
            if lines > 4 or (lines > 1 and not in_block):
                return None
            out.append(("mark", i, s[i : i + 1]))
            i, in_block = i + 1, False
            if i >= len(s) or not 1 <= s[i] <= 9:
                return None
        elif 1 <= b <= 9:
            if i + 1 >= len(s) or s[i + 1] == 0:
                return None
            out.append(("mark", i, s[i : i + 2]))
            i, in_block = i + 2, True
        elif not in_block:
            return None
        elif b == 0x0D:
            return out + [("mark", i, s[i:])] if i == len(s) - 1 else None
        elif 0x20 <= b <= 0x7E:
            out.append(("character", i, s[i : i + 1]))
            i += 1
        elif b in (0x1E, 0x1C):
            if i + 2 >= len(s) or s[i + 2] != b or s[i + 1] == 0 or (b == 0x1C and s[i + 1] != 1):
                return None
            out.append(("tabulation" if b == 0x1E else "counter", i, s[i : i + 3]))
            i += 3
        elif b in (0x12, 0x1B):
            end = s.find(bytes([b]), i + 1)
            inner = s[i + 1 : end]
            if end < 0:
                return None
            if b == 0x12:
                fields += 1
                if fields > 10 or any(not 0x20 <= x <= 0x7E for x in inner):
                    return None
            elif any(not (0x55 <= x <= 0x5D or 0x61 <= x <= 0x63 or 0x70 <= x <= 0x73) for x in inner):
                return None
            out.append(("field" if b == 0x12 else "date", i, s[i : end + 1]))
            i = end + 1
        else:
            return None
    return None


def places(content, fields_only=False):
    """the character positions, or those of fields alone"""
    out = []
    for kind, at, s in items(content):
        if kind == "character" and not fields_only:
            out.append(at)
        if kind == "field":
            out += range(at + 1, at + len(s) - 1)
    return out


def date_text(codes, moment):
    table = {0x70: ":", 0x71: "/", 0x72: ".", 0x73: " "}
    entries = [(0x55, "%02d" % moment.hour), (0x58, "%02d" % moment.minute), (0x5B, MONTHS[moment.month - 1]), (0x61, "%02d" % moment.day)]
    for first, text in entries:
        for k in range(3):
            table[first + k] = text[k : k + 1]
    return "".join(table[c] for c in codes).encode()


class Jet:
    content, parameters = None, None

    def set_parameters(self, p):
        self.parameters = p
        self.value, self.batch = int(p[12:21]), 0

    def strip(self, moment):
        out = b""
        for kind, _, s in items(self.content):
            if kind == "counter":
                s = b"%09d" % self.value
            elif kind == "field":
                s = s[1:-1]
            elif kind == "date":
                s = date_text(s[1:-1], moment)
            out += s
        return out

    def count(self):
        p = self.parameters
        self.batch += 1
        if self.batch == int.from_bytes(p[32:35], "big"):
            self.batch = 0
            self.value += int(p[30:32])
            if self.value > int(p[21:30]):
                self.value = int(p[12:21])


def good_parameters(p):
    digits = p[12:32]
    return (
        len(p) == 37 and p[11] == 0x89 and all(0x30 <= x <= 0x39 for x in digits)
        and int(p[12:21]) <= int(p[21:30]) and int(p[30:32]) >= 1 and int.from_bytes(p[32:35], "big") >= 1
    )


class Model:
    """A printer of type 4: jets 1 to 4; head 1 owns jets 1 and 2."""

    def __init__(self):
        self.jets = {n: Jet() for n in (1, 2, 3, 4)}
        self.library = {}
        self.prints = []  # for each print the strips at each moment that it may have been

    def set_all(self, jet, parameters, content):
        if parameters is not None and not good_parameters(parameters):
            return NACK
        if content is not None and items(content) is None:
            return NACK
        if parameters is not None:
            jet.set_parameters(parameters)
        if content is not None:
            jet.content = content
        return ACK

    def store(self, number, parameters, content):
        if not 1 <= number <= 79 or not good_parameters(parameters) or items(content) is None:
            return NACK
        others = {n: m for n, m in self.library.items() if n != number}
        if sum(5 + 37 + len(m[1]) for m in others.values()) + 5 + 37 + len(content) > 8192:
            return NACK
        self.library = {**others, number: (parameters, content)}
        return ACK

    def edit(self, jet, address, symbols):
        if jet.content is None or any(address + i not in places(jet.content) for i in range(len(symbols))):
            return NACK
        if any(not 0x20 <= x <= 0x7E for x in symbols):
            return NACK
        jet.content = jet.content[:address] + symbols + jet.content[address + len(symbols) :]
        return ACK

    def spots(self):
        """the field positions of head 1, jets ascending"""
        return [(j, spot) for j in (self.jets[1], self.jets[2]) if j.content for spot in places(j.content, True)]

    def update(self, text):
        spots = self.spots()
        if not spots or len(text) != len(spots) or any(not 0x20 <= x <= 0x7E for x in text):
            return NACK
        for (jet, spot), x in zip(spots, text):
            jet.content = jet.content[:spot] + bytes([x]) + jet.content[spot + 1 :]
        return ACK

    def print(self, moments):
        jets = list(self.jets.values())
        if any(j.content is None or j.parameters is None for j in jets):
            return NACK
        self.prints.append({b"".join(j.strip(m) for j in jets) for m in moments})
        for j in jets:
            j.count()
        return ACK

    def obey(self, identifier, d, moments):
        """what is answered"""
        size = {0x0A: (2, 550), 0x0B: (38, 38), 0x0C: (39, 550), 0x1C: (39, 550), 0x39: (1, 1), 0x40: (2, 2), 0x42: (4, 550), 0x43: (1, 1), 0x52: (0, 0), 0x94: (0, 0), 0xD6: (0, 0)}
        if identifier not in size or not size[identifier][0] <= len(d) <= size[identifier][1]:
            return NACK
        if identifier == 0x52:
            text = "0000" + "".join("%02d" % n for n in range(1, 97)) + "ABCDEFGHIJKLMNOPQRSTUVWXYZ" + "".join(MONTHS)
            return ACK + frame(0x52, text.encode())
        if identifier == 0x94:
            return self.print(moments)
        if identifier == 0xD6:
            return None  # the clock: see Line.clock
        if identifier == 0x1C:
            return self.store(d[0], d[1:38], d[38:])
        if d[0] not in self.jets:
            return NACK
        jet = self.jets[d[0]]
        if identifier == 0x0A:
            return self.set_all(jet, None, d[1:])
        if identifier == 0x0B:
            return self.set_all(jet, d[1:], None)
        if identifier == 0x0C:
            return self.set_all(jet, d[1:38], d[38:])
        if identifier == 0x40:
            return self.set_all(jet, *self.library[d[1]]) if d[1] in self.library else NACK
        if identifier == 0x42:
            return self.edit(jet, int.from_bytes(d[1:3], "big"), d[3:])
        if identifier == 0x39:
            return ACK + frame(0x39, b"%09d" % jet.value + jet.batch.to_bytes(3, "big")) if jet.parameters else NACK
        return ACK + frame(0x43, jet.parameters + jet.content) if jet.parameters and jet.content else NACK


def clock_answer(m):
    text = "%02d%02d%02d  %02d     %02d%s%02d" % (m.second, m.minute, m.hour, m.day, m.month, MONTHS[m.month - 1], m.year - 2000)
    return ACK + frame(0x9C, text.encode())


# ---- The line.
class Line:
    def __init__(self, run, portal, box, strips, joiner, seed):
        self.random = random.Random(seed)
        self.model, self.sent, self.pauses = Model(), 0, 0
        self.strips, self.joiner = strips, joiner
        self.fd = os.open(portal, os.O_RDWR | os.O_NOCTTY)
        line = os.open(box, os.O_RDWR | os.O_NOCTTY)
        words = [run, "box", "4", MOMENT, str(WATCHDOG), strips]
        self.before = time.monotonic()  # the box starts between this
        self.box = subprocess.Popen(words, stdin=line, stdout=line, stderr=subprocess.PIPE)
        os.close(line)
        os.write(self.fd, b"\x05")
        if self.read(1, 60) != ACK:
            self.fail("the box does not answer")
        self.after = time.monotonic()  # and that

    def moments(self, first, last):
        """what the box's clock may show from one moment to another"""
        least, most = int(first - self.after), int(last - self.before)
        return [START + datetime.timedelta(seconds=k) for k in range(max(0, least), most + 1)]

    def fail(self, why):
        print(f"line: after {self.sent} frames: {why}")
        self.box.terminate()
        sys.exit(1)

    def read(self, size, limit=10.0):
        got, until = b"", time.monotonic() + limit
        while len(got) < size and time.monotonic() < until:
            if select.select([self.fd], [], [], 0.2)[0]:
                got += os.read(self.fd, size - len(got))
        return got

    def write(self, s, cut):
        """in one piece, or in several close behind each other"""
        while s:
            n = self.random.randint(1, 40) if cut else len(s)
            os.write(self.fd, s[:n])
            s = s[n:]
            if cut:
                time.sleep(self.random.choice([0, 0, 0.01, 0.05]))

    def exchange(self, asked, tail=b"", cut=False):
        """one burst: frames behind each other, and their answers in that order; the tail is answered by nothing"""
        first = time.monotonic()
        self.write(b"".join(s for s, _ in asked) + tail, cut)
        for s, answer in asked:
            self.sent += 1
            expected = answer(self.moments(first, time.monotonic() + 10))
            got = self.read(27 if expected is None else len(expected))
            right = [clock_answer(m) for m in self.moments(first, time.monotonic())] if expected is None else [expected]
            if got not in right:
                self.fail(f"{s[:40].hex()} ({len(s)} bytes) got {got.hex()} and not {right[0].hex()}")

    def quiet(self):
        """a pause longer than the watchdog; nothing that is not expected came"""
        time.sleep(PAUSE)
        self.pauses += 1
        if select.select([self.fd], [], [], 0)[0]:
            self.fail(f"got {os.read(self.fd, 100).hex()} where nothing is answered")

    # ---- What is sent: each gives bytes and what the model answers.
    def sound(self, identifier, d=b""):
        return frame(identifier, d), lambda moments: self.model.obey(identifier, d, moments)

    def refused(self, s):
        return s, lambda moments: NACK

    def content(self):
        r = self.random
        out = b""
        for _ in range(r.randint(1, 4)):
            out += b"\x0a"
            for _ in range(r.randint(1, 2)):
                out += bytes([r.randint(1, 9), r.choice([1, 0x0A, 0x0D, 0x12, 0x38, 0x54, 0xFF])])
                for _ in range(r.randint(0, 5)):
                    out += r.choice([
                        b"JAM", b"a", b"~ ", b"\x1e\x0d\x1e", b"\x1e\xff\x1e", b"\x1c\x01\x1c", b"\x12plum\x12", b"\x12\x12",
                        b"\x1b\x55\x56\x70\x58\x59\x1b", b"\x1b\x61\x62\x63\x73\x5b\x5c\x5d\x1b",
                    ])
        return out + b"\x0d"

    def bad_content(self):
        return self.random.choice([
            b"\x0d", b"\x0a\x0d", b"\x0a\x01\x01", b"\x0a\x0a\x01\x0d", b"\x0a\x01\x00\x0d", b"\x0a\x01\x01\x1e\x00\x1e\x0d", b"\x0a\x01\x01\x1c\x02\x1c\x0d",
            b"\x0a\x01\x01\x12\x0d", b"\x0a\x01\x01A\x0dB", b"\x0a\x01\x01" * 5 + b"\x0d", b"\x0a\x01\x01" + b"\x12\x12" * 11 + b"\x0d", b"\x0a\x01\x01" + b"x" * 509 + b"\x0d",
        ])

    def parameters(self):
        r = self.random
        low = r.choice([0, 98, 123456789])
        good = bytes(11) + b"\x89" + b"%09d%09d%02d" % (low, low + r.randint(0, 9), r.randint(1, 5)) + r.randint(1, 3).to_bytes(3, "big") + bytes(2)
        if r.random() < 0.15:
            at, b = r.choice([(11, 0x88), (12, 0x2F), (20, 0x3A), (21, 0x20), (34, 0)])
            good = good[:at] + bytes([b]) + good[at + 1 :]
        return good

    def jet(self):
        return bytes([self.random.choice([1, 2, 3, 4] * 3 + [0, 5])])

    def some(self):
        """a frame, an update or a 05h, whole, sound or broken"""
        r = self.random
        kind = r.randint(0, 18)
        if kind < 2:
            return b"\x05", lambda moments: ACK
        if kind < 4:
            return self.sound(0x0A, self.jet() + (self.content() if r.random() < 0.7 else self.bad_content()))
        if kind < 6:
            return self.sound(0x0C, self.jet() + self.parameters() + self.content())
        if kind == 6:
            return self.sound(0x0B, self.jet() + self.parameters())
        if kind == 7:
            symbols = bytes(r.choice(b"ABCxyz\x0a~") for _ in range(r.randint(1, 3)))
            return self.sound(0x42, self.jet() + r.randint(0, 12).to_bytes(2, "big") + symbols)
        if kind == 8:
            d = self.jet()
            j = self.model.jets.get(d[0])
            here = places(j.content) if j and j.content else []
            return self.sound(0x42, d + (r.choice(here) if here else 3).to_bytes(2, "big") + b"Q")
        if kind == 9:
            n = len(self.model.spots())
            text = bytes(r.choice(b"abcdef,") for _ in range(max(0, n + r.choice([0, 0, 0, 1, -1]))))
            if r.random() < 0.1:
                text = text[:-1] + b"\x7f"
            return b"\x02" + text + b"\x03", lambda moments: self.model.update(text)
        if kind < 12:
            return self.sound(0x94)
        if kind == 12:
            return self.sound(r.choice([0x39, 0x43]), self.jet())
        if kind == 13:
            return self.sound(r.choice([0x52, 0xD6, 0xD6]))
        if kind == 14:
            return self.sound(0x1C, bytes([r.randint(0, 80)]) + self.parameters() + self.content())
        if kind == 15:
            return self.sound(0x40, self.jet() + bytes([r.choice([0, 80] + list(self.model.library) * 4)]))
        if kind == 16:  # a wrong check byte
            s = self.sound(0x0A, b"\x01" + self.content())[0]
            return self.refused(s[:-1] + bytes([s[-1] ^ r.randint(1, 255)]))
        if kind == 17:  # an identifier that is not in the table
            return self.refused(frame(r.choice([0x00, 0x01, 0x03, 0x06, 0x1A, 0x41, 0x95, 0xDE, 0xFF]), bytes(r.randint(0, 550))))
        return self.sound(r.choice([0x0A, 0x0B, 0x39, 0x43, 0x52, 0x94, 0xD6]), bytes([1]) * r.randint(0, 60))  # a length that rarely fits

    def hopeless(self):
        """what is answered with one 15h, whereupon all is dropped until silence"""
        r = self.random
        if r.random() < 0.5:
            return self.refused(bytes([r.choice([0x0A, 0x43, 0xFF])]) + r.randint(551, 65535).to_bytes(2, "big"))
        return self.refused(b"\x02" + bytes(r.choice(b"abc") for _ in range(1023)))

    def cut_off(self):
        """the front of something: not whole, so nothing is answered"""
        s = self.random.choice([frame(0x0A, b"\x01" + self.content()), frame(0x94), b"\x02" + b"x" * 1022, frame(0x1C, bytes(550))])
        return s[: self.random.randint(1, len(s) - 1)]

    def burst(self):
        r = self.random
        kind = r.randint(0, 9)
        if kind < 5:
            self.exchange([self.some()], cut=r.random() < 0.3)
        elif kind < 8:
            # the model is asked in the order in which the frames are sent, but each is chosen before the first is answered
            self.exchange([self.plain() for _ in range(r.randint(2, 5))], cut=r.random() < 0.5)
        elif kind == 8:
            self.exchange([self.some()], tail=self.cut_off(), cut=r.random() < 0.5)
            self.quiet()
        else:
            dropped = b"".join(self.plain()[0] for _ in range(r.randint(1, 4))) + b"\x05" * r.randint(0, 3)
            self.exchange([self.some(), self.hopeless()], tail=dropped)
            self.quiet()

    def plain(self):
        """of what is sent behind each other: nothing that is chosen by what the box holds"""
        r = self.random
        return r.choice([
            lambda: (b"\x05", lambda moments: ACK), lambda: self.sound(0x94), lambda: self.sound(0x39, self.jet()), lambda: self.sound(0x43, self.jet()),
            lambda: self.sound(0x0C, self.jet() + self.parameters() + self.content()), lambda: self.sound(0x0A, self.jet() + self.bad_content()),
            lambda: self.sound(0x40, self.jet() + bytes([r.randint(1, 79)])), lambda: self.refused(b"\x0a\x00\x01\x01\x00"),
        ])()

    def go(self):
        # document 01's own example, then everything else
        a = bytes.fromhex("010a0238") + b"IMAJE " + bytes.fromhex("0154") + b"FRANCE" + b"\x0d"
        self.exchange([(b"\x05", lambda moments: ACK), self.sound(0x0A, a), self.sound(0x42, bytes.fromhex("0100054954")), self.sound(0x94)])
        if self.model.jets[1].content[3:9] != b"IMITE ":
            self.fail("the model is wrong")
        while self.sent < 60:
            self.burst()
        for n in self.model.jets:  # from here on every print is taken
            self.exchange([self.sound(0x0C, bytes([n]) + GOOD + self.content())])
        while self.sent < 300 and time.monotonic() - self.before < 150:
            self.burst()
        self.quiet()
        self.exchange([self.sound(0xD6), (b"\x05", lambda moments: ACK)])
        self.compare_strips()
        self.end()

    def compare_strips(self):
        got = open(self.strips, "rb").read()
        for k, variants in enumerate(self.model.prints):
            for v in variants:
                if got.startswith(v):
                    got = got[len(v) :]
                    break
            else:
                self.fail(f"print {k}: the file has {got[:80]!r} and not {sorted(variants)[0]!r}")
        if got:
            self.fail(f"{len(got)} bytes too many in the file of strips")

    def end(self):
        """the line's end is an error: a clear line, and another status than 0"""
        os.close(self.fd)
        os.kill(self.joiner, signal.SIGTERM)
        try:
            said = self.box.communicate(timeout=20)[1].decode()
        except subprocess.TimeoutExpired:
            self.fail("the box does not end with the line")
        if not is_failure(self.box.returncode, said):
            self.fail(f"the box ended with status {self.box.returncode} and said {said!r}")
        took = time.monotonic() - self.before
        print(f"line: {self.sent} frames and updates, {self.pauses} pauses, {len(self.model.prints)} prints, {took:.0f} s: every answer was the expected one")


# ---- How the box starts and ends.
def is_failure(status, said):
    """a clear line, and another status than 0"""
    return status != 0 and said.startswith("box: ") and said.count("\n") == 1


def ended(words, s, out=subprocess.PIPE):
    """status, answers and the lines said, where standard input is these bytes or a file"""
    lent = {"input": s} if isinstance(s, bytes) else {"stdin": s}
    r = subprocess.run(words, stdout=out, stderr=subprocess.PIPE, timeout=60, **lent)
    return r.returncode, r.stdout or b"", r.stderr.decode()


def fails(words, s, why, answers=b"", out=subprocess.PIPE):
    """it fails and says why, behind these answers alone"""
    status, got, said = ended(words, s, out)
    if not is_failure(status, said) or not said.startswith("box: " + why) or got != answers:
        sys.exit(f"line: {words[1:]}: status {status}, answers {got!r}, said {said!r} and not {why!r}")


def emptied(words, strips, message):
    """a print goes to the end of a file that the box made and that somebody has emptied since"""
    box = subprocess.Popen(words, stdin=subprocess.PIPE, stdout=subprocess.PIPE)
    box.stdin.write(message + frame(0x94))
    box.stdin.flush()
    got = box.stdout.read(2)
    os.truncate(strips, 0)
    got += box.communicate(frame(0x94), timeout=20)[0]
    if got != ACK * 3 or open(strips, "rb").read() != b"\x0a\x01\x01J000000008\x0d":
        sys.exit("line: a print is not at the end of a file that was emptied")
    os.remove(strips)


def starts_and_ends(run, strips):
    """wrong words; a file for the strips; reads and writes that fail"""
    good = [run, "box", "1", MOMENT]
    for words, why in (
        ([], "takes"), (["1"], "takes"), (["1", MOMENT, "3", strips, "x"], "takes"),
        (["0", MOMENT], "the type"), (["5", MOMENT], "the type"), (["1", "2023-02-29T23:59:58"], "the start time"),
        (["1", MOMENT, "0"], "the watchdog"), (["1", MOMENT, "100"], "the watchdog"), (["1", MOMENT, "3", strips + "/none"], "the file"),
    ):
        fails([run, "box"] + words, b"\x05", why)
    message = frame(0x0C, b"\x01" + GOOD + b"\x0a\x01\x01J\x1c\x01\x1c\x0d")
    printed = b"\x0a\x01\x01J000000007\x0d"
    for words in [], ["3"]:  # the strips go nowhere
        if ended(good + words, message + frame(0x94)) != (0, ACK + ACK, ""):
            sys.exit("line: a print is not taken")
    for k in 1, 2:  # a file that isn't there is made, one that is there is appended to
        if ended(good + ["3", strips], message + frame(0x94)) != (0, ACK + ACK, "") or not os.path.exists(strips) or open(strips, "rb").read() != printed * k:
            sys.exit(f"line: print {k} is not in the file")
    os.remove(strips)
    emptied(good + ["3", strips], strips, message)
    fails(good + ["3", "/dev/full"], b"\x05" + message + frame(0x94) + b"\x05", "a print", ACK + ACK)  # it is not acknowledged, and nothing behind it
    with open("/dev/full", "wb") as full:
        fails(good, b"\x05\x05", "an answer", out=full)
    nobody, out = os.pipe()
    os.close(nobody)
    fails(good, b"\x05\x05", "an answer", out=out)
    os.close(out)
    folder = os.open("/", os.O_RDONLY)
    fails(good, folder, "standard input")
    os.close(folder)


def default_watchdog(run):
    """3 s: two and a half are none, three and a half are silence"""
    box = subprocess.Popen([run, "box", "1", MOMENT], stdin=subprocess.PIPE, stdout=subprocess.PIPE)
    for wait, s in (0, b"\x05"), (0.5, b"\x94"), (2.5, b"\x00\x00\x94"), (0.5, b"\x02a"), (3.5, b"\x05"), (0, b"\x94\xff\xff"), (3.5, b"\x05"):
        time.sleep(wait)
        box.stdin.write(s)
        box.stdin.flush()
    box.stdin.close()
    got = box.stdout.read()
    if got != ACK + NACK + ACK + NACK + ACK or box.wait(20) != 0:
        sys.exit(f"line: over pauses the box answered {got.hex()}")


def cut_off(run, waiting):
    """the line's end is an error, whether the box waits for bytes just then or not"""
    portal, line = os.openpty()
    tty.setraw(line)
    attributes = termios.tcgetattr(line)
    attributes[6][termios.VMIN], attributes[6][termios.VTIME] = 0, 5
    termios.tcsetattr(line, termios.TCSANOW, attributes)
    box = subprocess.Popen([run, "box", "1", MOMENT], stdin=line, stdout=line, stderr=subprocess.PIPE, start_new_session=True)
    os.close(line)
    os.write(portal, b"\x05")
    if os.read(portal, 1) != ACK:
        sys.exit("line: the box does not answer")
    if not waiting:
        os.killpg(box.pid, signal.SIGSTOP)
        time.sleep(0.2)
    os.close(portal)
    if not waiting:
        os.killpg(box.pid, signal.SIGCONT)
    try:
        said = box.communicate(timeout=20)[1].decode()
    except subprocess.TimeoutExpired:
        os.killpg(box.pid, signal.SIGKILL)
        sys.exit("line: the box does not end with the line")
    if not is_failure(box.returncode, said):
        sys.exit(f"line: with the line the box ended with status {box.returncode} and said {said!r}")


run, portal, box, strips, joiner, seed = sys.argv[1:]
starts_and_ends(run, strips)
default_watchdog(run)
cut_off(run, True)
cut_off(run, False)
Line(run, portal, box, strips, int(joiner), int(seed)).go()
