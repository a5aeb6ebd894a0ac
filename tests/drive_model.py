"""An independent model of the program drive: requests, words, clocks, refusals and banks, by the driver's policy.

It shares no code with the crates. A script (see docs/DRIVE.md) goes in, the lines that drive must print come out.
"""

FIELDS = ["cl", "rows", "rcd", "rp", "ras", "rasmax", "rc", "rrd", "wr", "bwc", "n", "ret", "pup"]
NEVER = -10**9


class Bank:
    def __init__(self):
        self.row = None
        self.opened = NEVER
        self.closed = NEVER
        self.written = NEVER


class Driver:
    """Open page: rows stay open, registers are loaded only when they differ, each command comes as soon as it may."""

    def __init__(self, sheet):
        self.sheet = sheet
        self.cells = [0] * (sheet["rows"] * 512)
        self.mask = 0
        self.colour = 0
        self.blocked = NEVER
        self.bus = NEVER
        self.banks = [Bank(), Bank()]
        s = sheet
        # switch-on, pup quiet clocks, PRE, LMR, REF, REF
        first = s["pup"] + 1
        self.clock = first + s["rp"] + 2 + s["rc"]
        for bank in self.banks:
            bank.closed = first
        self.free = self.clock + s["rc"]
        self.period = (s["ret"] - 1024) // s["n"]
        self.due = self.clock + self.period

    def at(self, *times):
        """A command at the next clock, or when all distances are met."""
        self.clock = max([self.clock + 1, self.free] + list(times))
        return self.clock

    def close(self, banks):
        s = self.sheet
        # a distance of a bank that is idle already is waited for all the same
        times = [max(b.opened + s["ras"], b.written + s["wr"]) for b in banks]
        t = self.at(*times)
        for b in banks:
            if b.row is not None:
                b.row = None
                b.closed = t

    def refresh(self):
        s = self.sheet
        times = [b.closed + s["rp"] for b in self.banks] + [b.opened + s["rc"] for b in self.banks]
        t = self.at(*times)
        self.free = t + s["rc"]
        self.due += self.period

    def clear(self):
        self.close(self.banks)
        if self.due <= self.clock:
            self.refresh()

    def tidy(self):
        old = any(b.row is not None and b.opened + 1024 < self.clock for b in self.banks)
        if old or self.due <= self.clock:
            self.clear()

    def load(self, name, word):
        if getattr(self, name) != word:
            t = self.at(self.blocked + self.sheet["bwc"])
            self.free = t + 2
            setattr(self, name, word)

    def select(self, row):
        """Opens a row of all rows of both banks; the next clock can then bring a column command."""
        s = self.sheet
        number = row // s["rows"]
        bank, other, row = self.banks[number], self.banks[1 - number], row % s["rows"]
        if bank.row != row:
            if bank.row is not None:
                self.close([bank])
            t = self.at(bank.closed + s["rp"], bank.opened + s["rc"], other.opened + s["rrd"])
            bank.row, bank.opened = row, t
        self.wait_until(max(self.free, bank.opened + s["rcd"], self.blocked + s["bwc"]))
        return bank

    def wait_until(self, t):
        self.clock = max(self.clock, t - 1)

    def rows_of(self, address, length):
        while length > 0:
            part = min(length, 256 - address % 256)
            yield address, part
            address, length = address + part, length - part

    def read(self, address, length):
        words = []
        for a, n in self.rows_of(address, length):
            self.select(a // 256)
            self.clock += n + self.sheet["cl"]
            self.bus = self.clock + 2
            words += self.cells[a:a + n]
        return words

    def write(self, pen, address, words):
        reach = self.reach(pen)
        self.load("mask", reach)
        done = 0
        for a, n in self.rows_of(address, len(words)):
            bank = self.select(a // 256)
            self.wait_until(self.bus)
            for i in range(n):
                self.clock += 1
                bank.written = self.clock
                self.cells[a + i] = self.cells[a + i] & ~reach | words[done] & reach
                done += 1

    def fill(self, pen, address, length):
        reach = self.reach(pen)
        self.load("mask", reach)
        self.load("colour", pen[2])
        for a, n in self.rows_of(address, length):
            bank = self.select(a // 256)
            self.wait_until(self.bus)
            for _ in range(a // 8, (a + n - 1) // 8 + 1):
                self.clock = max(self.clock + 1, self.blocked + self.sheet["bwc"])
                self.blocked = bank.written = self.clock
            for i in range(n):
                self.cells[a + i] = self.cells[a + i] & ~reach | pen[2] & reach

    def wait(self, clocks):
        end = self.clock + clocks
        self.clear()
        while self.clock < end:
            self.wait_until(min(self.due, end) + 1)
            if self.due <= self.clock:
                self.refresh()

    @staticmethod
    def reach(pen):
        lanes, mask, _ = pen
        return sum(mask & 0xFF << 8 * j for j in range(4) if lanes >> j & 1)


def refusal(driver, address, length):
    words = driver.sheet["rows"] * 512
    if address >= words:
        return 21
    if not 1 <= length <= 256 or address + length > words:
        return 22
    if 2**62 - driver.clock < 2_000_000:
        return 23
    return None


def answer(driver, request):
    """The line for one request: its name, its pen, and its numbers."""
    kind, pen, numbers = request
    if kind == "wait":
        number = 22 if not 1 <= numbers[0] <= 1_000_000 else None
    elif kind == "write":
        number = refusal(driver, numbers[0], len(numbers) - 1)
    else:
        number = refusal(driver, numbers[0], numbers[1])
    if number:
        return "refused\t%d" % number
    start, words = driver.clock, []
    if kind == "wait":
        driver.wait(numbers[0])
    else:
        driver.tidy()
        if kind == "read":
            words = driver.read(numbers[0], numbers[1])
        elif kind == "write":
            driver.write(pen, numbers[0], numbers[1:])
        else:
            driver.fill(pen, numbers[0], numbers[1])
    return "\t".join(["clocks", str(driver.clock - start)] + ["%08X" % w for w in words])


def requests(lines):
    pen = (15, 0xFFFFFFFF, 0)
    for line in lines:
        kind, *fields = line.split("\t")
        if kind == "pen":
            pen = tuple(int(f, 16) for f in fields)
        elif kind == "write":
            yield kind, pen, [int(fields[0])] + [int(f, 16) for f in fields[1:]]
        else:
            yield kind, pen, [int(f) for f in fields]


def expected(script):
    """What drive prints for a well-formed script."""
    head, *lines = script.rstrip("\n").split("\n")
    driver = Driver(dict(zip(FIELDS, (int(f) for f in head.split("\t")))))
    out = [answer(driver, r) for r in requests(lines)]
    out.append("count\t%d" % driver.clock)
    for name, bank in zip("AB", driver.banks):
        out.append("%s\tidle" % name if bank.row is None else "%s\tactive\t%d\tmasked" % (name, bank.row))
    return "\n".join(out) + "\n"
