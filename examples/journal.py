"""A log's frames and entries, read by docs/FORMAT.md alone."""
from typing import NamedTuple

ENTRIES = ["Start", "Submit", "Step", "Undo", "Report", "Up", "Down", "Abort"]
KINDS = {
    1: "CreateNamespace", 2: "DropNamespace", 3: "CreateTable", 4: "DeleteTable", 5: "EnableTable", 6: "DisableTable", 7: "ModifyTable",
    8: "SplitRegion", 9: "MergeRegions", 10: "Transit", 11: "ServerCrash", 20: "AddRegions", 21: "DropRegions", 23: "AssignCall",
    24: "CloseCall", 25: "FenceCall", 26: "LayoutCall", 27: "SweepLayout",
}
STATES = ["Offline", "Opening", "Opened", "Closing", "Closed", "FailedOpen", "AbnormallyClosed"]
TOLD = ["Nothing", "Opened", "FailedOpen", "Closed", "Gone", "Fenced", "LaidOut", "Refused", "Swept"]
CAUSES = [
    None, "NsExists", "NsMissing", "NsNotEmpty", "TableExists", "TableMissing", "NotDisabled", "NotEnabled", "RegionMissing",
    "RegionNotLive", "KeyOutside", "NotAdjacent", "LayoutRefused", "Aborted",
]
TABLE_STATES = ["enabling", "enabled", "disabling", "disabled"]
STATUSES = ["live", "split", "merged"]
GOALS = ["assign", "unassign", "move"]
VERBS = ["open", "close", "fence", "lay out", "sweep up"]


class BadLog(Exception):
    """Why bytes are no log, or no journal."""


def body_of(data):
    """Where the first gate of a log stands, where its bytes end, and whether bytes may follow its closed gate."""
    if data[:8] != b"HMASTERJ" or len(data) < 10:
        raise BadLog("the file doesn't begin as a log")
    if data[8] == 1:
        return 9, len(data), True
    if len(data) < 11:
        raise BadLog("the file has no gate")
    if data[9] != 0x2B:
        return 10, len(data), True
    place, end = int.from_bytes(data[-8:], "little"), len(data) - 8
    if not 11 <= place < end or end - place > place - 10:
        raise BadLog("the file is a log that is being moved, and its frames aren't where its last bytes say")
    return place, end, False


def frames_of(data):
    """The frames of a log of either version, up to its closed gate."""
    gate, end, is_free = body_of(data)
    while data[gate] == 0x2B:
        length = int.from_bytes(data[gate + 1:gate + 5], "little")
        if not 1 <= length <= 65_536 or gate + 5 + length >= end:
            raise BadLog(f"the gate at byte {gate} is open, and no whole frame follows it")
        yield data[gate + 5:gate + 5 + length]
        gate += 5 + length
    if not is_free and gate != end - 1:
        raise BadLog(f"the gate at byte {gate} is closed, and more follows it")


class Region(NamedTuple):
    table: str
    id: int

    def __str__(self):
        return f"{self.table},{self.id}"


class Row(NamedTuple):
    """A row of the catalog: what it is of, a text of it, and of a region its keys, its status and its parents."""
    words: str
    status: str = ""
    parents: tuple = ()


class Edit(NamedTuple):
    key: object  # the text of a namespace or a table, or a region
    after: Row   # or None


class Made(NamedTuple):
    """What a request, a child or a follower makes: its kind, what it is about, where it begins, and more in words."""
    kind: int
    subject: object
    first: int = 0
    words: str = ""


class Out(NamedTuple):
    answer: int
    value: int  # a row, what it ended with, or a cause
    edits: list
    children: list
    call: str   # or None
    place: tuple
    followers: list


class Entry(NamedTuple):
    """An entry by its name; what isn't in one of that name is None."""
    name: str
    pid: int = None
    server: str = None
    made: Made = None
    nonce: str = None
    row: int = None
    told: int = None
    out: Out = None
    sheets: dict = None


def key_text(key):
    """A key as scripts have it."""
    return "".join(chr(byte) if 0x21 <= byte <= 0x7E and byte != 0x5C else f"\\x{byte:02x}" for byte in key) or "\\-"


class Reader:
    """The fields of a frame, from the left."""

    def __init__(self, frame):
        self.frame, self.at = frame, 0

    def take(self, count):
        if self.at + count > len(self.frame):
            raise BadLog(f"a field runs past the end of its frame, from byte {self.at} of it on")
        self.at += count
        return self.frame[self.at - count:self.at]

    def number(self, width=8):
        return int.from_bytes(self.take(width), "little")

    def byte(self):
        return self.number(1)

    def one_of(self, values):
        number = self.byte()
        if number >= len(values) or values[number] is None:
            raise BadLog(f"there is no value {number}, at byte {self.at - 1} of its frame")
        return values[number]

    def key(self):
        return self.take(self.number(2))

    def text(self):
        return self.key().decode("latin-1")

    def option(self, read):
        return read() if self.one_of([False, True]) else None

    def list(self, read):
        return [read() for _ in range(self.number(2))]

    def table(self):
        namespace, qualifier = self.text(), self.text()
        return qualifier if namespace == "default" else f"{namespace}:{qualifier}"

    def region(self):
        return Region(self.table(), self.number())

    def server(self):
        return f"{self.text()},{self.number(2)},{self.number()}"

    def sheet(self):
        kind = self.byte()
        return kind, self.list(lambda: tuple(self.take(4)))

    def catalog_key(self):
        return [lambda: f"namespace {self.text()}", lambda: f"table {self.table()}", self.region][self.one_of([0, 1, 2])]()

    def catalog_row(self):
        sort = self.one_of([0, 1, 2])
        if sort == 0:
            return Row("is there")
        if sort == 1:
            return Row(f"is {self.one_of(TABLE_STATES)}, version {self.number()}")
        start, end, status = self.key(), self.key(), self.one_of(STATUSES)
        return Row(f"is {status}, from {key_text(start)} to {key_text(end)}", status, tuple(self.list(self.number)))

    def edit(self):
        key, _, after = self.catalog_key(), self.option(self.catalog_row), self.option(self.catalog_row)
        return Edit(key, after)

    def request(self):
        kind = self.byte()
        if kind in [1, 2]:
            return Made(kind, self.text())
        if kind in [3, 4, 5, 6, 7]:
            table = self.table()
            if kind == 3:
                return Made(kind, table, words="".join(f" {key_text(key)}" for key in self.list(self.key)))
            return Made(kind, table, words=f" to version {self.number()}" if kind == 7 else "")
        if kind == 8:
            return Made(kind, self.region(), words=f" at {key_text(self.key())}")
        if kind == 9:
            regions = self.list(self.region)
            return Made(kind, regions[0], words="".join(f" with {region}" for region in regions[1:]))
        if kind == 10:
            region, to = self.region(), self.option(self.server)
            return Made(kind, region, first=5, words=f" to {to}" if to else "")
        raise BadLog(f"there is no request of kind {kind}")

    def child(self):
        """The procedures that a child stands for."""
        kind = self.byte()
        if kind == 0:
            table, ids, goal = self.table(), self.list(self.number), self.one_of(GOALS)
            return [Made(10, Region(table, each), {"assign": 0, "unassign": 3, "move": 5}[goal], f" to {goal}") for each in ids]
        if kind in [11, 25]:
            return [Made(kind, self.server())]
        if kind in [20, 21]:
            table = self.table()
            _ = (self.number(), self.list(self.key)) if kind == 20 else self.list(self.number)
            return [Made(kind, table)]
        if kind in [23, 24]:
            region = self.region()
            return [Made(kind, region, words=f" at {self.server()}")]
        if kind in [26, 27]:
            return [Made(kind, self.number())]
        raise BadLog(f"there is no child of kind {kind}")

    def cause(self):
        self.one_of(CAUSES)
        return self.frame[self.at - 1]

    def call(self):
        verb = self.one_of(VERBS)
        return f"{verb} " + {"open": lambda: str(self.region()), "close": lambda: str(self.region()), "fence": self.server}.get(
            verb, lambda: f"the files of procedure {self.number()}")()

    def out(self):
        answer = self.one_of(range(6))
        value = {3: lambda: self.one_of(range(len(TOLD))), 4: self.cause}.get(answer, self.byte)()
        edits, children = self.list(self.edit), sum(self.list(self.child), [])
        call = self.option(self.call)
        place = self.option(lambda: (self.one_of(STATES), self.option(self.server)))
        return Out(answer, value, edits, children, call, place, sum(self.list(self.child), []))


def read_fields(reader):
    """An entry from the left of its frame on."""
    name = reader.one_of(ENTRIES)
    if name == "Start":
        return Entry(name, sheets=dict(reader.list(reader.sheet)))
    if name == "Submit":
        return Entry(name, nonce=f"{reader.number()}:{reader.number()}", made=reader.request())
    if name in ["Up", "Down"]:
        return Entry(name, server=reader.server())
    pid = reader.number()
    if name == "Step":
        return Entry(name, pid, server=reader.option(reader.server), out=reader.out())
    if name == "Undo":
        return Entry(name, pid, row=reader.byte(), out=reader.out())
    return Entry(name, pid, told=reader.one_of(range(len(TOLD))) if name == "Report" else None)


def entries_of(data):
    """The entries of a log."""
    for number, frame in enumerate(frames_of(data)):
        reader = Reader(frame)
        try:
            entry = read_fields(reader)
        except BadLog as why:
            raise BadLog(f"frame {number}: {why}") from why
        if reader.at != len(frame):
            raise BadLog(f"frame {number}: bytes follow the entry, from byte {reader.at} on")
        yield entry
