"""Valid inputs, made up: changes as lines of OPL, and scripts of `osmrepl replay`."""

TEXTS = ["", "ann", "a b", "outer", "100%", "x=1,y@2", "é", "日本", "\U0001f600", "a\tb", "k" * 126, "v" * 249,
         "ü" * 127]
BARE = frozenset("abcdefghijklmnopqrstuvwxyzABCDEFGHIJKLMNOPQRSTUVWXYZ0123456789_:;!?()/'\"~")
MOST_ID = (1 << 62) - 1
MOST = (1 << 32) - 1


def time_of(hour):
    """One of the hours from 2024 on."""
    return f"20{24 + hour // 8064:02}-{hour // 672 % 12 + 1:02}-{hour // 24 % 28 + 1:02}T{hour % 24:02}:00:00Z"


class Maker:
    """Makes inputs by draws."""

    def __init__(self, draws):
        self.draws, self.among = draws, draws.pick

    def number(self, least, most):
        """A number of a range: near its beginning, one of its ends, or any."""
        near = self.draws.number(least, min(most, least + 9))
        return self.among(near, least, most, self.draws.number(least, most))

    def id(self):
        return self.among(self.draws.number(-3, 40), self.number(-MOST_ID, MOST_ID))

    def text(self):
        return "".join(c if c in BARE else f"%{ord(c):x}%" for c in self.among(*TEXTS))

    def list(self, item, most=4):
        return ",".join(item() for _ in range(self.among(0, 1, self.draws.number(0, most))))

    def tag(self):
        return f"{self.text()}={self.text()}"

    def member(self):
        return f"{self.among('n', 'w', 'r')}{self.id()}@{self.text()}"

    def coordinate(self, most):
        units = self.number(-most * 10**7, most * 10**7)
        whole, rest = divmod(abs(units), 10**7)
        return f"{'-' if units < 0 else ''}{whole}" + (f".{rest:07}".rstrip("0") if rest else "")

    def head(self, kind, status):
        version, changeset, user = (self.number(1, MOST) for _ in range(3))
        return (f"{kind}{self.id()} v{version} d{status} c{changeset} t{time_of(self.draws.number(0, 9999))}"
                f" i{user} u{self.text()}")

    def change(self):
        """A line of OPL, without its end."""
        kind, status = self.among("n", "w", "r"), self.among("V", "V", "V", "D")
        tags = "T" + (self.list(self.tag) if status == "V" else "")
        if kind == "n":
            place = f"x{self.coordinate(180)} y{self.coordinate(90)}" if status == "V" else "x y"
        else:
            item = self.member if kind == "r" else lambda: f"n{self.id()}"
            place = ("N" if kind == "w" else "M") + (self.list(item, 9) if status == "V" else "")
        return f"{self.head(kind, status)} {tags} {place}"

    def changes(self):
        """An OPL file of a few changes."""
        return "".join(self.change() + "\n" for _ in range(self.draws.number(0, 9))).encode()

    def event(self, hour):
        number = self.draws.number(1, 6)
        return self.among(f"edit {self.change()}", f"edit {self.change()}", f"close {time_of(hour)}",
                          f"deliver {number} opl", f"deliver {number} o5c", "show", "save", "restart", "# nothing", "")

    def script(self):
        return "".join(self.event(hour) + "\n" for hour in range(self.draws.number(0, 25))).encode()
