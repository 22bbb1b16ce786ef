"""A network as CSV: up to three tables in one file, each begun by a row of titles. docs/USING.md has the form in words."""

import csv
import io

from . import times
from .faults import PERIOD
from .network import Network, Path, Register
from .reading import NUMBERS, Reading

TABLES = {"network": NUMBERS["network"], "register": ("register", *NUMBERS["register"]), "path": NUMBERS["path"]}
DUE = {"network": (), "register": ("register",), "path": TABLES["path"]}  # what no option can stand in for
TABLE_OF = {title: table for table, titles in TABLES.items() for title in titles}
WHOLE_RANGE = dict(zip(("floor", "ceiling"), PERIOD))
DELIMITERS = ",;\t"
UNREAD = None  # a cell of a row that is told as a fault
HOST = "host"
HOSTS_WINDOW = {"low": 0, "high": 0}


def delimiter(line):
    """The one of comma, semicolon and tab that the line has most of."""
    return max(DELIMITERS, key=line.count)


def title_row(cells):
    """Whether a row is one of titles: titles alone, or two at least and no number, so that a column of another name is told."""
    known = [cell.lower() in TABLE_OF for cell in cells if cell]
    return sum(known) == len(known) > 0 or sum(known) > 1 and not any(map(times.looks_like, cells))


def trimmed(cells):
    """Without the empty cells at the end: a spreadsheet fills every row up to its longest."""
    filled = [i for i, cell in enumerate(cells, start=1) if cell]
    return cells[:filled[-1]] if filled else []


def misnamed(name, i, others):
    """What is wrong with the name of register i, beside the others."""
    if not name:
        return "a register's name is missing"
    if not meaningful(name):
        return f"the name '{name}' begins with #, as a comment does"
    if not name.isprintable():
        return f"the name '{name}' has a control character in it"
    if name.lower() == HOST and i:
        return f"the first register is the host, and this one, which is called '{name}', is not the first"
    if name.lower() in TABLE_OF:
        return f"the name '{name}' is a column's title, and a row of titles begins a table"
    return f"a second register '{name}'" if name in others else None


class Table(Reading):
    """`given` has what options say where no column does: floor, ceiling, u, setup, hold, low and high, as words."""

    def __init__(self, unit, given):
        super().__init__(unit)
        self.given = {title: self.time(None, title, word) for title, word in given.items() if word is not None}
        self.titles = {}  # of each table, in the order of its columns
        self.rows = {table: [] for table in TABLES}  # line, and the cell under each title
        self.open = None

    def row(self, line, cells):
        if title_row(cells):
            self.begin(line, [cell.lower() for cell in trimmed(cells)])
            return
        if self.open is None:
            self.fault(line, f"no table has begun: a row of titles comes first, as {','.join(TABLES['path'])}")
            return
        titles = self.titles[self.open]
        cells = cells[:len(titles)] + trimmed(cells[len(titles):])
        if len(cells) != len(titles):
            self.fault(line, f"{len(cells)} cells, where the {self.open} table has {len(titles)} columns")
            cells += [UNREAD] * (len(titles) - len(cells))
        # A row that could not be read counts too, so that no other is taken to be at fault for it.
        self.rows[self.open].append((line, dict(zip(titles, cells))))

    def begin(self, line, titles):
        table = next(TABLE_OF[title] for title in titles if title in TABLE_OF)
        if table in self.titles:
            self.fault(line, f"a second {table} table")
        for title in titles:
            if title not in TABLES[table]:
                self.fault(line, f"'{title}' is no column of the {table} table, whose columns are {', '.join(TABLES[table])}")
            elif title in self.given:
                self.fault(line, f"{title} is given twice, by this column and by an option", title)
        for title in sorted({title for title in titles if titles.count(title) > 1}):
            self.fault(line, f"the column '{title}' stands here twice", title)
        for title in DUE[table]:
            if title not in titles:
                self.fault(line, f"the {table} table has no column '{title}'", title)
        self.open, self.titles[table] = table, titles

    def network(self):
        """The network of all the rows."""
        if not self.titles:
            if not self.faults:
                self.fault(None, f"no table: a row of titles is due, as {','.join(TABLES['path'])}")
            return None
        if "path" not in self.titles:
            self.fault(None, f"no table of paths: a row of titles is due, as {','.join(TABLES['path'])}")
        told = self.registers()
        names = {}
        for i, (line, name, _) in enumerate(told):
            if name is not UNREAD and (fault := misnamed(name, i, names)):
                self.fault(line, fault, "register", name)
            names.setdefault(name, i)
        registers = [self.register(i, line, cells) for i, (line, _, cells) in enumerate(told)]
        paths = [self.path(p, line, cells, names) for p, (line, cells) in enumerate(self.rows["path"])]
        return Network(*self.header(), registers, paths, [name for _, name, _ in told])

    def registers(self):
        """Line, name and cells of each register. Without a table they are those that paths name, in that order, after the host."""
        if "register" in self.titles:
            return [(line, cells.get("register", ""), cells) for line, cells in self.rows["register"]]
        met = [cells.get(end, "") for _, cells in self.rows["path"] for end in ("from", "to")]
        if HOST not in met:
            self.fault(None, f"no path names the host: call the ports '{HOST}', or give a table of registers, which the host begins")
        return [(None, name, {}) for name in dict.fromkeys([HOST, *met]) if name]

    def header(self):
        rows = self.rows["network"] or [(None, {})]
        if "network" in self.titles and not self.rows["network"]:
            self.fault(None, "the network table has no row")
        for line, _ in rows[1:]:
            self.fault(line, "a second row of the network table")
        self.lines["header", 0] = rows[0][0]
        return [self.told(*rows[0], title, WHOLE_RANGE) for title in NUMBERS["network"]]

    def register(self, i, line, cells):
        self.lines["register", i] = line
        # An option's window is for the others: the host's latency is 0.
        numbers = {title: self.told(line, cells, title) for title in ("setup", "hold")}
        for title in ("low", "high"):
            fixed = i == 0 and title not in cells
            numbers[title] = HOSTS_WINDOW[title] if fixed else self.told(line, cells, title)
        return Register(**numbers)

    def path(self, p, line, cells, names):
        self.lines["path", p] = line
        ends = [self.end(line, cells, title, names) for title in ("from", "to")]
        return Path(*ends, self.told(line, cells, "dmin"), self.told(line, cells, "dmax"))

    def told(self, line, cells, title, otherwise={}):
        """The time that a cell or an option gives. What nothing gives is a fault, told once."""
        if title in cells:
            return None if cells[title] is UNREAD else self.time(line, title, cells[title])
        if title not in self.given and title not in otherwise and title not in self.fields:
            self.fault(None, f"{title} is given nowhere: neither by a column '{title}' nor by an option", title)
        return self.given.get(title, otherwise.get(title))

    def end(self, line, cells, title, names):
        name = cells.get(title, "")
        if name in names or name is UNREAD:
            return names.get(name)
        self.fault(line, f"{title}: '{name}' is no register of the table" if name else f"{title} is missing", title, name)
        return None


def read(text, unit="ps", given=None):
    """The reading, and the network that it gives."""
    reading = Table(unit, given or {})
    for line, cells in rows(text, reading.fault):
        reading.row(line, cells)
    return reading, reading.network()


def rows(text, fault):
    """The line and the cells of each row that says something. A row of titles decides by what the cells of its table are parted; a line that
    is no row is told to `fault`."""
    mark = ","
    for count, line in enumerate(text.split("\n"), start=1):
        if not meaningful(line):
            continue
        mark = next((one for one in DELIMITERS if title_row([cell.strip(' "') for cell in line.split(one)])), mark)
        try:
            cells = [cell.strip() for cell in next(csv.reader([line], delimiter=mark, strict=True, skipinitialspace=True))]
        except csv.Error as error:
            fault(count, f"no row of a table: {error}")
            continue
        if any(cells):
            yield count, cells


def meaningful(line):
    """Whether a line is neither blank nor a comment, which a spreadsheet may put in quotes."""
    return bool(line.strip()) and not line.lstrip(' \t"').startswith("#")


def write(network):
    """The three tables, in picoseconds."""
    out = io.StringIO()
    rows = csv.writer(out, lineterminator="\n")
    rows.writerows([TABLES["network"], (network.floor, network.ceiling, network.u), []])
    rows.writerow(TABLES["register"])
    rows.writerows((network.name(i), *register) for i, register in enumerate(network.registers))
    rows.writerows([[], TABLES["path"]])
    rows.writerows((network.name(p.source), network.name(p.sink), p.dmin, p.dmax) for p in network.paths)
    return out.getvalue()
