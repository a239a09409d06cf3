"""Which lines a refused run may say, as docs/REFUSALS.md lists them."""
import re

from ends import TOP

PAGE = TOP / "docs" / "REFUSALS.md"
OPTIONS = re.findall(r"`--([a-z-]+)", (TOP / "README.md").read_text(encoding="utf-8"))
FURTHER = {  # words of a line that go on with those of a table under this heading
    "Grammar": "Reasons of a line",
    "ClockRefused": "Clock words",
    "Clock": "Clock words",
    "CodeRefused": "Time codes",
}


def rows_of(page):
    """The rows of the tables by the heading above them, each a list of cells without the header."""
    heading, found = None, {}
    for line in page.split("\n"):
        if line.startswith("#"):
            heading = line.lstrip("# ")
        elif line.startswith("| `"):
            found.setdefault(heading, []).append([cell.strip() for cell in line.strip("|").split(" | ")])
    return found


def spans(cell):
    return re.findall(r"`([^`]+)`", cell)


def further(found, heading):
    """The words that a table explains. FAULT stands for any word of the time codes."""
    words = [word for row in found[heading] for word in spans(row[0])]
    codes = further(found, "Time codes") if any("FAULT" in word for word in words) else []
    return words + codes


class Documented:
    """Tells whether a line with this status is one that the page lists."""

    def __init__(self):
        found = rows_of(PAGE.read_text(encoding="utf-8"))
        rows = [row for listed in found.values() for row in listed if row[0].startswith("`refused;")]
        self.forms = re.compile("|".join(form for row in rows for form in self.forms_of(row, found)))

    @staticmethod
    def forms_of(row, found):
        """The forms of a row's lines: numbers are any numbers, and the last word is any that the row or a table has."""
        for line in spans(row[0]):
            words = line.split(";")
            tables = (name for name in words[2:-1] if name in FURTHER and (name != "Clock" or words[1] == "5"))
            table = next(tables, None)
            if table:
                begun, last = words[: words.index(table) + 1 + (table == "Grammar")], further(found, FURTHER[table])
            elif words[2] in ("NeedOption", "OutOfRange"):
                begun, last = words[:-1], OPTIONS
            else:
                begun, last = words[:-1], [words[-1]] + [word for cell in row[1:] for word in spans(cell)]
            for word in last:
                parts = enumerate([*begun, word])
                yield ";".join(r"\d+" if part.isdigit() and at > 1 else re.escape(part) for at, part in parts)

    def has(self, line, status):
        return bool(self.forms.fullmatch(line)) and line.split(";")[1] == str(status)


def is_documented(documented, end):
    """Status 0 with nothing on standard error; or a refusal that is listed, with further lines for people behind it."""
    if end.status == 0:
        return not end.notes
    listed = end.status is not None and documented.has(end.line, end.status) and (end.status == 8 or not end.out)
    return listed and all(line.startswith(b"  ") for line in end.notes.splitlines()[1:])
