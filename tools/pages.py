"""Reads figures off the tables of docs/, and numbers off definitions, so that no figure is typed in a second time."""
import pathlib
import re

TOP = pathlib.Path(__file__).resolve().parent.parent


class NoFigure(Exception):
    """A table, a row or a definition that is not there."""


def cells(line):
    return [cell.strip() for cell in line.strip().strip("|").split("|")]


def tables(page):
    """The tables of a page: of each the titles of its columns, and its rows."""
    lines = (TOP / "docs" / page).read_text().splitlines()
    for place, line in enumerate(lines):
        if line.startswith("|---"):
            rows = []
            for below in lines[place + 1:]:
                if not below.startswith("|"):
                    break
                rows.append(cells(below))
            yield cells(lines[place - 1]), rows


def figure(page, row, column):
    """The cell of the one row that begins so, in the column with this title."""
    found = [line[titles.index(column)] for titles, rows in tables(page) if column in titles
             for line in rows if line[0].startswith(row)]
    if len(found) != 1:
        raise NoFigure(f"docs/{page} has {len(found)} figures '{column}' of '{row}'")
    return found[0]


def numbers(text):
    """The numbers of a cell: digits with commas, and perhaps `million` behind them."""
    found = re.findall(r"(\d[\d,]*(?:\.\d+)?)( million)?", text)
    return [float(digits.replace(",", "")) * (1e6 if million else 1) for digits, million in found]


def number(page, row, column):
    return numbers(figure(page, row, column))[0]


def defined(path, name):
    """The number that a definition or a constant of a file of crates/ gives: its line is `NAME = NUMBER`."""
    text = (TOP / "crates" / path).read_text()
    found = re.search(rf"(?m)^\s*(?:pub )?(?:const )?{re.escape(name)}(?:: \w+)? = ([\d_]+|2 \^ \d+);?$", text)
    if not found:
        raise NoFigure(f"crates/{path} does not say what `{name}` is")
    base, _, power = found.group(1).replace("_", "").partition(" ^ ")
    return int(base) ** int(power or 1)


def said(path, form):
    """The number that a definition has where the form, a regular expression, has its group."""
    found = re.search(form, (TOP / "crates" / path).read_text())
    if not found:
        raise NoFigure(f"crates/{path} has nothing of the form {form}")
    return int(found.group(1))
