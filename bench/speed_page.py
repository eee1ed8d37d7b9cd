"""The tables of docs/SPEED.md, each below a line that marks it."""
import os

PAGE = os.path.join(os.path.dirname(os.path.abspath(__file__)), "..", "docs", "SPEED.md")


def lines_of_page():
    """Returns the lines of the page."""
    with open(PAGE, encoding="utf-8") as file:
        return file.read().splitlines()


def end_of_table(lines, begin):
    """Returns the index after the table that begins here."""
    while begin < len(lines) and lines[begin].startswith("|"):
        begin += 1
    return begin


def table_at(lines, marker):
    """Returns where the table below this line begins and ends."""
    begin = lines.index(marker) + 1
    return begin, end_of_table(lines, begin)


def write(marker, table, run=None, run_line=None):
    """Replaces a table of the page, and the lines that the pattern `run` matches, if it is given."""
    lines = lines_of_page()
    begin, end = table_at(lines, marker)
    lines[begin:end] = table
    if run:
        lines = [run_line if run.match(line) else line for line in lines]
    with open(PAGE, "w", encoding="utf-8") as file:
        file.write("\n".join(lines) + "\n")
