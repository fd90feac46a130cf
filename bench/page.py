"""Parts of docs/PERFORMANCE.md that are made by a program of this folder: each stands between its two marks."""
import os

DOCS = os.path.join(os.path.dirname(os.path.dirname(os.path.realpath(__file__))), "docs")
PAGE = os.path.join(DOCS, "PERFORMANCE.md")


def put(begin, end, text):
    """Puts the text between the marks, which have to stand on the page."""
    with open(PAGE, encoding="utf-8") as file:
        page = file.read()
    before, began, rest = page.partition(begin)
    _, ended, after = rest.partition(end)
    if not (began and ended):
        raise SystemExit(f"{PAGE} lacks the marks {begin.strip()} and {end.strip()}")
    with open(PAGE, "w", encoding="utf-8") as file:
        file.write(before + began + text + "\n" + ended + after)


def row(*cells):
    return "| " + " | ".join(cells) + " |\n"
