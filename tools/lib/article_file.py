"""The article in one file, and what is wrong in it: links that lead nowhere, and numbers that belong to README.md."""
import html
import os
import re

from lib.files import HOME, text_of
from lib.page_file import page_of

FILE = "docs/article.html"
LINK = re.compile(r'href="(?!https?:|data:)([^"#]*)#?([^"]*)"')


def article():
    """Returns the article as one file, with the plans of its figures."""
    plans = dict.fromkeys(re.findall(r'data-plan="(.*?)"', text_of("page/article.html")))
    return page_of({"plans": [{"path": it, "text": text_of(it)} for it in plans]}, "article", "article")


def headings_of(path):
    """The names by which a link leads to a part of a page."""
    text = text_of(path)
    if path.endswith(".html"):
        return re.findall(r'\bid="([^"]+)"', text)
    titles = re.findall(r"^#+ (.*)$", text, re.M)
    return [re.sub(r"[^\w -]", "", it.lower()).replace(" ", "-") for it in titles]


def faults_of_links(page):
    """The links that lead nowhere, a line each. What follows the # of docs/index.html is a moment."""
    for path, part in LINK.findall(page):
        file = os.path.normpath(os.path.join("docs", path)) if path else FILE
        if not os.path.isfile(f"{HOME}/{file}"):
            yield f"there is no {file}"
        elif part and file != "docs/index.html" and part not in (headings_of(file) if path else headings_in(page)):
            yield f"{file} has no part {part}"


def headings_in(page):
    return re.findall(r'\bid="([^"]+)"', page)


def table_of_costs():
    """The rows of README.md's table of costs, below its head."""
    head = "| Sites | Who has asked waits for |"
    table = text_of("README.md").partition(head)[2].partition("\n\n")[0]
    if not table:
        raise ValueError(f"README.md has no table with the head {head}")
    return table.partition("\n")[2]


def faults_of_costs(page):
    """Numbers of README.md's table of costs that the article has. They are measured anew, and stand once."""
    table = table_of_costs()
    text = html.unescape(re.sub(r"<(script|style).*?</\1>|<[^>]*>", " ", page, flags=re.S))
    numbers = {it for it in re.findall(r"\d+\.\d+", table)}
    return [f"{it} is a number of the table of costs in README.md" for it in sorted(numbers) if f" {it} " in text]
