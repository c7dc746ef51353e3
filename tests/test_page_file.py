"""Tries the page in one file, and the addresses that it copies, in a headless Chromium."""
from contextlib import contextmanager

import pytest
from calls import HOW
from chromium import ASKED, FILE, RING, opened, started
from lib.files import HOME
from lib.graphs import graph_of, plan_of
from lib.process import answer_of

EIGHT = plan_of([2] * 8, graph_of("ring:8")[1]).decode()
PAIR = "plans/pair.toml"
# What ./show is given for a file of each kind.
FILES = {"lesson": ["tests/tables/two_moments.toml"], "choices": [PAIR, "--choices", "1,1,0,9,0"], "run": [PAIR]}


@contextmanager
def sent(page):
    """Yields the page at the address that it copies, as it is pasted from the clipboard, in another browser."""
    page.do("#link")
    page.until("one('#link').textContent === 'Copied'")
    page.do("o", "#text", "^a", "^v")
    with started() as driver, opened(driver, page.value("#text")) as other:
        other.open()
        yield other


@pytest.mark.slow
def test_copied_address(page):
    """A plan of one's own of eight sites is stepped there and back, and a copied address opens the same moment
    elsewhere."""
    page.open(RING)
    page.write_plan(EIGHT)
    said = [page.said(), *((page.do("#step"), page.said())[1] for _ in range(12))]
    for number in range(11, 4, -1):
        page.do("#back")
        assert page.differs(said[number]) == []
    with sent(page) as other:
        assert other.event() == 5 and other.differs(said[5]) == []
        other.do("End")
        assert other.differs(said[12]) == []


@pytest.mark.slow
def test_lesson_in_an_address(page):
    """The reader's own lesson is whole in the address, and opens elsewhere at the same moment."""
    page.open(f"{RING}&choices={ASKED}")
    for title in ("first", "second"):
        page.do("#keep")
        page.fill("#keep-title", title)
        page.do("#keep-it", "ArrowLeft")
    page.do("PageUp")
    with sent(page) as other:
        assert other.moment() == ["Moment 1 of 2", "first", 10]
        other.do("PageDown")
        assert other.text("#moment-title") == "second"


@pytest.mark.built("dine_trace")
@pytest.mark.parametrize("kind", FILES)
def test_file(page, tmp_path, kind):
    """A file that ./show writes begins with the lesson, the choices or the run on threads that it was made for."""
    words = FILES[kind] + ["--export", f"{tmp_path}/one.html", *["--unproved"] * HOW["is_unproved"]]
    answer = answer_of(words, f"{HOME}/show", cwd=HOME)
    assert answer.status == 0, answer.error
    page.address = f"file://{tmp_path}/one.html"
    page.open()
    if kind == "lesson":
        assert page.moment() == ["Moment 1 of 2", "one", 2]
        page.do("PageDown")
        page.open(page.hash("packed="))
        assert (page.moment(), page.count("#picture .site")) == (["Moment 2 of 2", "own", 0], 3)
        for address, number in (("moment=2", 2), ("speed=2", 1), ("moment=9", 2)):
            page.open(address)
            assert page.text("#moment-count") == f"Moment {number} of 2"
    elif kind == "choices":
        page.do("End")
        assert page.choices() == [1, 1, 0, 0] and page.unseen("#threads")
        assert page.do("f", "ArrowLeft", "t", "o", "Escape") == 4
    else:
        assert (page.event(), page.text("#timeline-name")) == (0, "What the threads did")
        page.do("End")
        assert page.count("#enabled button") == 0


def test_frame(page, tmp_path):
    """In a frame of another page the file begins too, and a sandbox changes nothing."""
    frame = f'<iframe sandbox="allow-scripts" src="{FILE}" width=1200 height=700></iframe>'
    (tmp_path / "outer.html").write_text(frame)
    page.driver.get(f"file://{tmp_path}/outer.html")
    page.driver.switch_to.frame(page.one("iframe"))
    page.wait()
    page.js("one('#step').click()")
    page.wait()
    assert page.event() == 1
    page.driver.switch_to.default_content()
