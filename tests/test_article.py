"""Tries the article, docs/article.html: its figures in a headless Chromium, its text, and what tools/article says of
it."""
import html
import re

import pytest
from chromium import FILE, opened
from lib import article_file, page_file
from lib.files import HOME, text_of
from lib.process import Answer, answer_of

ARTICLE = FILE.replace("index.html", "article.html")
# What happens between the two sites, and which lines of the algorithm say so.
STORY = ["b grows hungry", "b asks a for their fork", "a takes the request of b", "a grows hungry",
         "a gives b their fork", "b takes the fork of a", "a asks b for their fork", "b takes the request of a",
         "b begins meal 1", "b ends meal 1", "b gives a their fork", "a takes the fork of b", "a begins meal 1"]
LINES = {"grows": "grow hungry", "asks": "send the token", "gives": "wash the fork", "begins": "eat", "ends": "think",
         "request": "a token arrives", "fork": "a fork arrives"}
# The sizes of the windows of students, in points.
SIZES = [(320, 568), (390, 844), (844, 390), (768, 1024), (1280, 800), (1920, 1080)]


@pytest.fixture
def article(chromium):
    with opened(chromium, ARTICLE) as it:
        it.open()
        yield it


def pressed(article, figure, words):
    """Presses the button of a figure that has these words, and returns what the figure says then."""
    article.js("all(arguments[0] + ' button').find((it) => it.textContent === arguments[1]).click()", figure, words)
    article.wait()
    return article.text(f"{figure} .said")


def test_plain_forks_deadlock(article):
    """After ten steps nobody can move, and there is no more step."""
    said = [pressed(article, "#plain", "Step") for _ in range(10)]
    assert said[9] == "Deadlock: a waits for e, e for d, d for c, c for b, b for a. None of them can ever eat."
    assert pressed(article, "#plain", "Step") == said[9] and article.count("#plain .canvas .edge.caught") == 5
    assert pressed(article, "#plain", "Back") == said[8] and pressed(article, "#plain", "Again").startswith("The start")


def test_pair(article):
    """The story of a dirty fork goes on event by event, and its lines light up. Then the reader chooses."""
    for words in STORY:
        _, verb, *rest = words.split()
        assert pressed(article, "#pair", "Step").startswith(f"{words}: ")
        assert LINES[rest[1] if verb == "takes" else verb] in "".join(article.texts("#pair .lines .lit")), words
    pressed(article, "#pair", "Again")
    assert article.texts("#pair .events button") == ["a grows hungry", "b grows hungry"]
    assert pressed(article, "#pair", "a grows hungry").startswith("a grows hungry: ")
    assert pressed(article, "#pair", "a begins meal 1").startswith("a begins meal 1: ")
    assert "a eating" in article.one("#pair svg").get_attribute("aria-label")


def test_ring(article):
    """A meal turns arrows, and whoever is last in them may eat if nobody has asked, as the text says. Marks fly at the
    end."""
    assert article.texts("#ring .canvas .rank text") == list("43210")
    for _ in range(10):
        said = pressed(article, "#ring", "Step")
    assert said.startswith("e begins meal 1: ") and article.texts("#ring .canvas .rank text") == list("32104")
    pressed(article, "#ring", "Again")
    article.look(motion="no-preference")
    pressed(article, "#ring", "a grows hungry")
    assert pressed(article, "#ring", "a begins meal 1").startswith("a begins meal 1: ")
    assert article.texts("#ring .canvas .rank text")[0] == "4"


def test_four_ways_in_the_text(article):
    """What the text says of the four ways can be seen: a deadlock, and what happens if a stops after its first meal."""
    run_all = "(one('#four-ways button.main').click(), null)"
    article.js(run_all)
    article.wait()
    assert [it[:8] for it in article.texts("#four-ways .end")] == ["Deadlock", *["All have"] * 3]
    article.js("(all('#four-ways option').find((it) => it.value === '0 after').selected = true, null)")
    article.js(run_all)
    article.wait()
    ends = article.texts("#four-ways .end")
    assert all("All others have eaten" in it for it in ends[1:3]) and "for ever" in ends[3]


def test_width_of_the_article(article):
    """The article fits into each window, also with large letters, and its figures are drawn in it."""
    found = {}
    for width, height in SIZES:
        article.look(width, height)
        article.wait("drawn")
        pressed(article, "#pair", "Step")
        found[width] = [max(0, it - width) for it in article.widthsWith(16, 32)]
        assert article.count("figure .canvas .site") == 12
    assert found == {width: [0, 0] for width, _ in SIZES}


def test_legend_explains(article):
    """A tap on a word of the legend says what it means."""
    article.js("(all('#pair .legend button').find((it) => it.textContent === 'token').click(), null)")
    assert article.text("#pair .explained-here").startswith("token: ")


@pytest.mark.early
def test_file_is_current():
    assert answer_of(["--check"], f"{HOME}/tools/article") == Answer(0, "3 passed, 0 failed\n", "")


@pytest.mark.early
def test_text_can_be_read_without_the_figures():
    """The text is in the file as plain HTML, and before the scripts. It names what it stands on."""
    page = text_of("docs/article.html")
    body = page.partition("<body")[2].partition("<script")[0]
    words = html.unescape(re.sub("<[^>]*>", " ", body)).split()
    assert 1900 <= len(words) <= 2400 and body.count("<h2") == 8
    citation = text_of("CITATION.cff")
    for name in ("version", "date-released", "doi"):
        assert re.search(rf"^ *{name}: (.*)$", citation, re.M)[1] in page
    assert "The dine authors" in page and "MIT or Apache-2.0" in page and "@" not in "".join(words)


@pytest.mark.early
@pytest.mark.parametrize("name", ["index.html", "article.html"])
def test_card(name):
    """Before a page is published it says its title and description, and afterwards also its address and a picture."""
    page = text_of(f"page/{name}")
    title, description = page_file.HEAD.search(page).groups()
    tags = page_file.card_of(page, name, "")
    assert f'"og:title" content="{title}"' in tags and f'"og:description" content="{description}"' in tags
    assert "og:url" not in tags and "canonical" not in tags
    tags = page_file.card_of(page, name, "https://example.org/dine/")
    own = "https://example.org/dine/" + name.replace("index.html", "")
    assert f'<link rel="canonical" href="{own}">' in tags and f'"og:url" content="{own}"' in tags
    assert '"og:image" content="https://example.org/dine/page.png"' in tags
    assert page_file.card_of(page, name, page_file.site()) in text_of(f"docs/{name}")


@pytest.mark.early
def test_faults_of_an_article():
    """A link that leads nowhere is reported, and a number of the table of costs."""
    page = article_file.article()
    assert [*article_file.faults_of_links(page)] == [] and article_file.faults_of_costs(page) == []
    broken = page.replace('href="PROVED.md"', 'href="PROVES.md"').replace("#why-it-works", "#why-it-fails")
    assert [*article_file.faults_of_links(broken)] == [
        "there is no docs/PROVES.md", "docs/MODEL.md has no part why-it-fails"]
    number = re.search(r"\d+\.\d", article_file.table_of_costs())[0]
    costly = page.replace("<h2 id", f"<p>It costs {number} times as much.</p><h2 id", 1)
    assert article_file.faults_of_costs(costly) == [f"{number} is a number of the table of costs in README.md"]
