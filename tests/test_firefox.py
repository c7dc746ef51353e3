"""Tries the page and the article in a second browser, a headless Firefox: all is there at the sizes that students have,
nothing scrolls sideways, no control is cut off, and a step does something."""
import pytest
from firefox import firefox
from lib.files import HOME
from test_article import SIZES

# For each page: what is pressed, and what says something else then.
PAGES = {"index": ("#step", "#last"), "article": ("#pair button.main", "#pair .said")}
# What is seen of a control that is cut off: its name. What is in a box that scrolls may be out of sight.
CUT_OFF = """[...document.querySelectorAll('button, select, input, a')].filter((it) => {
  const { left, right, width } = it.getBoundingClientRect();
  const isOut = left < -0.5 || right > document.documentElement.clientWidth + 0.5;
  return width > 0 && isOut && !it.closest('.scroll, pre');
}).map((it) => it.id || it.textContent)"""


@pytest.fixture(scope="module")
def browser(tmp_path_factory):
    with firefox(tmp_path_factory.mktemp("firefox")) as it:
        yield it


# One process of pytest -n has the browser.
@pytest.mark.slow
@pytest.mark.xdist_group("firefox")
@pytest.mark.parametrize(("width", "height"), SIZES)
@pytest.mark.parametrize("name", PAGES)
def test_page_in_firefox(browser, name, width, height):
    browser.open(f"file://{HOME}/docs/{name}.html", width, height)
    idle = "document.querySelector('main')?.getAttribute('aria-busy') === 'false'"
    browser.until(idle)
    assert browser.js("[innerWidth, innerHeight]") == [width, height]
    pressed, said = PAGES[name]
    before = browser.js(f"document.querySelector('{said}').textContent")
    browser.js(f"(document.querySelector('{pressed}').click(), null)")
    browser.until(f"{idle} && document.querySelector('{said}').textContent !== {before!r}")
    assert browser.js("document.querySelector('#fault').hidden")
    assert browser.js("document.documentElement.scrollWidth <= document.documentElement.clientWidth")
    assert browser.js(CUT_OFF) == []
