"""Tries the four ways beside each other: what the page shows of their runs. What the ways do is tried by
tests/page/compare.test.mjs."""
import pytest
from chromium import RING

ENDS = "#compare .end"
# The counts of the ring of five, one after the other: Chandy and Misra's are those of the proved rules.
COUNTS = "all('#compare .way').map((it) => [...it.querySelectorAll('dd')].map((one) => one.textContent))"


def test_four_ways(kept):
    """All four are run at once, and again as soon as something else is chosen."""
    kept.go("plan=plans/pair.toml")
    kept.go(RING)
    assert kept.texts("#compare .way") == []
    kept.do("#compare button")
    plain, ordered, waiter, proved = kept.js(COUNTS)
    assert plain == ["0 of 10", "15, and no meal", "for ever", "0 at most"]
    assert ordered[:2] == ["10 of 10", "60, 6.0 a meal"] and waiter[:2] == ["10 of 10", "30, 3.0 a meal"]
    assert proved[0] == "10 of 10" and proved[3] == "1 at most"
    ends = kept.texts(ENDS)
    assert ends[0].startswith("Deadlock: ") and all(it.startswith("All have eaten") for it in ends[1:])
    assert kept.count("#compare .strip .eating") == 3 * 10 and kept.count("#compare .strip .ever") == 5
    kept.do("#compare option[value='0 after']")
    assert [it.startswith("a has stopped. ") for it in kept.texts(ENDS)] == [False, True, True, True]
    assert "All others have eaten" in kept.texts(ENDS)[1] and "b, c, d and e wait for ever" in kept.texts(ENDS)[3]


# Of each strip how wide its rows are, which turns they show, and how far they are from the left of their card.
STRIPS = """all('#compare .way').map((card) => [...card.querySelectorAll('.strip svg')].map((it) => {
  const [row, room] = [it, card].map((one) => one.getBoundingClientRect());
  return [Math.round(row.width), it.getAttribute('viewBox'), Math.round(row.left - room.left)].join();
}))"""
# Of each card how far its numbers end from its right side, and which of its rows end in a wait for ever.
SIDES = """all('#compare .way').map((card) => [...card.querySelectorAll('dd')].map((it) => {
  return Math.round(card.getBoundingClientRect().right - it.getBoundingClientRect().right);
}))"""
EVER = "all('#compare .strip').map((it) => it.querySelectorAll('.ever').length)"


# Where a site stops, and how many sites wait for ever in each way then.
STOPS = {"": [5, 0, 0, 0], "2 meal": [5, 3, 4, 4], "2 after": [5, 0, 0, 4]}


@pytest.mark.parametrize("width", [320, 390, 768, 1280])
def test_one_scale(kept, width):
    """All four strips have the same scale, and who waits for ever is seen to do so in each. Below each way is why.
    Nothing scrolls sideways."""
    kept.look(width, 844)
    kept.go(RING)
    kept.do("#compare button")
    for stops, waiting in STOPS.items():
        kept.do(f"#compare option[value='{stops}']")
        strips = kept.js(STRIPS)
        assert len({it for card in strips for it in card}) == 1 and [len(it) for it in strips] == [5] * 4
        assert len({it for card in kept.js(SIDES) for it in card}) == 1 and kept.js(EVER) == waiting
        assert kept.count("#compare .strip .eating[x]") == kept.count("#compare .strip .eating")
        assert [it.startswith("Why: ") for it in kept.texts("#compare .why")] == [True] * 4
        assert kept.js("document.documentElement.scrollWidth") <= width


def test_another_plan(kept):
    """What was shown of another plan goes, and one that is too large is not run."""
    kept.go(RING)
    kept.do("#compare button")
    kept.go("plan=plans/pair.toml")
    assert kept.count("#compare .way") == 0
    kept.do("#compare button")
    assert kept.texts(ENDS)[3].startswith("All have eaten all their meals")
    kept.go("plan=plans/star_of_64.toml")
    assert kept.count("#compare button:disabled") == 1 and "too many" in kept.text("#compare > .note:last-child")
