"""Tries the lessons, the questions, the challenge and the plain forks of the page."""
import itertools
import re
import time
import tomllib

import pytest
from calls import until
from chromium import ASKED, RING
from features import catalog
from lib.fault import Fault
from lib.files import paths, text_of

STORY = "lessons/dining_without_a_waiter.toml"
LESSONS = {it: tomllib.loads(text_of(it))["moment"] for it in paths("lessons/*.toml")}
QUESTIONS = [(path, place) for path in LESSONS for place, it in enumerate(LESSONS[path]) if "question" in it]
# How many events are done at a moment, if it does not say that.
for it in itertools.chain(*LESSONS.values()):
    if it.get("recorded"):
        it["choices"] = catalog.recorded(it["plan"])
    it.setdefault("at", len(re.findall("[0-9]+", it.get("choices", ""))))


def is_shown(page, moment):
    """A moment shows what it says, and no more."""
    note, kinds, seen = " ".join(moment["note"].split()), moment["show"], page.momentSeen()
    assert seen["moment"][1:] == [moment["title"], moment["at"]]
    assert len(note.split()) <= 45 and seen["note"] == note.replace("*", "")
    assert seen["choices"] == [int(it) for it in re.findall("[0-9]+", moment.get("choices", ""))][:moment["at"]]
    assert set(seen["kinds"]) <= set(kinds) if moment.get("naive") == "alone" else seen["kinds"] == kinds
    assert seen["named"] == kinds
    # Where there is no space for it in the picture, it is below.
    assert (seen["callout"] or seen["pointed"]) == moment.get("callout", "")
    assert seen["misplaced"] == ""


@pytest.mark.slow
@pytest.mark.parametrize(("width", "height"), [(1280, 800), (1366, 650), (390, 844)])
def test_lessons(page, width, height):
    """A lesson is a story of short moments, gone through by button and keys. The picture is in view together with the
    note, its question and the way on."""
    page.look(width, height)
    page.open(RING)
    for path in LESSONS:
        goes_through(page, path)


def goes_through(page, path):
    page.do("#lessons", page.text(f'#lessons option[value="{path}"]'), "Enter")
    assert 3 <= len(LESSONS[path]) < 24
    for place, moment in enumerate(LESSONS[path]):
        is_shown(page, moment)
        picture = "#naive-picture" if moment.get("naive") == "alone" else "#picture"
        parts = [picture, "#legend", "#moment-note", "#next"] + ["#question button"] * ("question" in moment)
        assert page.unseen(*parts) == [], moment["title"]
        # A question that is not answered holds the first one up.
        page.do(*["PageDown" if place % 2 else "#next"] * (2 if "question" in moment else 1))
    page.do("PageUp")
    assert page.text("#moment-title") == LESSONS[path][-2]["title"]
    page.hash(f"lesson={path}&moment={len(LESSONS[path]) - 1}".replace("/", "."))


# What a student is asked after the lessons, with the moments that answer it, and words of the answer there.
ANSWERS = {
    "Five take the left fork first. Who waits for whom?": {
        "Stuck for ever": "a for e, e for d, d for c, c for b, and b for a"},
    "What does the holder of a dirty fork do when asked, thinking, hungry or eating?": {
        "Washed and handed over": "hungry or not", "Eat, and it is dirty again": "after this meal"},
    "The same for a clean fork?": {"A clean fork says: wait": "Wait until I have eaten"},
    "Where can the token be, and what does each place mean?": {
        "A token to ask with": "with whoever lacks the fork",
        "A held token remembers": "On its way, the token is a request",
        "Washed and handed over": "The token stays with a"},
    "Who goes first if the fork is clean, dirty, on its way?": {
        "An arrow shows whose turn it is": "If the fork is clean, that is who has it, or gets it"},
    "Which events turn arrows, and why does none make a ring?": {
        "What turns an arrow?": "Only a meal can", "Never a ring": "none leaves it. So no ring goes through e"},
    "Why can't the table be stuck without a ring?": {
        "Can everybody be stuck?": "nobody eats, since a meal can end", "Who is stuck lacks a clean fork": "is clean",
        "Walk to whom you wait for": "Without a ring this walk ends"},
    "e has four before it and two dirty forks that nobody asked for. May it eat?": {
        "An arrow counts once one asks": "An arrow counts once the one before you has asked"},
    "Why does a hungry site eat at last, and what does that need?": {
        "Nobody gets before you": "nobody new gets before you", "One fewer before each": "leaves with its next meal",
        "What this needs": "nobody eats for ever"},
    "How often may a neighbour still eat before e, and one two seats away?": {
        "How often may others go first?": "d once, c any number of times"},
}


@pytest.mark.early
@pytest.mark.parametrize("question", ANSWERS)
def test_ten_questions(question):
    """Each question can be answered from moments of the lessons, which have the words of the answer: in the note, or in
    what is said of the right answer to their own question."""
    moments = {it["title"]: it for it in itertools.chain(*LESSONS.values())}
    for title, words in ANSWERS[question].items():
        it = moments[title]
        right = it["options"][it["answer"] - 1] if "answer" in it else ""
        assert words in " ".join(f"{it['note']} {right} {it.get('because', '')}".split()), title


@pytest.mark.parametrize(("path", "place"), QUESTIONS)
def test_question(kept, path, place):
    """An answer is checked, and stays while what happens is shown and while the schedule is stepped."""
    moment, following = LESSONS[path][place:place + 2]
    kept.go(f"lesson={path}&moment={place + 1}")
    wrong = f"#question label:nth-of-type({moment['answer'] % len(moment['options']) + 1})"
    answers = "#question output", "it.className"
    kept.do(wrong, "#question button")
    assert kept.each(*answers) == ["wrong"]
    # The right one is above it, or the first again, which the keys of a choice go to.
    kept.do(wrong, "ArrowUp", "#question button")
    assert kept.each(*answers) == ["right"]
    begun, rest = moment.get("choices", ""), following.get("choices", "")
    goes_on = rest != begun and rest.startswith(begun and f"{begun},") and moment.get("see", True)
    assert (kept.unseen("#question .main") == []) == goes_on
    if goes_on:
        kept.do("#question .main")
        assert kept.moment()[1:] == [moment["title"], following["at"]]
        kept.do("#return")
    kept.do("#step", "#back")
    assert kept.each(*answers) == ["right"]
    kept.do("#next")
    is_shown(kept, following)


def test_way_on_and_home(page):
    """The last moment of a lesson offers the next one, the last of all leads to the challenges, and the title leads to
    the first page."""
    page.look(390, 844)
    page.open()
    paths = ["dining_without_a_waiter", "why_nobody_starves", "from_events_to_threads", "challenges"]
    for path, following in itertools.pairwise(paths):
        path, following = (f"lessons/{it}.toml" for it in (path, following))
        page.go(f"lesson={path}&moment={len(LESSONS[path]) - 1}")
        assert page.unseen("#next-lesson") == ["#next-lesson"]
        page.do("PageDown", "PageDown")
        title = tomllib.loads(text_of(following))["title"]
        kind = "Next" if title == "Challenges" else "Next lesson"
        assert page.text("#next-lesson") == f"{kind}: {title}"
        page.do("#next-lesson")
        assert page.value("#lessons") == following and page.text("#moment-title") == LESSONS[following][0]["title"]
    page.do("PageDown", "PageDown")
    assert page.unseen("#next-lesson") == ["#next-lesson"]
    page.do("#leave", "#home")
    assert page.unseen("#begin") == [] and page.count("#picture .site") == 5
    # The first page has its own address by now: the way back leads from there.
    assert page.js("location.hash") == ""
    page.js("(history.back(), null)")
    page.until("one('#front').hidden && location.hash !== ''")


def test_way_back_while_an_address_is_noted(page):
    """What is noted of the first page does not go over the address to which the browser has gone back, of which the
    page learns only later."""
    said = "lesson=lessons/challenges.toml&moment=3"
    page.open(said)
    page.do("#home")
    page.js("(one('#speed').dispatchEvent(new Event('input')), "
            "history.replaceState(null, '', `#${arguments[0]}`), null)", said)
    time.sleep(1)
    assert page.js("location.hash") == f"#{said}"
    page.js("(dispatchEvent(new HashChangeEvent('hashchange')), null)")
    page.until("one('#front').hidden && one('#moment-count').textContent !== ''")


def test_late_address(page):
    """An address that is made late does not go over that of what is shown by then."""
    page.look(390, 844)
    page.open("lesson=lessons/challenges.toml&moment=3")
    page.do("PageDown", "PageDown")
    # What is packed into an address is kept back.
    late = "new Promise((then) => late.push(() => then(read.call(this))))"
    page.js("(globalThis.late = [], ((read) => { Response.prototype.arrayBuffer = function () "
            f"{{ return {late}; }}; }})(Response.prototype.arrayBuffer), null)")
    page.do("#leave")
    page.until("late.length")
    page.do("#home")
    page.until("location.hash === ''")
    page.js("(late.forEach((it) => it()), null)")
    time.sleep(1)
    assert page.js("location.hash") == "" and page.unseen("#begin") == []


def test_ways_of_a_moment(kept):
    """One tap leads from a moment to the four ways, with the site that stops there."""
    kept.look(390, 844)
    path = "lessons/why_nobody_starves.toml"
    asking = [place for place, it in enumerate(LESSONS[path]) if "ways" in it]
    for place in asking:
        kept.go("plan=plans/pair.toml")
        kept.go(f"lesson={path}&moment={place + 1}")
        assert kept.count("#compare .way") == 0
        kept.do("#ways-of-moment")
        assert kept.unseen("#compare-name") == [] and kept.count("#compare .way") == 4
        stopped = [it.startswith("c has stopped") for it in kept.texts("#compare .end")]
        assert stopped == [False] + [LESSONS[path][place]["ways"] == "c after"] * 3
    assert len(asking) == 2
    kept.do("PageUp", "PageUp")
    assert kept.unseen("#ways-of-moment") == ["#ways-of-moment"]


def test_scores_are_of_ones_own_events(page):
    """A run that threads did, or one that plays by itself, is no record. Events that are picked are."""
    page.open("lesson=lessons/from_events_to_threads.toml&moment=5")
    page.do("End", "#lessons", "Challenges", "Enter")
    assert page.text("#moment-title") == "Starve e" and page.text("#best") == "Your score: 0 events before e eats."
    page.do("#enabled button", "#enabled button")
    assert "Best in this browser: 2." in page.text("#best")
    page.hash(".")
    # The same as an address has it, which may be another's.
    page.js("(localStorage.clear(), location.reload(), null)")
    page.until("one('#moment-title')?.textContent === 'Starve e'")
    page.wait()
    assert "2 events" in page.text("#best") and "Best" not in page.text("#best")
    page.do("#enabled button")
    assert "3 events" in page.text("#best") and "Best" not in page.text("#best")


def test_lesson_on_a_telephone(page):
    """A lesson with large letters fits, and a swipe is enough."""
    page.look(390, 844)
    page.open(f"lesson={STORY}&moment=22")
    assert page.widthsWith(32)[0] <= 390
    for where, far in (("#picture", 120), ("#moment-note", 120), ("#picture", -120)):
        box = page.one(where).rect
        x, y = box["x"] + box["width"] / 2, box["y"] + box["height"] / 2
        for kind, points in (("Start", [{"x": x, "y": y}]), ("Move", [{"x": x + far, "y": y + 4}]), ("End", [])):
            page.cdp("Input.dispatchTouchEvent", type=f"touch{kind}", touchPoints=points)
        page.wait()
    assert page.text("#moment-count") == "Moment 21 of 22"


def test_motion_between_moments(page):
    """Next plays the events up to the next moment, in which a letter flies along its edge. Once more it skips them."""
    page.look(motion="no-preference")
    page.open(f"lesson={STORY}&moment=8")
    page.do("#next")
    assert "once more" in page.text("#question output") and page.event() == 4
    page.one("#next").click()
    events, places = zip(*page.wait("flight"))
    between = [it for it in places if min(places) + 10 < it < max(places) - 10]
    assert len({round(it) for it in between}) >= 5 and {*events} >= {5, 6} and page.event() == 6
    # Now no wait ends by itself: what shows an event goes on only once it is skipped.
    page.js("(window.setTimeout = () => 0, null)")
    page.one("#next").click()
    page.until("text('#moment-title') === 'A clean fork says: wait'")
    assert page.event() < 8 and not page.isIdle()
    page.one("#next").click()
    page.wait()
    assert page.moment()[1:] == ["A clean fork says: wait", 8]


@pytest.mark.early
@pytest.mark.parametrize(("fault", "text"), [
    *((f"it: moment 1: {re.escape(fault)}$", f'title = "t"\n[[moment]]\nplan = "plans/pair.toml"\n{lines}')
      for fault, lines in (it.split("\n", 1) for it in text_of("tests/unfit_moments.txt").split("\n# ")[1:])),
    ("it is no lesson: there is no key titel", "titel = 't'\n[[moment]]\ntext = ''\n"),
    pytest.param("it is no lesson: ", f"x = {'[' * 5000}\n[[moment]]\ntext = ''\n", id="deep")])
def test_unfit_lesson(fault, text):
    """A key that has what it can't have is reported with its moment."""
    with pytest.raises(Fault, match=f"^{fault}"):
        catalog.lesson_of("it", text)


def test_keeping(page, tmp_path):
    """A moment is kept, with its title and its note, and saved as a text file that is a lesson."""
    page.cdp("Browser.setDownloadBehavior", behavior="allow", downloadPath=str(tmp_path))
    page.open(f"{RING}&choices=4,4,4")
    page.do("#keep")
    page.fill("#keep-title", 'One "moment"')
    page.fill("#keep-note", "It is hungry.\n\nIt waits.")
    page.do("#keep-it", "#save")
    assert until((tmp_path / "lesson.toml").exists)
    wanted = {"title": 'One "moment"', "note": "It is hungry.\n\nIt waits."}
    wanted |= {"plan": "plans/ring_of_five.toml", "choices": "4,4,4", "at": 3}
    assert tomllib.loads((tmp_path / "lesson.toml").read_text("utf-8"))["moment"] == [wanted]
    page.do("#remove")
    assert page.text("#moment-count") == "No moment yet"


@pytest.mark.built("dine_trace")
def test_questions(kept):
    """Asked what may happen next, the page hides list and reasons. The program says whether an answer is right."""
    kept.go(f"{RING}&choices={ASKED}")
    kept.do("#picture .site[data-site='4']", "#predict")
    enabled, words = {it["words"] for it in kept.state()["enabled"]}, kept.texts("#quiz label span")
    assert kept.unseen("#enabled", "#why") == ["#enabled", "#why"] and not kept.count("#enabled button")
    assert enabled & set(words) and set(words) - enabled
    # The first is answered wrongly.
    ticked = [place for place, it in enumerate(words, 1) if (it in enabled) != (place == 1)]
    kept.do(*(f"#quiz label:nth-of-type({it})" for it in ticked), "#quiz button")
    assert kept.text("#quiz output") == f"{len(words) - 1} of {len(words)} right so far"
    assert kept.count("#quiz .wrong") == 1 and kept.count("#enabled button") and not kept.unseen("#why")
