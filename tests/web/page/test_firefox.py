"""The page web/lispm.html in headless Firefox: it loads the module, shows a session, steps by keys, takes an edit, and judges
an exercise. What the page shows in detail is tested in Chromium."""
import os
import time
import unittest
from typing import Any

import drawing
import firefox
from support import TOP, lesson, parsed

FIREFOX = firefox.find()
PAGE = os.path.join(TOP, "web", "lispm.html")
SECONDS = 180


@unittest.skipUnless(FIREFOX and os.path.isfile(PAGE), "Firefox or web/lispm.html isn't there")
class InFirefox(unittest.TestCase):
    browser: firefox.Firefox

    @classmethod
    def setUpClass(cls) -> None:
        if FIREFOX and os.path.isfile(PAGE):
            cls.browser = firefox.Firefox(FIREFOX)

    @classmethod
    def tearDownClass(cls) -> None:
        if FIREFOX and os.path.isfile(PAGE):
            cls.browser.__exit__()

    def value(self, expression: str) -> Any:
        return self.browser.value(expression)

    def shown(self, id_: str) -> str:
        return self.value(f"document.getElementById('{id_}').textContent")

    def until(self, expression: str, why: str) -> None:
        end = time.monotonic() + SECONDS
        while not self.value(expression):
            if time.monotonic() > end:
                self.fail(f"{why}: not so after {SECONDS} seconds")
            time.sleep(0.05)

    def open(self, hash_: str) -> None:
        self.browser.open(f"file://{PAGE}{hash_}")
        self.until("document.body.dataset.ready === 'yes' && Boolean(document.body.dataset.drawn)", f"{hash_} is drawn")

    def at_step(self, number: int) -> None:
        self.until(f"document.body.dataset.drawn.endsWith(' {number}')", f"step {number}")

    def test_a_session_is_shown_and_steps_by_keys(self) -> None:
        last = len(parsed(lesson(7)).commands)
        self.open("#session=lesson/7")
        self.assertEqual((self.value("document.getElementById('cannot').hidden"), self.value("document.getElementById('refusal').hidden")), (True, True))
        for key, step in (("ArrowRight", 1), (" ", 2), ("PageDown", 3), ("ArrowLeft", 2), ("End", last), ("Home", 0)):
            self.browser.press(key)
            self.at_step(step)
            self.assertEqual(self.shown("place"), f"step {step} of {last}")
            self.assertEqual(drawing.wrong(drawing.read(self.value("new XMLSerializer().serializeToString(document.querySelector('#regions svg'))"))), [])

    def test_a_change_shows(self) -> None:
        self.open("#session=lesson/1")
        self.value("(area => { area.value = area.value.replace('set 1 -7', 'set 1 42'); area.dispatchEvent(new Event('input')); })"
                   "(document.getElementById('text'))")
        self.until("document.getElementById('replies').textContent.includes('42')", "the reply 42")

    def test_an_exercise_is_judged(self) -> None:
        self.open("#session=lesson/7")
        with open(os.path.join(TOP, "tests", "tour", "solutions", "07-2")) as file:
            solution = file.read()
        for text, verdict in ((solution, "Right."), ("", "Not yet.")):
            self.value(f"(area => {{ area.value = {text!r}; const part = area.closest('section'); part.querySelector('.result').replaceChildren();"
                       "part.querySelector('button').click(); })(document.getElementById('answer-2'))")
            self.until("document.querySelectorAll('.verdict').length === 1", "a verdict")
            self.assertTrue(self.value("document.querySelector('.verdict').textContent").startswith(verdict))

    def test_the_lecture_view_and_a_chart(self) -> None:
        self.open("#session=lesson/9&step=8&view=curves")
        self.until("document.body.dataset.charted", "the chart")
        self.assertEqual(self.value("document.querySelectorAll('#curves [data-series]').length"), 4)
        image = self.browser.screenshot()
        self.assertGreater(len(image), 20_000)
        if os.environ.get("SHOTS"):
            with open(os.path.join(os.environ["SHOTS"], "firefox.png"), "wb") as file:
                file.write(image)


if __name__ == "__main__":
    unittest.main()
