"""The page web/lispm.html in headless Chromium, opened from a disk: sessions, steps by keys, edits, exercises, files, links,
prints, the lecture view, and windows and letters of several sizes."""
import base64
import os
import re
import shutil
import tempfile
import time
import unittest
from statistics import median
from typing import Any, Callable, List

import chromium
import drawing
import support
from chromium import Chromium
from lib.tour import charts, lessons
from support import TOP, lesson, parsed, path_of, sessions


CHROMIUM = chromium.find()
PAGE = os.path.join(TOP, "web", "lispm.html")
LEAST_MODULE, LEAST_IMAGE = 50_000, 20_000
has_page = os.path.isfile(PAGE) and os.path.getsize(PAGE) > LEAST_MODULE
SECONDS = 180
MEASURES = "MEASURES" in os.environ      # all are made and shown
START = "lispm-world 1\nspace 16 32 8 1 2\narea work dynamic 400\ntrace\n"
REPLIES = "document.getElementById('replies').textContent"
with open(os.path.join(support.HERE, "looks.js")) as looks:
    LOOKS = looks.read()
# A line in the place of one of lesson 1, the reason of its refusal, and the word that is marked.
REFUSED = (("cons 2 nowhere 0 1", "no area", "nowhere"), ("conz 2 work 0 1", "unknown command", "conz"),
           ("cons 2 work 0 99", "no register", "99"), ("cons 2 work 0", "wrong count", ""), ("cons 2 work  0 1", "bad line", "  "))
KEYS = {" ": 32, "PageDown": 34, "PageUp": 33, "ArrowRight": 39, "ArrowLeft": 37, "Home": 36, "End": 35, "Escape": 27, "Tab": 9, "Enter": 13, "c": 67}


def keep(name: str, image: bytes) -> None:
    """Keeps a screenshot, if a folder is named; one of an empty page is a mistake."""
    if len(image) < LEAST_IMAGE:
        raise AssertionError(f"{name}: an image of {len(image)} bytes")
    if os.environ.get("SHOTS"):
        with open(os.path.join(os.environ["SHOTS"], f"{name}.png"), "wb") as file:
            file.write(image)


@unittest.skipUnless(CHROMIUM and has_page, "Chromium or web/lispm.html isn't there")
class Page(unittest.TestCase):
    browser: Chromium
    more: List[str] = []

    @classmethod
    def setUpClass(cls) -> None:
        if CHROMIUM and has_page:
            cls.browser = Chromium(CHROMIUM, cls.more)
            cls.browser.call("Page.enable")
            cls.browser.call("Page.addScriptToEvaluateOnNewDocument", source=LOOKS)

    @classmethod
    def tearDownClass(cls) -> None:
        if CHROMIUM and has_page:
            cls.browser.__exit__()

    def tearDown(self) -> None:
        self.assertEqual(self.value("errors"), [])

    def value(self, expression: str) -> Any:
        return self.browser.value(expression)

    def until(self, expression: str, why: str = "") -> Any:
        """Waits until an expression is true."""
        end = time.monotonic() + SECONDS
        while time.monotonic() < end:
            found = self.value(expression)
            if found:
                return found
            time.sleep(0.02)
        self.fail(f"{why or expression} isn't so after {SECONDS} seconds")

    def open(self, hash_: str = "", width: int = 1280, height: int = 800, page: str = PAGE) -> None:
        self.browser.call("Emulation.setDeviceMetricsOverride", width=width, height=height, deviceScaleFactor=1, mobile=False)
        self.browser.call("Page.navigate", url="about:blank")
        self.browser.call("Page.navigate", url=f"file://{page}{hash_}")
        self.until("document.body?.dataset.ready === 'yes' && look.step()", f"{hash_} is drawn")

    def go(self, hash_: str) -> None:
        """Goes to another address of the page that is open, without loading it."""
        run = int((self.value("look.step()") or "0").split()[0])
        self.value(f"location.hash = {hash_!r}")
        self.until(f"Number((look.step() || '0').split(' ')[0]) > {run}", f"{hash_} is drawn")

    def at_step(self, number: int) -> None:
        self.until(f"(look.step() || '').endsWith(' {number}')", f"step {number}")

    def press(self, key: str) -> None:
        given = {"key": key, "code": "Space" if key == " " else key, "windowsVirtualKeyCode": KEYS[key]}
        self.browser.call("Input.dispatchKeyEvent", type="rawKeyDown", **given)
        self.browser.call("Input.dispatchKeyEvent", type="keyUp", **given)

    def type_at(self, line: int, text: str) -> None:
        """Replaces a line of the editor, from 0, as a reader does."""
        self.value(f"look.select({line})")
        self.browser.call("Input.insertText", text=text)

    def click(self, id_: str) -> None:
        self.value(f"document.getElementById('{id_}').click()")

    def assert_quick(self, measure: Callable[[int], float], limit: float) -> None:
        """Some of twenty measures is below a limit in milliseconds; or, on a busy machine, the processor time of each in the mean."""
        begin, found = self.browser.processor_time(), []
        for number in range(20):
            found.append(measure(number))
            if found[-1] < limit and not MEASURES:
                return
        mean = 1000 * (self.browser.processor_time() - begin) / len(found)
        if MEASURES:
            print(f"limit {limit} ms: from {min(found):.0f} to {max(found):.0f}, median {median(found):.0f}; processor time {mean:.0f}")
        self.assertLess(min(*found, mean), limit, f"{found}, and {mean} of processor time in the mean")

    def shown(self, id_: str) -> str:
        return self.value(f"document.getElementById('{id_}').textContent")


class Sessions(Page):
    def test_every_session_is_answered_as_the_program_answers(self) -> None:
        self.open()
        names = self.value("look.sessions()")
        self.assertGreaterEqual(len(names), 14 + 10 + 3)
        for name in names[1:] + names[:1]:
            self.go(f"#session={name}")
            self.assertEqual(self.value("document.getElementById('choice').value"), name)
            self.assertEqual((name, self.shown("refusal"), self.value("document.getElementById('refusal').hidden")), (name, "", True))

    @support.needs_both
    def test_replies_and_memory_of_each_step(self) -> None:
        for name, path in (("lesson/7", lesson(7)), ("collection", path_of("collection")), ("lists", path_of("lists"))):
            trace = parsed(path)
            self.open(f"#session={name}")
            for number, _, text in support.steps(path):
                self.at_step(number)
                machine = support.machine_of(text)
                found = drawing.read(self.value("look.memory()"))
                self.assertEqual(sorted(found.words), sorted(at for region in machine.regions for at in region.words), f"{name} {number}")
                self.assertEqual(drawing.wrong(found), [], f"{name} {number}")
                accounts = [f"{trace.areas[area.number]} {area.charged} of {area.quota}" for area in machine.areas]
                self.assertEqual(self.value("look.accounts()"), accounts)
                if number:
                    self.assertEqual(self.shown("command"), trace.commands[number - 1].text)
                    self.assertEqual(self.shown("reply"), support.last_reply(text, trace, number))
                if number < len(trace.commands):
                    self.press("ArrowRight")

    def test_comments_are_captions(self) -> None:
        self.open("#session=lesson/7")
        self.assertIn("How can objects move", self.shown("caption"))
        self.press("End")
        self.at_step(len(parsed(lesson(7)).commands))
        self.assertNotIn("How can objects move", self.shown("caption"))

    def test_what_is_asked_of_a_dump(self) -> None:
        trace = parsed(lesson(14))
        dump = next(command.number for command in trace.commands if command.text == "dump")
        self.open(f"#session=lesson/14&step={dump}")
        self.at_step(dump)
        self.assertRegex(self.shown("dumped"), r"lispm census <DUMP\n(.*\n)*end-census")
        self.press("ArrowLeft")
        self.at_step(dump - 1)
        self.assertEqual(self.shown("dumped"), "")

    def test_a_late_answer_about_a_dump_is_not_shown_at_another_step(self) -> None:
        trace = parsed(lesson(14))
        dump = next(command.number for command in trace.commands if command.text == "dump")
        self.open(f"#session=lesson/14&step={dump}")
        self.until("document.body.dataset.planned", "all steps are looked at")
        self.at_step(dump)
        count = self.shown("dumped").count("$ lispm ")
        self.press("ArrowLeft")
        self.at_step(dump - 1)
        self.value("asked.wait = 100; asked.answers = 0")
        self.press("ArrowRight")
        self.until(f"document.getElementById('place').textContent.startsWith('step {dump} ')", "the step of the dump")
        self.press("ArrowLeft")
        self.at_step(dump - 1)
        self.until(f"asked.answers === {count}", "all answers")
        self.assertEqual((self.value("look.step()").split()[1], self.shown("dumped")), (str(dump - 1), ""))

    @support.needs_both
    def test_charts_of_lessons(self) -> None:
        """A lesson that has a chart in the tour has it here, too: each curve with the same count after each command."""
        found = [(one, charts.made(one, mark, support.INSIDE)) for one in lessons.all_lessons() for mark in one.charts()]
        self.assertEqual([one.number for one, _ in found], [9, 12])
        for one, chart in found:
            self.open(f"#session=lesson/{one.number}")
            self.until("document.body.dataset.charted", "the chart")
            self.assertIn(charts.LABELS[chart.counted], self.value("document.querySelector('#curves svg').getAttribute('aria-label')"))
            curves = self.value("look.curves()")
            self.assertEqual(list(curves), [f"{chart.size} {value}" for value in chart.values])
            for value, row in zip(chart.values, chart.rows):
                self.assertEqual(curves[f"{chart.size} {value}"], [[0, 0], *([at, count] for at, count in enumerate(row, 1))], f"lesson {one.number}, {chart.size} {value}")

    def test_curves_in_the_lecture_view(self) -> None:
        """A slide with a chart, or with the curves of the accounts: they fill what is below the texts."""
        for name, step in (("lesson/9", 8), ("lesson/12", 8), ("lecture/die-young", 120)):
            self.open(f"#session={name}&step={step}&view=curves", 1280, 720)
            self.until("document.body.dataset.planned && document.body.classList.contains('curves') && look.curves()", "curves")
            if name.startswith("lesson"):
                self.until("document.body.dataset.charted", "the chart")
            self.assertEqual(self.value("look.page()"), [1280, 720])
            width, height = self.value("look.filled()")
            self.assertGreater(min(width, height), 0.8, name)
            self.assertEqual(self.value("look.cut()"), [])
            self.press("c")
            self.until("!document.body.classList.contains('curves') && look.place()", "memory")
            self.press("c")
            self.until("document.body.classList.contains('curves')", "curves again")

    def test_what_changed_is_marked(self) -> None:
        self.open("#session=collection&step=6")
        self.at_step(6)
        self.assertEqual(self.value("look.changed()"), ["2", "4096", "4097"])
        self.assertIn("read barrier moved 1 object", self.shown("events"))

    def events_of(self, name: str) -> str:
        """The events of all steps of a session."""
        self.open(f"#session={name}")
        told = []
        for step in range(1, len(parsed(path_of(name)).commands) + 1):
            self.press("ArrowRight")
            self.at_step(step)
            told.append(self.shown("events"))
        return " ".join(told)

    def test_generational_events(self) -> None:
        told = self.events_of("levels")
        self.assertIn("promoted from level 1 to level 2", told)
        self.assertIn("from-space", told)
        told = self.events_of("references")
        self.assertIn("Page 16 is tagged", told)
        self.assertIn("is evicted; its row", told)


class Keys(Page):
    def test_keys_of_a_keyboard_and_a_clicker(self) -> None:
        self.open("#session=collection")
        last = len(parsed(path_of("collection")).commands)
        steps = (("ArrowRight", 1), (" ", 2), ("PageDown", 3), ("PageUp", 2), ("ArrowLeft", 1), ("End", last), ("ArrowRight", last),
                 ("Home", 0), ("ArrowLeft", 0))
        for key, step in steps:
            self.press(key)
            self.at_step(step)
            self.assertEqual(self.shown("place"), f"step {step} of {last}")

    def test_the_focus_is_kept(self) -> None:
        self.open("#session=collection")
        self.value("document.getElementById('on').focus()")
        self.click("last")
        self.press("ArrowRight")
        self.assertEqual(self.value("document.activeElement.id"), "on")

    def test_all_is_reached_by_tab(self) -> None:
        self.open("#session=lesson/1")
        reached = set()
        for _ in range(40):
            self.press("Tab")
            reached.add(self.value("document.activeElement.id"))
        self.assertLessEqual({"choice", "first", "slider", "on", "lecture", "quiz", "svg", "png", "printing", "link", "text", "answer-1"}, reached)

    def test_everything_has_a_name(self) -> None:
        self.open("#session=lesson/1")
        self.assertEqual((self.value("look.nameless()"), self.value("look.drawingsWithoutName()")), ([], 0))


class Editing(Page):
    def line_of(self, text: str) -> int:
        return self.value("document.getElementById('text').value.split('\\n')").index(text)

    def test_a_change_shows(self) -> None:
        self.open("#session=lesson/1")
        self.type_at(self.line_of("set 1 -7"), "set 1 42")
        self.until(f"({REPLIES}).includes('42')", "the reply 42")
        self.assertEqual(self.value("document.getElementById('choice').value"), "")
        self.assertTrue(self.value("location.hash").startswith("#text="))

    def test_the_step_follows_the_caret(self) -> None:
        self.open("#session=lesson/1")
        self.type_at(self.line_of("set 1 -7"), "set 1 42")
        self.at_step(2)

    def test_a_refused_line_is_marked_at_its_word(self) -> None:
        for line, reason, word in REFUSED:
            self.open("#session=lesson/1")
            at = self.line_of("cons 2 work 0 1")
            self.type_at(at, line)
            self.until("!document.getElementById('refusal').hidden", reason)
            self.assertIn(f"Line {at + 1} is refused: {reason}", self.shown("refusal"))
            begin, width = self.value("look.refused()")
            self.assertAlmostEqual(begin, line.index(word) if word else len(line), delta=0.3, msg=line)
            self.assertAlmostEqual(width, max(1, len(word)), delta=0.3, msg=line)

    def test_a_refused_line_keeps_the_steps_before_it(self) -> None:
        self.open("#session=lesson/1")
        self.type_at(self.line_of("cons 2 work 0 1"), "conz")
        self.until("document.getElementById('place').textContent === 'step 2 of 2'", "two steps")

    def test_a_key_shows_at_once(self) -> None:
        """A keystroke in a session of 60 commands shows in under 100 ms."""
        commands = "".join(f"set {at % 8} {at}\ncons {(at + 1) % 8} work {at % 8} {(at + 2) % 8}\n" for at in range(30))
        text = f"lispm-world 1\nspace 16 32 8 1 2\narea work dynamic 400\ntrace\n{commands}end\n"
        self.open("#text=" + text.replace("\n", "%0A").replace(" ", "+"))
        def keystroke(number: int) -> float:
            call = {"expression": f"look.keystroke({100 + number})", "awaitPromise": True, "returnByValue": True}
            return self.browser.call("Runtime.evaluate", **call)["result"]["value"]
        self.assert_quick(keystroke, 100)

    def test_a_long_session_is_answered(self) -> None:
        self.open("#session=lesson/1")
        self.value(f"look.edit({START!r} + 'set 0 1\\n'.repeat(100000) + 'end\\n')")
        self.until("document.getElementById('place').textContent.endsWith('of 100000')", "100,000 replies")

    def test_a_long_session_can_be_stopped(self) -> None:
        self.open("#session=lesson/1")
        self.value(f"look.edit({START!r} + 'set 0 1\\n'.repeat(300000) + 'end\\n')")
        self.until("!document.getElementById('stop').hidden", "the button that stops")
        self.click("stop")
        self.until("document.getElementById('progress').textContent.startsWith('stopped after')", "it is stopped")


class Lessons(Page):
    def solution(self, number: int, task: int) -> str:
        with open(os.path.join(TOP, "tests", "tour", "solutions", f"{number:02}-{task}")) as file:
            return file.read()

    def answer(self, task: int, text: str) -> str:
        self.value(f"look.answer({task}, {text!r})")
        return self.until(f"look.verdict({task})", "a verdict")

    def test_exercises_are_judged(self) -> None:
        self.open()
        for number in [*range(2, 15), 1]:
            self.go(f"#session=lesson/{number}")
            for task in (1, 2, 3):
                self.assertEqual(self.answer(task, self.solution(number, task)), "Right.", f"{number}-{task}")
                self.assertTrue(self.answer(task, "").startswith("Not yet."), f"{number}-{task}")

    def test_why_an_answer_is_wrong(self) -> None:
        self.open("#session=lesson/1")
        self.assertIn("The machine refuses `conz`: unknown command", self.answer(2, "conz\n"))
        self.assertIn("There are 5 commands; at most 4", self.answer(3, "set 7 1\n" + self.solution(1, 3)))

    def test_the_quiz_hides_replies_and_judges(self) -> None:
        self.open("#session=lesson/7&step=3")
        self.click("quiz")
        self.press("ArrowRight")
        self.until("document.querySelector('#asked input') !== null", "a question")
        self.assertEqual((self.shown("reply"), self.shown("command")), ("", "flip full"))
        self.assertNotIn("flipped", self.value(REPLIES))
        self.value("look.ask('flipped 0')")
        self.until("document.getElementById('score').textContent.startsWith('right')", "a right answer")
        self.assertEqual(self.shown("reply"), "flipped 0")


class Files(Page):
    def saved(self, kind: str) -> bytes:
        found = self.until(f"saved.length && saved[saved.length - 1].type.includes('{kind}') && saved[saved.length - 1].bytes", f"a file of {kind}")
        return bytes(found)

    def test_svg_and_png_of_a_step(self) -> None:
        self.open("#session=collection&step=6")
        self.at_step(6)
        self.browser.call("Browser.setDownloadBehavior", behavior="deny")
        self.click("svg")
        svg = self.saved("svg").decode()
        self.assertTrue(svg.startswith("<svg "))
        arrows = sorted((arrow.holders[0], arrow.target) for arrow in drawing.read(svg).arrows)
        self.assertEqual(arrows, [("2", 4096), ("r1", 4096), ("r1", 4096)])
        self.assertNotIn("var(", svg)
        self.click("png")
        self.assertTrue(self.saved("png").startswith(b"\x89PNG"))

    def test_a_link_has_the_session(self) -> None:
        text = "; Mine.\nlispm-world 1\nspace 16 32 8 1 2\narea work dynamic 9\ntrace\nset 0 5\nset 1 6\ncons 2 work 0 1\nend\n"
        self.open("#text=" + text.replace("\n", "%0A").replace(" ", "+").replace(";", "%3B") + "&step=3")
        self.at_step(3)
        self.assertEqual((self.value("document.getElementById('text').value"), self.shown("reply")), (text, "ok"))
        link = self.value("location.hash")
        self.open(link)
        self.at_step(3)
        self.assertEqual(self.value("document.getElementById('text').value"), text)

    def test_a_link_to_a_lesson_in_the_lecture_view(self) -> None:
        self.open("#session=lesson/10&step=4&view=lecture")
        self.at_step(4)
        self.assertTrue(self.value("document.body.classList.contains('lecture')"))
        self.press("Escape")
        self.assertFalse(self.value("document.body.classList.contains('lecture')"))
        self.click("lecture")
        self.click("leave")
        self.assertFalse(self.value("document.body.classList.contains('lecture')"))

    def test_each_step_is_a_page_of_the_print(self) -> None:
        self.open("#session=collection")
        self.value("window.print = () => { window.printed = true; }")
        self.click("printing")
        self.until("window.printed", "the print")
        steps = len(parsed(path_of("collection")).commands) + 1
        self.assertEqual(self.value("document.querySelectorAll('#print .sheet').length"), steps)
        pdf = base64.b64decode(self.browser.call("Page.printToPDF", printBackground=True, preferCSSPageSize=True)["data"])
        self.assertEqual(len(re.findall(rb"/Type\s*/Page\b", pdf)), steps)

    def test_nothing_is_fetched(self) -> None:
        with open(PAGE, encoding="utf-8") as file:
            page = file.read()
        self.assertEqual(set(re.findall(r"https?://[^\"'`\s]+", page)) - {"http://www.w3.org/2000/svg"}, set())
        self.assertLess(len(page), 2_500_000)
        self.open()
        self.assertEqual(self.value("look.fetched()"), [])


# What is looked at: a name, an address, a width, a height, and a colour scheme.
SHOTS = (("narrow", "session=lesson/7&step=6", 320, 1800, "light"), ("usual", "session=lesson/7&step=6", 1280, 900, "light"),
         ("wide", "session=lesson/7&step=6", 3840, 2160, "light"), ("lecture", "session=lesson/7&step=6&view=lecture", 1280, 720, "light"),
         ("lecture-150", "session=lesson/10&step=5&view=lecture", 853, 480, "light"),
         ("lecture-4k", "session=lesson/10&step=5&view=lecture", 3840, 2160, "light"),
         ("dark", "session=lesson/7&step=6", 1280, 900, "dark"), ("large-heap", "session=lecture/die-young&step=102", 1280, 1400, "light"))


class Sizes(Page):
    def test_screenshots(self) -> None:
        """Each view can be made a picture, which isn't empty. They are kept in the folder $SHOTS, if it is named."""
        for name, address, width, height, scheme in SHOTS:
            self.browser.call("Emulation.setEmulatedMedia", features=[{"name": "prefers-color-scheme", "value": scheme}])
            self.open("#" + address, width, height)
            self.until("document.body.dataset.planned", "all steps are looked at")
            keep(name, self.browser.screenshot())
        self.browser.call("Emulation.setEmulatedMedia", features=[])

    def width(self) -> int:
        return self.value("document.documentElement.scrollWidth")

    def test_no_window_scrolls_sideways(self) -> None:
        for width, height in ((320, 640), (420, 800), (1280, 720), (3840, 2160)):
            self.open("", width, height)
            for name in ("lesson/7", "collection", "lesson/3"):
                self.go(f"#session={name}&step=6")
                self.assertLessEqual(self.width(), width, f"{name} at {width}")

    def test_letters_of_a_narrow_window_can_be_read(self) -> None:
        self.open("#session=lesson/7&step=6", 320, 640)
        self.assertGreater(self.value("look.letters()"), 8)
        self.assertLessEqual(self.value("look.sideways()"), 1)

    def test_the_lecture_view_fills_its_window(self) -> None:
        for width, height in ((1280, 720), (853, 480), (3840, 2160), (1024, 768)):
            self.open("#session=lesson/7&step=6&view=lecture", width, height)
            box = self.value("look.main()")
            self.assertGreater(max(box[0] / width, box[1] / height), 0.98)
            self.assertAlmostEqual(box[0] / box[1], 16 / 9, delta=0.02)
            self.assertEqual(self.value("look.page()"), [width, height])
            self.assertGreater(self.value("look.letters()") / box[1], 0.016)

    def test_nothing_jumps_from_step_to_step(self) -> None:
        for view in ("", "&view=lecture"):
            self.open(f"#session=lesson/7{view}")
            self.until("document.body.dataset.planned", "all steps are looked at")
            time.sleep(0.2)
            places = set()
            for step in range(8):
                self.at_step(step)
                places.add(tuple(self.value("look.place()")) if step > 1 else ())
                self.press("PageDown")
            self.assertEqual(len(places), 2, places)

    def test_dark_and_light(self) -> None:
        ground = "getComputedStyle(document.body).backgroundColor"
        self.browser.call("Emulation.setEmulatedMedia", features=[{"name": "prefers-color-scheme", "value": "dark"}])
        self.open("#session=lesson/7&step=6")
        self.assertEqual(self.value(ground), "rgb(22, 24, 28)")
        self.assertEqual(self.value("getComputedStyle(document.querySelector('#regions .d-ground')).fill"), "rgb(22, 24, 28)")
        self.click("theme")
        self.assertEqual(self.value(ground), "rgb(255, 255, 255)")
        self.browser.call("Emulation.setEmulatedMedia", features=[])

    def test_a_heap_of_thousands_draws_fast(self) -> None:
        """A step of a world with 5,000 objects draws in under 200 ms, and has a map of the heap."""
        lists = "".join("list 1 work " + " ".join(["0"] * 100) + "\ncons 2 work 1 2\n" for _ in range(50))
        text = f"lispm-world 1\nspace 64 64 8 1 2\narea work dynamic 20000\ntrace\nset 0 7\n{lists}flip full\nscavenge 4000\nend\n"
        self.open("#text=" + text.replace("\n", "%0A").replace(" ", "+") + "&step=101")
        self.at_step(101)
        time.sleep(2)
        def step(number: int) -> float:
            key, wanted = ("PageDown", 103) if number % 2 else ("PageUp", 102)
            start = self.value("performance.now()")
            self.press(key)
            self.at_step(wanted)
            return self.value("performance.now()") - start
        self.press("PageDown")
        self.at_step(102)
        self.press("PageDown")
        self.at_step(103)
        self.assert_quick(step, 200)
        self.press("End")
        self.at_step(103)
        self.assertGreater(self.value("document.querySelectorAll('#heap path').length"), 2)
        self.assertFalse(self.value("document.getElementById('map').hidden"))


class LargeLetters(Page):
    more = ["--blink-settings=minimumFontSize=24"]

    def test_a_least_size_of_24(self) -> None:
        for width in (320, 1280):
            self.open("#session=lesson/7&step=6", width, 900)
            self.assertLessEqual(self.value("document.documentElement.scrollWidth"), width)
            keep(f"large-letters-{width}", self.browser.screenshot())
            self.assertGreaterEqual(self.value("look.line()"), 24)
            self.assertEqual(self.value("look.tooNarrow()"), 0)


@unittest.skipUnless(CHROMIUM and has_page, "Chromium or web/lispm.html isn't there")
class NoModule(Page):
    def test_one_sentence(self) -> None:
        with tempfile.TemporaryDirectory() as folder:
            path = os.path.join(folder, "page.html")
            shutil.copy(PAGE, path)
            with open(path, encoding="utf-8") as file:
                page = file.read()
            with open(path, "w", encoding="utf-8") as file:
                file.write(re.sub(r'(<script type="text/plain" id="module">).*?(</script>)', r"\1AAAA\2", page, flags=re.S))
            self.browser.call("Page.navigate", url=f"file://{path}")
            self.until("document.getElementById('cannot') && !document.getElementById('cannot').hidden", "the sentence")
            self.assertEqual(self.shown("cannot").count("."), 1)


if __name__ == "__main__":
    unittest.main()
