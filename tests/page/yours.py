"""Your receiver, in a real browser: written in the page, marked on the three points, named by its mistake, shown beside the proved one; and code that misbehaves.

    yours.py FOLDER       screenshots go to FOLDER
"""
import re
import time

from selenium.webdriver.common.keys import Keys

from common import ROOT, SHOTS, check, equal, run

RIGHT = (ROOT / "tests" / "page" / "receiver.js").read_text()


def edited(*edits):
    code = RIGHT
    for old, new in edits:
        assert code.count(old) == 1, (code.count(old), old)
        code = code.replace(old, new)
    return code


COUNTS = ("if (going && seen[block.number] === 1) return refuse(13);", "")
ERASES = ("if (sectors[sector] !== 1) flash.fill", "flash.fill")
WRONG = {
    "It counts arrivals": [COUNTS],
    "It erases at each page": [ERASES],
    "It does not clear the seen map": [("    seen.fill(0);\n", "")],
    "A block for another board discards the transfer": [("if (!place) return refuse(8);", "if (!place) { if (t.state === 'running') t.state = 'idle'; return refuse(8); }")],
    "It adds address and size in 32 bits": [("block.address - 0x10000000 + 256 > place.length", "((block.address + 256) >>> 0) > 0x10000000 + place.length"), ("const at = place.start + block.address - 0x10000000;", "const at = (place.start + block.address - 0x10000000) % flash.length;")],
    "It stores nothing": [("  flash.set(arrival.subarray(32, 288), at);\n", ""), ("  if (sectors[sector] !== 1) flash.fill(0xff, sector * 4096, sector * 4096 + 4096);\n", "")],
    "It counts arrivals, and It erases at each page": [COUNTS, ERASES],
}


def write(page, code):
    page.js("const area = document.getElementById('yours-code'); area.value = arguments[0]; area.dispatchEvent(new Event('input'))", code)


def marked(page, code, seconds=90):
    write(page, code)
    page.press("#yours-check")
    page.until(lambda: page.text("#yours-note") == "" and page.js("return document.getElementById('yours-result').childElementCount") > 0, f"marked: {page.text('#yours-note')}", seconds)
    marks = page.js("return [...document.querySelectorAll('#yours-result .mark')].map((n) => n.dataset.mark)")
    said = page.js("const n = document.querySelector('#yours-result .diagnosis'); return n ? [...n.querySelectorAll('p')].map((p) => p.textContent) : []")
    return marks, said


def smallest(page):
    return page.js("return [...document.querySelectorAll('#yours-result .smallest')].map((n) => ({ kind: n.dataset.kind, head: n.querySelector('h3').textContent, lines: [...n.querySelectorAll('li')].map((li) => li.textContent) }))")


def marking(page):
    @check("yours: a right receiver holds all three points, also with a partition table; and it is no proof")
    def _():
        page.press("#tab-yours")
        marks, said = marked(page, RIGHT)
        equal([marks, said], [["held"] * 3, []])
        assert "It is not a proof." in page.text("#yours-result"), page.text("#yours-result")
        page.press("#yours-table")
        equal(marked(page, RIGHT), (["held"] * 3, []))
        page.press("#yours-table")

    for name, edits in WRONG.items():

        @check(f"yours: {name}: it gets that name")
        def _():
            marks, said = marked(page, edited(*edits))
            assert "notHeld" in marks, marks
            equal(said[0], f"As if: {name}")
            if name == "It counts arrivals":
                equal(marks, ["held", "notHeld", "notHeld"])
                assert said[1].startswith("This explains all ") and "No other of the " in said[1], said
                small = smallest(page)
                equal(small[0]["kind"], "falselyComplete")
                equal(len(small[0]["lines"]), 2)
                block = re.fullmatch(r"Arrival 1, (block [01] of 2, 0x10000[01]00): you answer 14 Written", small[0]["lines"][0])[1]
                assert small[0]["lines"][1].startswith(f"Arrival 2, {block}: you answer 15 Completed. Right is 13 Again: "), small

    @check("yours: a mistake that is not known gets no name, and is marked all the same")
    def _():
        marks, said = marked(page, edited(("if (block.size !== 256)", "if (block.number === 3) return refuse(13);\n  if (block.size !== 256)")))
        assert "notHeld" in marks and not any(line.startswith("As if") for line in said), said

    @check("yours: a smallest list opens in the lessons, beside the proved receiver")
    def _():
        marked(page, edited(COUNTS))
        page.press("#yours-result .smallest button")
        page.until(lambda: page.text("#position") == "Arrival 2 of 2", "the list")
        equal([page.text("#wrong-stamp"), page.text("#wrong-name")], ["YOURS", "Your receiver"])
        equal([page.lamp("proved")[0], page.lamp("wrong")], ["running", ["done", "true"]])
        assert "GREEN, AND A PAGE IS MISSING" in page.text("#wrong .verdict")
        rows = page.log()
        equal([rows[1][4], rows[1][6]], ["13 Again", "15 Completed ≠"])

    @check("yours beside the proved one in every lesson: a right one never differs")
    def _():
        page.press("#tab-yours")
        write(page, RIGHT)
        page.press("#yours-show")
        for lesson in page.js("return [...document.getElementById('lesson').options].map((option) => option.value).filter((value) => value !== 'own')"):
            page.lesson(lesson)
            page.js("const choice = document.getElementById('wrong-choice'); choice.value = 'yours'; choice.dispatchEvent(new Event('change'))")
            page.until(lambda: page.text("#wrong-stamp") == "YOURS" and page.text("#position").startswith("Arrival 0 "), lesson)
            time.sleep(0.3)
            page.end()
            equal(page.text("#wrong-difference"), "They have not differed so far.", lesson)
            equal([page.lamp("wrong"), page.words("wrong")[0]], [page.lamp("proved"), page.words("proved")[0]], lesson)
            # that erased flash was erased once more is not seen in what a worker tells
            equal(*([page.grid(side).get(status) for status in ("stored", "missing")] for side in ("wrong", "proved")), lesson)
        page.lesson("lostPage")
        page.js("const choice = document.getElementById('wrong-choice'); choice.value = 'yours'; choice.dispatchEvent(new Event('change'))")
        page.until(lambda: page.text("#wrong-stamp") == "YOURS" and page.text("#position").startswith("Arrival 0 "), "yours")
        page.end()
        page.press("#to-service")
        equal(page.text("#service-wrong .stamp"), "YOURS")
        page.press("#back")

    odd = {
        "a loop": ("function take() { for (;;); }", "No answer to arrival 1 within 2.0 s. The page has ended it.", "crash"),
        "a throw": ("function take() {\n  throw new Error('ouch');\n}", "Line 2: Error: ouch", "form"),
        "nothing returned": ("function take() {}", "It returned undefined, and not { answer, discarded }.", "form"),
        "a number returned": ("function take() { return 14; }", "It returned number 14, and not { answer, discarded }.", "form"),
        "an answer that is none": ("function take() { return { answer: 99, discarded: false }; }", "Its answer is number 99, and no whole number from 0 to 31.", "form"),
        "a state that is none": ("function take(b, t) { t.state = 'busy'; return { answer: 8, discarded: false }; }", "t.state is string busy, and not idle, running or done.", "form"),
        "the network": ("function take() { importScripts('https://example.org/x.js'); }", "NetworkError", "crash"),
        "code made of text": ("function take() { return eval('1'); }", "EvalError", "crash"),
    }
    for name, (code, words, _) in odd.items():

        @check(f"yours, {name}: a sentence, and no point is held")
        def _():
            page.press("#tab-yours")
            marks, _ = marked(page, code, 60)
            assert "held" not in marks[1:], marks
            equal(marks[0], "notHeld")
            assert words in page.text("#yours-result"), page.text("#yours-result")[:600]

    for name, code, words in (("a slip of the pen", "function take() {\n  return {{;\n}", "Line 2: SyntaxError"), ("no function take", "const receive = 1;", "There is no function with the name take.")):

        @check(f"yours, {name}: a sentence, and nothing is marked")
        def _():
            marks, _ = marked(page, code)
            equal(marks, [])
            assert words in page.text("#yours-result"), page.text("#yours-result")

    @check("yours: opening a file runs nothing, and saving writes what stands there")
    def _():
        page.js("window.workers = 0; const made = Worker; Worker = function (...words) { window.workers++; return new made(...words); }")
        page.pick("#yours-file", "mine.js", b"function take() { return { answer: 8, discarded: false }; }")
        page.until(lambda: page.text("#yours-note") == "mine.js is open. Nothing of it has run yet.", "the file")
        equal([page.js("return window.workers"), page.js("return document.getElementById('yours-code').value")], [0, "function take() { return { answer: 8, discarded: false }; }"])
        page.press("#yours-template")
        assert "check 4: three magic numbers" in page.js("return document.getElementById('yours-code').value")

    @check("yours, with the keyboard alone: Tab indents, Escape and Tab leave, and Enter checks")
    def _():
        area = page.get("#yours-code")
        area.click()
        area.send_keys(Keys.CONTROL, "a")
        area.send_keys("function take() {}", Keys.TAB)
        equal(page.js("return document.getElementById('yours-code').value"), "function take() {}  ")
        equal(page.js("return document.activeElement.id"), "yours-code")
        area.send_keys(Keys.ESCAPE)
        for _ in range(14):
            page.keys((Keys.SHIFT, Keys.TAB))
            if page.js("return document.activeElement.id") == "yours-check":
                break
        equal(page.js("return document.activeElement.id"), "yours-check")
        page.keys(Keys.ENTER)
        page.until(lambda: "It returned undefined" in page.text("#yours-result"), "checked")


def shots(driver, page):
    for width, height, name in ((390, 844, "phone"), (1024, 768, "projector"), (1920, 1080, "large")):

        @check(f"yours, at {width} by {height}: nothing is cut off")
        def _():
            driver.execute_cdp_cmd("Emulation.setDeviceMetricsOverride", {"width": width, "height": height, "deviceScaleFactor": 1, "mobile": False})
            page.open()
            page.press("#tab-yours")
            marked(page, edited(COUNTS))
            page.js("window.scrollTo(0, 0)")
            SHOTS.mkdir(parents=True, exist_ok=True)
            driver.save_screenshot(str(SHOTS / f"yours_{name}.png"))
            wide = page.js("return [document.documentElement.scrollWidth, window.innerWidth]")
            assert wide[0] <= wide[1], (wide, page.js("return [...document.querySelectorAll('*')].filter((n) => n.getBoundingClientRect().right > innerWidth + 1 && !n.closest('.scroll')).map((n) => n.tagName + '.' + n.className + '#' + n.id)"))


def tests(driver, page):
    marking(page)
    shots(driver, page)


# the policy says in the console what it has refused
run(tests, expected=("example.org", "unsafe-eval"))
