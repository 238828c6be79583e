"""For a class, in a real browser: guess first, scenarios as files and links, the handout, and texts of another language.

    classroom.py FOLDER       screenshots and printed pages go to FOLDER
"""
import base64
import json
import re
import time

from selenium.webdriver.common.keys import Keys

from common import PAGE, ROOT, SHOTS, block, check, equal, run

LESSONS = ["lostPage", "order", "erase", "foreign", "wrap", "bEntry", "oneMap", "whole", "oneAddress", "otherBuild"]


# What a button would save as a file.
def saved(page, button):
    text = page.driver.execute_async_script(
        """const done = arguments[1];
        const make = URL.createObjectURL;
        URL.createObjectURL = (blob) => {
            URL.createObjectURL = make;
            const reader = new FileReader();
            reader.onload = () => done(reader.result.split(',')[1]);
            reader.readAsDataURL(blob);
            return 'data:,';
        };
        HTMLAnchorElement.prototype.click = function () {};
        document.getElementById(arguments[0]).click();""",
        button,
    )
    return base64.b64decode(text)


def address(page):
    return page.js("return location.hash")


def visit(page, hash):
    page.driver.get("about:blank")
    page.driver.get(PAGE.as_uri() + hash)
    page.until(lambda: page.js("return document.documentElement.dataset.ready") == "yes", "the page is ready")


# A file chosen in the field for scenarios, and the list that it opens.
def open_scenario(page, content, name="class.json"):
    page.pick("#scenario-file", name, content if isinstance(content, bytes) else json.dumps(content).encode())
    time.sleep(0.3)


def scenarios(page):
    @check("a scenario of each lesson: saved, opened again and by link in a new window, the log is the same")
    def _():
        longest = {}
        for lesson in LESSONS:
            page.lesson(lesson)
            page.end()
            before = page.log()
            content = saved(page, "scenario-save")
            page.until(lambda: address(page).startswith("#s="), "the address follows")
            link = address(page)
            longest[lesson] = len(link)
            page.lesson("lostPage" if lesson != "lostPage" else "erase")
            open_scenario(page, content)
            page.until(lambda: page.js("return document.getElementById('lesson').value") == lesson and page.at_end(), lesson)
            equal(page.log(), before, f"{lesson} from a file")
            visit(page, link)
            equal(page.js("return document.getElementById('lesson').value"), lesson)
            page.end()
            equal(page.log(), before, f"{lesson} by link")
        assert max(longest.values()) < 400, longest

    @check("a list of one's own, with a changed block and an own board: file and link carry it")
    def _():
        page.lesson("erase")
        page.press("[data-block='6']")
        page.until(lambda: page.text("#position") == "Arrival 0 of 9", "block 6 twice")
        page.js("document.getElementById('setup').open = true")
        page.choose("#mix-kind", "wraps")
        page.press("#mix-add")
        page.until(lambda: page.text("#position") == "Arrival 0 of 10", "mixed in")
        page.js("document.getElementById('lent').value = 'old'; document.getElementById('apply').click()")
        time.sleep(0.3)
        page.end()
        before, grid = page.log(), page.grid("proved")
        scenario = json.loads(saved(page, "scenario-save"))
        equal([scenario["file"], scenario["send"]], [{"sample": {"pages": 8, "family": "arm-s"}}, "0/8 1/8,at=0xFFFFFF00 1-6/8 6-7/8"])
        page.lesson("lostPage")
        open_scenario(page, scenario)
        page.until(lambda: page.text("#position") == "Arrival 10 of 10", "opened")
        equal([page.log(), page.grid("proved")], [before, grid])
        page.until(lambda: address(page).startswith("#s="), "the address")
        time.sleep(0.3)
        visit(page, address(page))
        page.end()
        equal([page.log(), page.grid("proved")], [before, grid], "by link")
        page.drop("other.uf2", b"".join(block(k, 3) for k in (0, 1, 1)))
        page.until(lambda: "other.uf2" in page.text("#file-note"), "a file that is no sample")
        page.end()
        before = page.log()
        scenario = json.loads(saved(page, "scenario-save"))
        equal(scenario["send"], "#0 #1 #1")
        page.lesson("lostPage")
        open_scenario(page, scenario)
        page.until(lambda: page.text("#position") == "Arrival 3 of 3", "opened")
        equal(page.log(), before)

    @check("a scenario of the marker: the hand-in's answers are a column of the log")
    def _():
        pieces = b"".join(block(k, 2) for k in (0,))
        open_scenario(page, {"vantorel": "scenario", "version": 1, "title": "counts_arrivals.py, lost-page", "board": {"flash": 32768, "entries": []}, "file": {"bytes": base64.b64encode(pieces).decode()}, "send": "#0 #0", "position": 0, "guess": False, "answers": [14, 15]})
        page.until(lambda: page.text("#position") == "Arrival 0 of 2", "opened")
        equal(page.text("#lesson-text"), "counts_arrivals.py, lost-page")
        page.end()
        equal([row[4] for row in page.log()], ["14 Written", "13 Again"])
        equal([row[-1] for row in page.log()], ["14 Written", "15 Completed ≠"])

    bad = {
        "no JSON": (b"{ nothing", "it is not written as one"),
        "another JSON": (b'{ "a": 1 }', "it is not written as one"),
        "a newer version": ({"vantorel": "scenario", "version": 2}, "it is of another version"),
        "a lesson that is not here": ({"vantorel": "scenario", "version": 1, "lesson": "x"}, "it names a lesson that is not here"),
        "a board that is none": ({"vantorel": "scenario", "version": 1, "board": {"flash": 5000}, "send": "0/2"}, "its board is none"),
        "arrivals that are none": ({"vantorel": "scenario", "version": 1, "file": {"sample": {"pages": 8}}, "send": "9/8"}, "its arrivals are none"),
        "a file that is none": ({"vantorel": "scenario", "version": 1, "file": {"bytes": "%%"}, "send": "#0"}, "its file is none"),
    }
    for name, (content, why) in bad.items():

        @check(f"a scenario that is none, {name}: a sentence, and what was shown stays")
        def _():
            page.lesson("order")
            open_scenario(page, content)
            page.until(lambda: page.text("#scenario-note") == f"class.json is no scenario of this page ({why}).", f"{why}: {page.text('#scenario-note')}")
            equal(page.js("return document.getElementById('lesson').value"), "order")

    @check("a link that is cut or foreign: a sentence, and lesson 1 is shown")
    def _():
        page.lesson("whole")
        page.until(lambda: address(page).startswith("#s="), "the address")
        time.sleep(0.3)
        for hash, why in ((address(page)[:40], "it is cut off or changed"), ("#s=%%%", "it is not written as one"), ("#s=AAAA", "it is cut off or changed")):
            visit(page, hash)
            equal(page.text("#notice-words"), f"This link is no scenario of this page ({why}). Lesson 1 is shown.", hash)
            equal(page.js("return document.getElementById('lesson').value"), "lostPage")

    @check("a scenario with a receiver in it does not run it, and a link carries none")
    def _():
        page.js("window.workers = 0; const made = Worker; Worker = function (...words) { window.workers++; return new made(...words); }")
        open_scenario(page, {"vantorel": "scenario", "version": 1, "lesson": "lostPage", "beside": "yours", "yours": "function take() { for (;;); }"})
        page.until(lambda: "It was not run" in page.text("#notice-words"), "the notice")
        equal([page.js("return window.workers"), page.js("return document.getElementById('yours-code').value")], [0, "function take() { for (;;); }"])
        page.press("#tab-yours")
        page.js("const area = document.getElementById('yours-code'); area.value = 'function take() { return { answer: 8, discarded: false }; }'; area.dispatchEvent(new Event('input'))")
        page.press("#yours-show")
        page.until(lambda: page.text("#wrong-stamp") == "YOURS", "yours")
        equal(json.loads(saved(page, "scenario-save"))["yours"], "function take() { return { answer: 8, discarded: false }; }")
        time.sleep(0.3)
        visit(page, address(page))
        equal(page.js("return document.getElementById('wrong').hidden"), True, "nothing beside it")

    @check("a scenario that is dropped on the page is opened, and so is a file of texts")
    def _():
        page.press("#tab-hex")
        page.drop("class.json", json.dumps({"vantorel": "scenario", "version": 1, "lesson": "wrap"}).encode())
        page.until(lambda: page.js("return document.getElementById('lesson').value") == "wrap" and page.js("return !document.getElementById('view-transfer').hidden"), "the scenario")
        page.drop("holiday.json", b"{ nothing")
        page.until(lambda: "holiday.json is no scenario of this page" in page.text("#notice-words"), "a sentence")
        page.drop("texts.json", json.dumps({"language": "fr", "name": "Français", "controls": {"play": "Lire"}}).encode())
        page.until(lambda: page.text("#play") == "Lire", "the texts")
        equal(page.js("return document.getElementById('lesson').value"), "wrap")
        page.js("const choice = document.getElementById('language'); choice.value = 'en'; choice.dispatchEvent(new Event('change'))")
        page.until(lambda: page.text("#play") == "Play", "English")

    @check("the link is copied, or shown where the browser does not allow that")
    def _():
        page.lesson("lostPage")
        page.js("document.getElementById('setup').open = true")
        page.press("#scenario-link")
        page.until(lambda: page.text("#scenario-note") != "", "a sentence")
        assert re.match(r"The link was copied: \d+ letters\.|The browser does not let this page copy\. The link is: file:.*#s=", page.text("#scenario-note")), page.text("#scenario-note")
        page.js("document.getElementById('setup').open = false")


def guessing(page):
    def shown_of_view():
        return page.js("return document.getElementById('view-transfer').outerHTML")

    names = [line.split("\t")[2] for line in (ROOT / "words" / "answers.tsv").read_text().splitlines() if line.startswith("answer\t")]

    def secrets(html):
        return [word for word in ("PROVED", "WRONG", "It counts arrivals", "missing", "countsArrivals", *[f"{name}<" for name in names]) if word in html]

    def press_show():
        page.js("const all = document.querySelectorAll('#guess .main-button'); all[all.length - 1].click()")

    @check("guess first: nothing that tells is in the document until the class has guessed")
    def _():
        for lesson in LESSONS[:8]:
            page.lesson(lesson)
            page.js("if (!document.getElementById('guess-on').checked) document.getElementById('guess-on').click()")
            for _ in range(2):
                page.press("#step")
            equal(secrets(shown_of_view()), [], lesson)
            page.press("#to-end")
            page.until(page.at_end, "the end")
            equal(secrets(shown_of_view()), [], f"{lesson} at its end")
        page.press("#guess-on")
        assert "PROVED" in shown_of_view()

    @check("guess first, lesson 1: three questions, hands counted, then names and the displays switched on")
    def _():
        page.lesson("lostPage")
        page.press("#guess-on")
        def hands(question, counts):
            page.js(
                """const fields = document.querySelectorAll('.guess-question')[arguments[0]].querySelectorAll('.hands');
                arguments[1].forEach((n, k) => (fields[k].value = n));""",
                question,
                counts,
            )
        def result(question):
            page.until(lambda: page.js("return document.querySelectorAll('.guess-question')[arguments[0]].querySelector('.note').textContent", question) != "", "the result")
            return page.js("return document.querySelectorAll('.guess-question')[arguments[0]].querySelector('.note').textContent", question)
        equal(page.js("return document.querySelector('.guess-question legend').textContent"), "Which display says that the update is complete?")
        hands(0, [5, 4, 3, 2])
        press_show()
        said = result(0)
        letter = re.match(r"“Update complete” stands on: ([AB])\. (\d+) of 14 were right\.", said)
        assert letter, said
        equal(letter[2], {"A": "5", "B": "4"}[letter[1]])
        equal(page.js("return document.querySelectorAll('.guess-question legend')[1].textContent"), f"Which page is not in the flash of display {letter[1]}?")
        hands(1, [1, 0, 0, 0, 0, 0, 9])
        press_show()
        equal(result(1), "9 of 10 were right.")
        assert "GREEN, AND A PAGE IS MISSING" in page.text("#guess")
        equal([word for word in secrets(shown_of_view()) if word in ("PROVED", "WRONG", "It counts arrivals")], [], "names before the last question")
        hands(2, [7, 7, 0])
        press_show()
        equal(result(2), f"Green with nobody there: {letter[1]}. 7 of 14 would have climbed under it.")
        cards = page.js("return [...document.querySelectorAll('.guess-card h2')].map((n) => n.textContent)")
        equal(sorted(word.split(": ")[1] for word in cards), ["PROVED The proved receiver", "WRONG It counts arrivals"])
        equal(page.js("return document.getElementById('service-scene').hidden"), False, "switched on")
        page.press("#guess-on")
        equal(page.js("return [document.getElementById('guess').hidden, document.getElementById('shown').isConnected]"), [True, True])

    @check("guess first with the keyboard alone, and a scenario that begins with it")
    def _():
        page.lesson("whole")
        page.press("#guess-on")
        time.sleep(0.3)
        scenario = json.loads(saved(page, "scenario-save"))
        equal(scenario["guess"], True)
        page.press("#guess-on")
        open_scenario(page, scenario)
        page.until(lambda: page.js("return !document.getElementById('guess').hidden"), "guess first")
        for _ in range(3):
            page.keys(Keys.ENTER)
            time.sleep(0.6)
        page.until(lambda: page.js("return document.getElementById('shown').isConnected"), "all is shown")
        assert "No display is green with nobody there." in page.text("#guess"), page.text("#guess")
        page.press("#guess-on")


def printing(driver, page):
    def pages(name):
        told = driver.execute_cdp_cmd("Page.printToPDF", {"printBackground": True, "paperWidth": 8.27, "paperHeight": 11.69})
        content = base64.b64decode(told["data"])
        SHOTS.mkdir(parents=True, exist_ok=True)
        (SHOTS / f"print_{name}.pdf").write_bytes(content)
        return len(re.findall(rb"/Type\s*/Page\b(?!s)", content))

    # Pressed as a person does; the page is held as it is printed.
    def choose(what):
        page.js("window.print = () => { window.printed = document.body.dataset.print; window.held = document.body.dataset.print; }")
        page.press("#print")
        page.press(f"#print-{what}")
        page.until(lambda: page.js("return window.printed") is not None, "printed")
        printed = page.js("const was = window.printed; window.printed = undefined; document.body.dataset.print = was; return was")
        return printed

    @check("handout and trainer's copy of each lesson are one page each; the handout has no answer in it")
    def _():
        counts = {}
        for lesson in LESSONS:
            page.lesson(lesson)
            equal(choose("handout"), "page")
            words = page.text("#handout")
            assert "14 Written" not in words and "Completed:" not in words and "GREEN" not in words, words
            counts[f"handout_{lesson}"] = pages(f"handout_{lesson}")
            page.js("delete document.body.dataset.print")
            equal(choose("trainer"), "page")
            words = page.text("#handout")
            assert page.words("proved")[0] in words and "Switch it on: " in words, words
            counts[f"trainer_{lesson}"] = pages(f"trainer_{lesson}")
            page.js("delete document.body.dataset.print")
        equal({name: count for name, count in counts.items() if count != 1}, {})
        page.lesson("lostPage")
        page.end()
        equal(choose("all"), "all")
        equal(pages("all"), 1)
        page.js("delete document.body.dataset.print")

    @check("the trainer's copy of lesson 1 says what each display comes to")
    def _():
        page.lesson("lostPage")
        choose("trainer")
        words = page.text("#handout")
        for part in ("Switch it on: update mode.", "Switch it on: green with nobody there. A man who trusts it climbs into the chute.", "15 Completed", "nothing of it is proved"):
            assert part in words, part
        page.js("delete document.body.dataset.print")


def languages(driver, page):
    def flat(tree, path=""):
        for name, part in tree.items():
            key = f"{path}.{name}" if path else name
            if isinstance(part, dict) and not ("other" in part and set(part) <= {"by", "zero", "one", "two", "few", "many", "other"}):
                yield from flat(part, key)
            else:
                yield key

    def mapped(tree, act):
        return {name: part if name in ("language", "by") else mapped(part, act) if isinstance(part, dict) else act(part) for name, part in tree.items()}

    def open_texts(content):
        page.js("document.getElementById('languages').open = true")
        page.pick("#language-file", "texts.json", content if isinstance(content, bytes) else json.dumps(content).encode())
        time.sleep(0.5)

    @check("a file with every text in brackets leaves nothing outside of brackets")
    def _():
        page.lesson("lostPage")
        english = json.loads(saved(page, "language-save"))
        brackets = {**mapped(english, lambda words: f"⟦{words}⟧" if words else words), "language": "de"}
        open_texts(brackets)
        page.until(lambda: page.text(".top h1").startswith("⟦"), "the texts")
        equal(page.text("#language-note"), "")
        page.js("document.getElementById('to-end').click()")
        page.until(lambda: page.js("return document.querySelector('#proved .verdict').dataset.kind") == "missing", "the end")
        page.js("document.getElementById('to-service').click()")
        outside = page.js(
            """const walk = document.createTreeWalker(document.getElementById('page'), NodeFilter.SHOW_TEXT);
            const found = [];
            for (let node = walk.nextNode(); node; node = walk.nextNode()) {
                const owner = node.parentElement;
                if (owner.closest('#log, #yours-code, #yours-lines, canvas, #entries, code, [hidden], select, datalist, #keys, .block')) continue;
                const words = node.textContent.trim();
                if (/[A-Za-z]{3}/.test(words.replace(/⟦.*⟧/gs, ''))) found.push(words);
            }
            return found;"""
        )
        # names of answers are those of the papers, in every language
        equal([words for words in outside if words not in ("Written", "Completed")], [])

    @check("a file with three texts: the others stay English, and are counted and named")
    def _():
        open_texts({"language": "fr", "name": "Français", "controls": {"play": "Lire", "position": "Arrivée {0}", "what": "x"}, "verdict": {"going": "{0} sur {1}"}})
        page.until(lambda: page.text("#play") == "Lire", "the texts")
        note = page.text("#language-note")
        assert re.match(r"\d+ texts are missing and stay English: page\.title, ", note), note
        assert "1 text is unknown here: controls.what." in note, note
        assert "1 text has other blanks than the English one, which stays: controls.position." in note, note
        equal(page.text("#step"), "Step")

    @check("a file that is none gets a sentence")
    def _():
        for content in (b"{", b"[]", b'{ "language": 3 }', b'{ "language": "!!", "name": "x" }'):
            open_texts(content)
            page.until(lambda: page.text("#language-note") == "This is no file of texts: it needs \"language\" and \"name\".", content)

    @check("German: every text is there, the same list stays open, and a reload keeps it")
    def _():
        german = json.loads((ROOT / "web" / "texts" / "de.json").read_text())
        page.js("const choice = document.getElementById('language'); choice.value = 'en'; choice.dispatchEvent(new Event('change'))")
        page.until(lambda: page.text("#play") == "Play", "English")
        english = json.loads(saved(page, "language-save"))
        # what is said of mistakes and cases may stay English
        equal(sorted(key for key in set(flat(english)) - set(flat(german)) if not key.startswith("teaching.")), [], "not translated")
        page.lesson("order")
        page.end()
        page.js("const choice = document.getElementById('language'); choice.value = 'de'; choice.dispatchEvent(new Event('change'))")
        page.until(lambda: page.text("#play") == german["controls"]["play"], "German")
        equal([page.text("#language-note"), page.js("return document.getElementById('lesson').value"), page.js("return document.documentElement.lang")], ["", "order", "de"])
        equal(page.text("#wrong .verdict .words"), german["verdict"]["falselyDone"]["one"])
        page.open()
        equal(page.text("#play"), german["controls"]["play"])
        driver.save_screenshot(str(SHOTS / "german.png"))
        page.js("const choice = document.getElementById('language'); choice.value = 'en'; choice.dispatchEvent(new Event('change'))")
        page.until(lambda: page.text("#play") == "Play", "English again")


def shots(driver, page):
    for width, height, name in ((390, 844, "phone"), (1024, 768, "projector")):

        @check(f"guess first at {width} by {height}: nothing is cut off")
        def _():
            driver.execute_cdp_cmd("Emulation.setDeviceMetricsOverride", {"width": width, "height": height, "deviceScaleFactor": 1, "mobile": False})
            page.open()
            page.lesson("lostPage")
            page.press("#guess-on")
            page.js("document.querySelector('#guess .main-button').click()")
            time.sleep(0.4)
            page.js("window.scrollTo(0, 0)")
            driver.save_screenshot(str(SHOTS / f"guess_{name}.png"))
            wide = page.js("return [document.documentElement.scrollWidth, window.innerWidth]")
            assert wide[0] <= wide[1], wide


def tests(driver, page):
    scenarios(page)
    guessing(page)
    printing(driver, page)
    languages(driver, page)
    shots(driver, page)


run(tests)
