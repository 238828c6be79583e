"""The first lesson as it is told, in a real browser: the update is over, the display is switched on, and the socket dies. What each display shows, and the truth.

    service.py FOLDER       screenshots go to FOLDER
"""
import time

from selenium.webdriver.common.keys import Keys

from common import SHOTS, block, check, equal, run

FACES = """return ['proved', 'wrong'].map((side) => document.getElementById(`service-${side}`)).filter((n) => !n.hidden).map((n) => ({
    face: n.querySelector('.screen').dataset.face,
    screen: [...n.querySelectorAll('.screen strong, .screen span:last-child')].map((part) => part.textContent),
    strip: [...n.querySelectorAll('.strip span')].map((part) => part.textContent),
    reads: n.querySelector('.reads').textContent,
    end: [...n.querySelectorAll('.verdict p')].map((part) => part.textContent),
    kind: n.querySelector('.verdict').dataset.kind }))"""
TRUSTED = "GREEN, AND NOBODY IS THERE. A man who trusts it climbs into the chute."
STALE = "Stale since 8.0 s. Nobody trusts it."
UPDATE = "Not green. Nobody takes it for a good light, and it says what to do."
DARK = "Dark. A page is lost here too, but everybody sees it."
NEVER = "Firmware 2. Its timeout, as it stands in the flash at byte {}: 4,294,967,295 ms (FF FF FF FF, erased flash: never)."
GOOD = "Firmware 2. Its timeout, as it stands in the flash at byte {}: 3,000 ms."


def at(page, milliseconds):
    page.js("const time = document.getElementById('service-time'); time.value = arguments[0]; time.dispatchEvent(new Event('input'))", milliseconds)
    return page.js(FACES)


def switched_on(page, lesson):
    page.lesson(lesson)
    page.end()
    page.press("#to-service")
    return at(page, 12000)


def in_view(page, selector):
    return page.js(
        """const parts = [...document.querySelectorAll(arguments[0])].filter((n) => n.offsetParent !== null);
        const bar = document.querySelector('#view-transfer .controls').getBoundingClientRect().bottom;
        return parts.filter((n) => { const box = n.getBoundingClientRect(); return box.top < bar - 1 || box.bottom > innerHeight; }).map((n) => n.className + ' ' + n.id)""",
        selector,
    )


def scenes(page):
    @check("lesson 1, switched on: the wrong display is green with nobody there, and the proved one says that the update is not complete")
    def _():
        page.lesson("lostPage")
        equal([page.text("#service-hint"), page.get("#service-on").is_enabled(), page.get("#to-service").is_enabled()], ["First play the list to its end.", False, False])
        page.end()
        equal(page.text("#service-hint"), "Which display would you climb under? Guess first.")
        page.press("#to-service")
        proved, wrong = at(page, 3000)
        equal(page.text("#service-truth"), "THE TRUTH Somebody is at the other end.")
        equal([wrong["face"], wrong["screen"]], ["green", ["42.0 t/h", "Green: somebody is there."]])
        equal([proved["face"], proved["screen"], proved["end"]], ["update", ["UPDATE NOT COMPLETE", "7 of 8. Send the file again."], []])
        proved, wrong = at(page, 12000)
        equal(page.text("#service-truth"), "THE TRUTH NOBODY is at the other end, for 7.0 s now.")
        equal([wrong["face"], wrong["strip"], wrong["reads"], wrong["end"]], ["green", ["green"], NEVER.format("1,520"), [TRUSTED]])
        equal([proved["face"], proved["strip"], proved["end"]], ["update", ["update mode"], [UPDATE]])
        equal(proved["reads"], "A transfer is running: the firmware is not started before the receiver says Completed.")

    @check("lesson 1, the file sent once more: the proved one is mended, the wrong one is not")
    def _():
        switched_on(page, "lostPage")
        page.press("#service-again")
        page.until(lambda: page.text("#position") == "Arrival 16 of 16", "the file once more")
        proved, wrong = at(page, 12000)
        equal([proved["face"], proved["strip"], proved["end"], proved["reads"]], ["stale", ["green", "stale"], [STALE], GOOD.format("1,520")])
        equal(proved["screen"], ["STALE", "No word for 7.0 s. Do not trust it."])
        equal(wrong["end"], [TRUSTED])
        rows = page.log()[8:]
        equal([row[6].split(" ≠")[0] for row in rows], ["12 Finished"] * 8)
        equal([row[4] for row in rows][5], "15 Completed")

    @check("a display that does not ask its receiver is green too, and the page says what is proved")
    def _():
        switched_on(page, "lostPage")
        page.press("#service-deaf")
        proved, _ = at(page, 12000)
        equal(proved["end"], [TRUSTED])
        equal(proved["reads"], NEVER.format("1,520") + " The receiver said that the update is not complete. This display did not listen. What is proved is the receiver.")
        page.press("#service-deaf")
        equal(at(page, 12000)[0]["end"], [UPDATE])

    others = {
        "order": [("stale", [STALE], GOOD.format("1,008")), ("dark", [DARK], "The word with which it would start reads 0xFFFFFFFF, which is no address in the flash.")],
        "erase": [("stale", [STALE], GOOD.format("1,520")), ("dark", [DARK], "The word with which it would start reads 0xFFFFFFFF, which is no address in the flash.")],
        "foreign": [("stale", [STALE], GOOD.format("1,520")), ("update", [UPDATE], None)],
        "wrap": [("update", [UPDATE], None), ("green", [TRUSTED], NEVER.format("1,008"))],
        "bEntry": [
            ("stale", [STALE], GOOD.format("1,520").replace("Firmware 2", "Firmware 1")),
            ("stale", [STALE, "Its receiver said complete, and yet firmware 1 starts, and not 2."], GOOD.format("1,520").replace("Firmware 2", "Firmware 1")),
        ],
        "oneMap": [("stale", [STALE], GOOD.format("1,008")), ("update", [UPDATE], None)],
        "whole": [("stale", [STALE], GOOD.format("1,520"))],
        "oneAddress": [("green", [TRUSTED, "The proof does not speak of this list. The verdict above says why."], NEVER.format("1,520"))],
        "otherBuild": [("stale", [STALE, "Its receiver said complete, and yet firmware 1 starts, and not 2.", "The proof does not speak of this list. The verdict above says why."], None)],
    }
    for lesson, expected in others.items():

        @check(f"lesson {lesson}, switched on: faces and words")
        def _():
            found = switched_on(page, lesson)
            equal([(one["face"], one["end"]) for one in found], [(face, end) for face, end, _ in expected])
            equal([one["reads"] for one, (_, _, reads) in zip(found, expected) if reads], [reads for _, _, reads in expected if reads])

    @check("the scene plays by itself in 12 seconds; a step back takes the display out of service")
    def _():
        page.lesson("lostPage")
        page.end()
        page.press("#service-on")
        began = time.time()
        page.until(lambda: page.text("#service-clock") == "12.0 s", "the end of the scene", 20)
        assert 9 < time.time() - began < 16, time.time() - began
        equal(page.js(FACES)[1]["end"], [TRUSTED])
        page.press("#back")
        page.until(lambda: page.js("return document.getElementById('service-scene').hidden"), "out of service")
        equal(page.text("#service-hint"), "First play the list to its end.")

    @check("where motion is not wanted the scene is at its end at once")
    def _():
        page.driver.execute_cdp_cmd("Emulation.setEmulatedMedia", {"features": [{"name": "prefers-reduced-motion", "value": "reduce"}]})
        page.lesson("lostPage")
        page.end()
        page.press("#to-service")
        equal(page.text("#service-clock"), "12.0 s")
        page.driver.execute_cdp_cmd("Emulation.setEmulatedMedia", {"features": []})

    @check("a file that is no sample cannot be switched on, and the page says why")
    def _():
        page.drop("other.uf2", b"".join(block(k, 6) for k in range(6)))
        page.until(lambda: "other.uf2" in page.text("#file-note"), "the file")
        page.end()
        equal(page.text("#service-hint"), "Only for the sample of at least 4 pages: what the pages of another file do is not known here.")
        equal(page.get("#to-service").is_enabled(), False)

    @check("the pages have names on the buttons and in the grid, and none in the verdict")
    def _():
        page.lesson("lostPage")
        equal(page.js("return [...document.querySelectorAll('#blocks button')].map((n) => n.textContent)")[5], "5✕the timeout")
        equal(page.get("[data-block='5']").get_attribute("aria-label"), "Block 5, the timeout: dropped")
        page.end()
        words = "Page of block 5, for 0x10000500: there stands 0xFF, erased."
        equal([page.words("proved")[1], page.words("wrong")[1]], [words, words])
        canvas = page.get("#wrong [data-memory=flash] canvas")
        for _ in range(6):
            canvas.send_keys(Keys.ARROW_RIGHT)
        assert "Page 5, byte 1,280, sector 0: missing. It is for the timeout." in page.text("#wrong [data-memory=flash] .cell"), page.text("#wrong [data-memory=flash] .cell")

    @check("with the keyboard alone: lesson 1 to its end, switched on, and the time moved")
    def _():
        page.open()
        body = page.get("body")
        body.send_keys(Keys.END)
        page.until(page.at_end, "End")
        # Tab to the button beside End, as a person without a mouse does
        for _ in range(60):
            page.driver.switch_to.active_element.send_keys(Keys.TAB)
            if page.driver.switch_to.active_element.get_attribute("id") == "to-service":
                break
        equal(page.driver.switch_to.active_element.get_attribute("id"), "to-service")
        page.driver.switch_to.active_element.send_keys(Keys.ENTER)
        page.until(lambda: not page.js("return document.getElementById('service-scene').hidden"), "the scene")
        for _ in range(60):
            page.driver.switch_to.active_element.send_keys(Keys.TAB)
            if page.driver.switch_to.active_element.get_attribute("id") == "service-time":
                break
        page.driver.switch_to.active_element.send_keys(Keys.END)
        equal([page.text("#service-clock"), page.js(FACES)[1]["end"]], ["12.0 s", [TRUSTED]])
        equal(page.text("#position"), "Arrival 8 of 8")


def shots(driver, page):
    SHOTS.mkdir(parents=True, exist_ok=True)
    for width, height, name in ((390, 844, "phone"), (1024, 768, "projector"), (1920, 1080, "large")):

        @check(f"switched on, at {width} by {height}: truth, faces and verdicts in one view, and nothing is cut off")
        def _():
            driver.execute_cdp_cmd("Emulation.setDeviceMetricsOverride", {"width": width, "height": height, "deviceScaleFactor": 1, "mobile": False})
            page.open()
            page.lesson("lostPage")
            page.end()
            page.js("window.scrollTo(0, 0)")
            page.get("#to-service").send_keys(Keys.ENTER)
            at(page, 12000)
            time.sleep(0.2)
            driver.save_screenshot(str(SHOTS / f"service_{name}.png"))
            if width >= 1024:
                equal(in_view(page, "#service-truth, #service .screen, #service .strip, #service .verdict"), [], "not in view")
            else:
                equal(in_view(page, "#service-truth, #service-proved .screen"), [], "not in view")
            wide = page.js("return [document.documentElement.scrollWidth, window.innerWidth]")
            assert wide[0] <= wide[1], wide


def tests(driver, page):
    scenes(page)
    shots(driver, page)


run(tests)
