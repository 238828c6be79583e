"""The training page in a real browser, opened from disk: each lesson played to its end, its words and its grid read back; the answers beside the command
line tool's; files that are none; a large file; keys; print; and screenshots.

    browser.py FOLDER [--picture]       screenshots go to FOLDER; with --picture docs/page.png is written anew
"""
import base64
import hashlib
import json
import os
import pathlib
import re
import struct
import subprocess
import sys
import tempfile
import time
import zlib

from selenium.webdriver.common.keys import Keys

from common import ROOT, SHOTS, block, check, equal, run

# VANTOREL names the tool where it stands elsewhere
TOOL = pathlib.Path(os.environ.get("VANTOREL", ROOT / "rust" / "target" / "release" / "vantorel"))
STORED, MISSING, LENT = [0, 0x72, 0xB2], [0xB2, 0x3C, 0], [0xD4, 0xD4, 0xD4]


def lessons(page):
    @check("it opens from disk and asks for nothing else")
    def _():
        equal(page.js("return location.protocol"), "file:")
        equal(page.js("return performance.getEntriesByType('resource').filter((r) => !r.name.startsWith('data:') && !r.name.startsWith('blob:')).length"), 0)
        equal(page.js("return document.querySelectorAll('[src^=http], link[href^=http]').length"), 0)
        equal([n for n in page.js("return [...document.querySelectorAll('[data-text]')].filter((n) => n.textContent === '' && n.id !== 'notice-words').map((n) => n.dataset.text)")], [])

    @check("lesson 1, a lost page: the wrong display turns green, the proved one does not")
    def _():
        page.lesson("lostPage")
        page.end()
        equal(page.lamp("proved"), ["running", "false"])
        equal(page.lamp("wrong"), ["done", "true"])
        equal(page.verdict("proved"), "missing")
        equal(page.verdict("wrong"), "falselyDone")
        words = page.text("#proved .verdict")
        for part in ["1 of 8 pages is missing", "block 5", "0x10000500", "there stands 0xFF, erased"]:
            assert part in words, words
        assert "GREEN, AND A PAGE IS MISSING" in page.text("#wrong .verdict")
        equal(page.grid("proved"), {"lent": 112, "erased": 8, "stored": 7, "missing": 1})
        equal([page.colour("proved", k) for k in (0, 4, 5, 7, 40)], [STORED, STORED, MISSING, STORED, LENT], "colours of the grid")
        equal([page.text(f"#proved [data-stat={name}] .stat-number") for name in ("counted", "arrived")], ["7 of 8", "8"])
        equal(page.text("#proved .seen-words"), "Seen map: 7 marked of 8")
        equal(page.text("#wrong-edit"), "transfer/counts_arrivals")
        rows = page.log()
        equal([row[4] for row in rows], ["14 Written"] * 3 + ["13 Again"] + ["14 Written"] * 4)
        equal(rows[3][6], "14 Written ≠")
        equal(rows[7][6], "15 Completed ≠")

    @check("lesson 2, the host shuffles")
    def _():
        page.lesson("order")
        page.end()
        equal([page.verdict("proved"), page.verdict("wrong")], ["completed", "falselyDone"])
        assert "block 0" in page.text("#wrong .verdict")
        equal(page.grid("proved"), {"lent": 112, "erased": 12, "stored": 4})

    @check("lesson 3, pages of one sector")
    def _():
        page.lesson("erase")
        page.end()
        equal([page.verdict("proved"), page.verdict("wrong")], ["completed", "falselyDone"])
        assert "7 PAGES ARE MISSING" in page.text("#wrong .verdict")
        equal(page.grid("wrong"), {"lent": 112, "erased": 8, "stored": 1, "missing": 7})

    @check("lesson 4, another board's blocks")
    def _():
        page.lesson("foreign")
        page.end()
        equal([page.lamp("proved")[0], page.lamp("wrong")[0]], ["done", "running"])
        equal([row[4] for row in page.log()][3], "8 NoPlace")

    @check("lesson 5, an address near 4 GiB")
    def _():
        page.lesson("wrap")
        page.end()
        equal([page.verdict("proved"), page.verdict("wrong")], ["missing", "falselyDone"])
        equal(page.log()[-1][3:5], ["0xFFFFFF00", "11 BadAddress"])
        equal(page.colour("wrong", 127), STORED)

    @check("lesson 6, the spare partition")
    def _():
        page.lesson("bEntry")
        page.end()
        equal([page.lamp("proved")[0], page.lamp("wrong")], ["idle", ["done", "true"]])
        assert "no place for the family arm-s" in page.text("#proved .verdict")

    @check("lesson 7, a stopped update, then a good one")
    def _():
        page.lesson("oneMap")
        page.end()
        equal([page.lamp("proved")[0], page.lamp("wrong")[0]], ["done", "running"])
        assert "discarded" in page.log()[3][4]

    @check("lesson 8, shuffled, repeated and whole")
    def _():
        page.lesson("whole")
        page.end()
        equal(page.verdict("proved"), "completed")
        equal(page.js("return document.getElementById('wrong').hidden"), True)
        assert "every page of the file stands at its address" in page.text("#proved .verdict")
        equal(page.fault(), "")

    @check("lesson 9, two blocks with one address: the file is told to be at fault before it is sent, and a green display is not called right")
    def _():
        page.lesson("oneAddress")
        fault = "This file is not valid for this board: the proof does not speak of it. Piece 5 and piece 2 hold the same address."
        equal(page.fault(), fault, "before the first arrival")
        page.end()
        equal(page.fault(), fault)
        equal(page.log()[-1][4], "15 Completed")
        equal([page.verdict("proved"), page.lamp("proved")], ["unspoken", ["done", "true"]])
        words = page.words("proved")
        equal(words[0], "GREEN, AND A PAGE IS MISSING")
        assert "The file is at fault" in words[1] and "vantorel check" in words[1], words
        assert words[2].endswith("block 2 differs."), words
        equal(words[3:], ["Page of block 2, for 0x10000200: there stands the page of block 5."])
        equal([page.colour("proved", k) for k in (1, 2, 3)], [STORED, MISSING, STORED], "colours of the grid")
        page.lesson("lostPage")
        equal(page.fault(), "", "gone with the next lesson")

    @check("lesson 10, another build of the same size: Completed over a mixture, and which blocks differ")
    def _():
        page.lesson("otherBuild")
        equal(page.fault(), "")
        page.end()
        equal([row[4] for row in page.log()], ["14 Written"] * 3 + ["13 Again"] * 3 + ["14 Written"] * 2 + ["15 Completed"])
        equal([page.verdict("proved"), page.lamp("proved")], ["unspoken", ["done", "true"]])
        words = page.words("proved")
        equal(words[0], "GREEN, AND 3 PAGES ARE MISSING")
        assert "uf2_stands" in words[2] and words[2].endswith("blocks 0, 1, 2 differ."), words
        equal(words[3], "Page of block 0, for 0x10000000: there stands the page of another block 0.")
        equal([page.colour("proved", k) for k in (0, 2, 3, 5)], [MISSING, MISSING, STORED, STORED], "colours of the grid")
        # as a person would: the list saved and opened as a file ends no better
        saved = page.saved()
        page.drop("mixed.uf2", saved)
        page.until(lambda: "mixed.uf2" in page.text("#file-note"), "the file")
        equal(page.fault(), "This file is not valid for this board: the proof does not speak of it. Piece 3 and piece 0 have the same number.")
        page.end()
        equal([page.verdict("proved"), page.lamp("proved"), page.words("proved")[0]], ["unspoken", ["done", "true"], "GREEN, AND 3 PAGES ARE MISSING"])


def playing(page):
    @check("step, back, and each position as it was before")
    def _():
        page.lesson("lostPage")
        states = []
        for k in range(1, 9):
            page.press("#step")
            page.until(lambda: page.text("#position") == f"Arrival {k} of 8", f"arrival {k}")
            states.append((page.grid("proved"), page.grid("wrong"), page.text("#proved .answer"), page.text("#wrong .answer")))
        for k in range(7, 0, -1):
            page.press("#back")
            page.until(lambda: page.text("#position") == f"Arrival {k} of 8", f"back to {k}")
            equal((page.grid("proved"), page.grid("wrong"), page.text("#proved .answer"), page.text("#wrong .answer")), states[k - 1], f"arrival {k}")

    @check("play and pause, and the keys")
    def _():
        page.lesson("lostPage")
        page.js("const speed = document.getElementById('speed'); speed.value = 10")
        page.js("document.activeElement.blur()")
        body = page.get("body")
        body.send_keys(Keys.ARROW_RIGHT)
        page.until(lambda: page.text("#position") == "Arrival 1 of 8", "the right arrow")
        body.send_keys(Keys.ARROW_LEFT)
        page.until(lambda: page.text("#position") == "Arrival 0 of 8", "the left arrow")
        body.send_keys(Keys.SPACE)
        page.until(page.at_end, "played to the end")
        page.until(lambda: page.text("#play") == "Play", "the button says play")
        body.send_keys(Keys.HOME)
        page.until(lambda: page.text("#position") == "Arrival 0 of 8", "Home")
        body.send_keys(Keys.END)
        page.until(page.at_end, "End")
        canvas = page.get("#proved [data-memory=flash] canvas")
        for _ in range(6):
            canvas.send_keys(Keys.ARROW_RIGHT)
        words = page.text("#proved [data-memory=flash] .cell")
        assert "Page 5" in words and "missing" in words, words

    @check("everything can be reached with the Tab key, and has a name")
    def _():
        unnamed = page.js(
            """return [...document.querySelectorAll('#view-transfer button, #view-transfer select, #view-transfer input, #view-transfer canvas')]
                .filter((n) => n.offsetParent !== null && n.tabIndex < 0 && !n.disabled).map((n) => n.id || n.className)"""
        )
        equal([name for name in unnamed if name != "seen"], [], "not reached")
        equal(
            page.js(
                """return [...document.querySelectorAll('button, select, input, canvas')].filter((n) => !(n.textContent.trim() || n.getAttribute('aria-label') || n.labels?.length))
                    .map((n) => n.outerHTML.slice(0, 80))"""
            ),
            [],
            "without a name",
        )

    @check("blocks dropped and repeated by pressing them, and an own board")
    def _():
        page.lesson("whole")
        page.press("#blocks-once")
        page.until(lambda: page.text("#position") == "Arrival 0 of 8", "every block once")
        page.press("[data-block='6']")
        page.until(lambda: page.text("#position") == "Arrival 0 of 9", "block 6 twice")
        page.press("[data-block='6']")
        page.until(lambda: page.text("#position") == "Arrival 0 of 7", "block 6 dropped")
        page.end()
        assert "Page of block 6" in page.text("#proved .verdict"), page.text("#proved .verdict")
        page.press("#setup summary")
        page.press("#add-entry")
        page.press("#entries input[type=checkbox]")
        page.press("#apply")
        page.until(lambda: page.text("#position") == "Arrival 0 of 7", "the board is used")
        page.end()
        assert "no place for the family arm-s" in page.text("#proved .verdict"), page.text("#proved .verdict")
        page.js("document.getElementById('flash').value = 5000; document.getElementById('apply').click()")
        assert "whole sectors" in page.text("#board-note")
        page.js("document.getElementById('setup').open = false")

    @check("a board from a packed store, or a sentence where the library reads none")
    def _():
        page.lesson("lostPage")
        page.js("document.getElementById('setup').open = true")
        reads = b"uf2_store_read" in (ROOT / "target" / "wasm" / "receiver.wasm").read_bytes()
        with tempfile.NamedTemporaryFile(suffix=".store") as file:
            # version 1, no entries, absolute allowed, Arm enabled and current
            file.write(bytes([0x10, 0x30]))
            file.flush()
            page.get("#store").send_keys(file.name)
            told = "The store was read: 0 partitions." if reads else "This build of the library does not read packed stores."
            page.until(lambda: page.text("#board-note") == told, f"{told}: {page.text('#board-note')}")
        if reads:
            with tempfile.NamedTemporaryFile(suffix=".store") as file:
                file.write(bytes([0x30, 0x30]))
                file.flush()
                page.get("#store").send_keys(file.name)
                page.until(lambda: page.text("#board-note") == "The store was not read: The store's version is neither 1 nor 2.", "a refusal")
        page.js("document.getElementById('setup').open = false")

    @check("the shortest list in which they differ is found and shown")
    def _():
        page.lesson("lostPage")
        for goal, length in (("differ", 2), ("falselyDone", 8)):
            page.choose("#goal", goal)
            page.press("#find")
            page.until(lambda: page.text("#find-result").startswith(f"Found: a list of {length} "), f"a list for {goal}: {page.text('#find-result')}")
        equal(page.lamp("wrong"), ["done", "true"])
        equal(page.lamp("proved")[0], "running")


    @check("pages that stand in the flash already are kept")
    def _():
        page.drop("kept.uf2", (ROOT / "tests" / "receive" / "kept.uf2").read_bytes())
        page.until(lambda: "kept.uf2" in page.text("#file-note"), "the file")
        page.press("#step")
        page.until(lambda: page.text("#position").startswith("Arrival 1 "), "one arrival")
        equal([page.text("#proved .number"), page.text("#proved .answer-name")], ["17", "Kept"])
        equal(page.grid("proved").get("kept"), 1)
        page.end()
        expected = (ROOT / "tests" / "receive" / "kept.out").read_text().split("\n")[1:-2]
        equal([f"{k} {row[4].split()[0]} {int('discarded' in row[4])}" for k, row in enumerate(page.log())], expected)


def never_came(page):
    expected = json.loads((ROOT / "tests" / "page" / "verdicts.json").read_text())

    # The verdict of every receiver at the end of the list that is open, word for word.
    def every_receiver(way):
        for wrong in [name for name in expected[way] if name != "proved"]:
            before = page.text("#position")
            page.js("const choice = document.getElementById('wrong-choice'); choice.value = arguments[0]; choice.dispatchEvent(new Event('change'))", wrong)
            page.until(lambda: page.text("#position").startswith("Arrival 0 ") and page.text("#wrong-edit") != "", f"{wrong} after {before}")
            time.sleep(0.1)
            page.end()
            equal(page.words("proved"), expected[way]["proved"], f"proved beside {wrong}")
            equal(page.words("wrong"), expected[way][wrong], wrong)
            if wrong == "countsArrivals":
                equal([page.lamp("proved"), page.lamp("wrong")], [["running", "false"], ["done", "true"]], "lamps")

    def arrivals_of(lesson):
        page.lesson(lesson)
        content = page.saved()
        return [content[at : at + 512] for at in range(0, len(content), 512)]

    @check("the sample of a site's trace, shown as a transfer: no falsely green display is called right")
    def _():
        page.lesson("lostPage")
        page.press("#tab-trace")
        page.press("#trace-sample")
        page.until(lambda: "At record 3 the answers differ" in page.text("#trace-stop"), "the replay")
        page.press("#trace-show")
        page.until(lambda: page.text("#position") == "Arrival 0 of 8" and page.js("return document.getElementById('lesson').value") == "own", "its arrivals")
        # a trace is a list of arrivals and no file
        equal(page.fault(), "")
        every_receiver("lesson1")
        # the page that never came is crossed out
        equal([page.colour("wrong", k) for k in (4, 5, 6)], [STORED, MISSING, STORED], "colours of the grid")

    @check("lesson 1 saved and opened as a file: no falsely green display is called right")
    def _():
        saved = b"".join(arrivals_of("lostPage"))
        page.pick("#file", "arrivals.uf2", saved)
        page.until(lambda: "arrivals.uf2" in page.text("#file-note"), "the file")
        every_receiver("lesson1")

    @check("a recorded trace that lost a block: no falsely green display is called right")
    def _():
        pieces = arrivals_of("erase")
        sent = [0, 1, 2, 3, 4, 6, 7, 7]
        page.drop("lost.trace", b"".join(bytes([(13 if n == 7 else 14) << 3]) + pieces[k] for n, k in enumerate(sent)))
        page.until(lambda: "lost.trace" in page.text("#trace-note"), "the replay")
        told = page.js("const stop = document.getElementById('trace-stop'); return [stop.textContent, stop.dataset.kind]")
        equal(told, ["The replay stops nowhere: every recorded answer is ours. The update was never complete: 1 of 8 blocks is missing (5).", "missing"])
        page.press("#trace-show")
        page.until(lambda: page.text("#position") == "Arrival 0 of 8" and page.js("return document.getElementById('lesson').value") == "own", "its arrivals")
        every_receiver("trace")

    @check("a UF2 without block 17 and with block 3 twice: no falsely green display is called right")
    def _():
        page.lesson("lostPage")
        page.drop("lost.uf2", b"".join(block(k, 24) for k in [*range(4), *range(3, 17), *range(18, 24)]))
        page.until(lambda: "lost.uf2" in page.text("#file-note"), "the file")
        every_receiver("uf2")


def not_of_the_proof(page):
    @check("a list that the proof does not speak of, from the page's own menu: the proved column says why")
    def _():
        page.lesson("erase")
        page.js("document.getElementById('setup').open = true")
        page.choose("#mix-kind", "comment")
        page.press("#mix-add")
        page.until(lambda: page.text("#position") == "Arrival 0 of 9", "the comment")
        page.js("document.getElementById('setup').open = false")
        page.end()
        why = "A comment and a data block both have the number 7, so the proof does not speak of this list."
        words = page.words("proved")
        equal([*words[:2], words[3]], ["GREEN, AND A PAGE IS MISSING", why, "Page of block 7, for 0x10000700: there stands 0xFF, erased."])
        equal(page.lamp("proved"), ["done", "true"])
        # the file itself is valid
        equal(page.fault(), "")

    @check("two blocks with one address, and a file of two families: the page says why the proof does not speak of them, and says it once")
    def _():
        page.lesson("whole")
        page.drop("address.uf2", b"".join(block(k, 41, 0x10000300 if k == 40 else None) for k in range(41)))
        page.until(lambda: "address.uf2" in page.text("#file-note"), "the file")
        page.end()
        equal(page.fault(), "This file is not valid for this board: the proof does not speak of it. Piece 40 and piece 3 hold the same address.")
        equal(page.words("proved")[0], "GREEN, AND A PAGE IS MISSING")
        assert "does not speak" not in page.text("#proved .verdict"), page.text("#proved .verdict")
        # the sentence is above both receivers, and in sight before the first arrival
        page.press("#to-start")
        page.js("window.scrollTo(0, 0)")
        above = page.js("const box = (id) => document.getElementById(id).getBoundingClientRect(); return [box('file-fault').bottom <= box('proved').top, box('file-fault').bottom <= innerHeight]")
        equal(above, [True, True])
        page.drop("families.uf2", b"".join([*(block(k, 6, 0x10004000 + 256 * k, 0xE48BFF58) for k in range(2)), *(block(k, 8) for k in range(8))]))
        page.until(lambda: "families.uf2" in page.text("#file-note"), "the file")
        page.end()
        why = "Arrival 1 is of another file, data and 6 blocks, and what that file stored stays, so the proof does not speak of this list."
        equal(page.words("proved"), ["GREEN, AND BYTES OUTSIDE OF THE FILE HAVE CHANGED", why])
        equal(page.fault(), "This file is not valid for this board. Piece 2's family is not the first piece's.")

    @check("a file for RAM on a board without it, and one without families: the verdict has the library's reason")
    def _():
        page.lesson("whole")
        for name, blocks, answer in (
            ("ram.uf2", [block(k, 4, 0x20000000 + 256 * k) for k in range(4)], "11 BadAddress"),
            ("nameless.uf2", [block(k, 4)[:8] + bytes(4) + block(k, 4)[12:28] + bytes(4) + block(k, 4)[32:] for k in range(4)], "7 NoFamily"),
        ):
            page.drop(name, b"".join(blocks))
            page.until(lambda: name in page.text("#file-note"), "the file")
            page.end()
            reason = page.text("#proved .reason")
            equal(page.words("proved")[0], "Not completed: no block of the file was accepted.", name)
            assert page.words("proved")[1].startswith(f"Arrival 1: {answer}. "), page.words("proved")
            assert "no place for the family" not in page.text("#proved .verdict") and reason != "", name
            assert page.fault().startswith(f"This file is not valid for this board. The board refuses piece 0: {answer}. "), page.fault()


def beside_the_tool(page):
    if not TOOL.exists():
        print("no rust/target/release/vantorel here: the page's answers were not held to the command line tool's")
        return

    @check("shuffled by a seed, the order and the answers are those of vantorel load -v --shuffle")
    def _():
        page.lesson("whole")
        page.press("#blocks-once")
        page.until(lambda: page.text("#position") == "Arrival 0 of 8", "every block once")
        page.js("const order = document.getElementById('order'); order.value = 'file'; order.dispatchEvent(new Event('change'))")
        page.until(lambda: [row[1] for row in page.log()] == [f"{k} of 8" for k in range(8)], "as in the file")
        with tempfile.NamedTemporaryFile(suffix=".uf2") as file:
            file.write(page.saved())
            file.flush()
            for seed in (1, 7):
                page.js("const order = document.getElementById('order'); order.value = 'shuffled'; order.dispatchEvent(new Event('change'))")
                page.until(lambda: page.js("return !document.getElementById('seed').disabled"), "shuffled")
                page.js("const seed = document.getElementById('seed'); seed.value = arguments[0]; seed.dispatchEvent(new Event('change'))", seed)
                time.sleep(0.2)
                page.end()
                told = subprocess.run([TOOL, "load", file.name, "-v", "--flash", "32768", "--shuffle", str(seed)], capture_output=True, text=True).stdout
                rows = [row[1].split()[0] + ": " + row[4] for row in page.log()]
                equal(rows, re.findall(r"^arrival \d+, block (.*)$", told, re.M), f"seed {seed}")

    for name in ("lostPage", "order", "foreign", "wrap", "oneMap", "whole", "oneAddress", "otherBuild"):

        @check(f"the answers of lesson {name} are those of vantorel load -v")
        def _():
            page.lesson(name)
            page.end()
            rows = [(re.match(r"[\d,]+", row[1]) or ["-"])[0] + ": " + row[4] for row in page.log()]
            with tempfile.NamedTemporaryFile(suffix=".uf2") as file:
                file.write(page.saved())
                file.flush()
                words = page.text("#save-hint").split("vantorel ")[1].replace("arrivals.uf2", file.name).split()
                told = subprocess.run([TOOL, *words], capture_output=True, text=True).stdout
            lines = [re.sub(r", [a-z ]*discarded$", ", discarded", m[1]) for m in re.finditer(r"^arrival \d+, block (.*)$", told, re.M)]
            equal(rows, lines)


def hex_and_trace(page):
    @check("Universal Hex: both boards line by line, and the reader of the wrong section")
    def _():
        page.press("#tab-hex")
        page.until(lambda: page.text("#hex-position").startswith("Line 0 of "), "the sample")
        page.press("#hex-end")
        equal(page.text("#hex-v1 .answer-name"), "Ended")
        for side, words in (("hex-v1", "Firmware for board V1."), ("hex-v2", "Firmware for board V2."), ("hex-wrong", "Firmware for board V2.")):
            assert words in page.text(f"#{side} .image-words"), side
        assert "The wrong panel of V1 now holds the data of V2" in page.text("#hex-wrong .verdict")
        page.choose("#hex-own", "v2")
        page.until(lambda: page.text("#hex-position").startswith("Line 0 of "), "read again")
        page.press("#hex-end")
        assert "Firmware for board V1." in page.text("#hex-wrong .image-words")
        rows = page.js("return [...document.querySelectorAll('#hex-lines tbody tr')].map((row) => [...row.cells].map((cell) => cell.textContent))")
        equal({row[2] for row in rows}, {"a section opens", "V1", "V2", "after the end"})
        assert any(row[3] == "0x00000000 (16)" for row in rows)

    @check("a hex file with a bad digit: which character")
    def _():
        page.drop("bad.hex", (ROOT / "tests" / "hexlines" / "refused_22_digit.hex").read_bytes())
        page.until(lambda: page.text("#hex-note") == "bad.hex", "the file")
        page.press("#hex-end")
        rows = page.js("return [...document.querySelectorAll('#hex-lines tbody tr')].map((row) => row.cells[4].textContent)")
        assert "22 BadDigit, character 9" in rows, rows

    @check("a site's trace: where it stops, what was recorded and what we answer")
    def _():
        page.press("#tab-trace")
        page.js("window.workers = []; const made = Worker; Worker = function (...words) { const one = new made(...words); window.workers.push(one); one.addEventListener('error', () => (window.workerFailed = true)); return one; }")
        page.press("#trace-sample")
        page.until(lambda: "At record 3 the answers differ" in page.text("#trace-stop"), f"the replay: {page.text('#trace-stop')}")
        equal(page.js("return [window.workers.length, window.workerFailed ?? false]"), [1, False], "a worker")
        assert "14 Written" in page.text("#trace-recorded") and "13 Again" in page.text("#trace-ours")
        page.press("#tab-transfer")
        page.lesson("whole")
        page.end()
        answers = [int(row[4].split()[0]) for row in page.log()]
        arrivals = page.saved()
        trace = b"".join(bytes([answer << 3]) + arrivals[512 * k : 512 * k + 512] for k, answer in enumerate(answers))
        page.drop("site.trace", trace)
        page.until(lambda: "site.trace" in page.text("#trace-note"), "the replay of a trace that was dropped")
        told = page.js("const stop = document.getElementById('trace-stop'); return [stop.textContent, stop.dataset.kind]")
        equal(told, ["The replay stops nowhere: every recorded answer is ours.", "completed"])
        page.press("#trace-show")
        page.until(lambda: page.text("#position") == "Arrival 0 of 9", "its arrivals shown")

    @check("a file that is none gets a sentence")
    def _():
        for tab, word in (("transfer", "is no UF2 file"), ("hex", "is no UF2 file"), ("trace", "is no")):
            page.press(f"#tab-{tab}")
            page.drop("holiday.jpg", bytes(range(1, 200)) * 20)
            page.until(lambda: "holiday.jpg is no" in page.text("#notice"), f"a sentence under {tab}")
        page.press("#tab-transfer")
        page.drop("nothing.uf2", b"")
        page.until(lambda: "nothing.uf2 is empty" in page.text("#notice"), "an empty file")


def files(page):
    # Whether a part lies in the window and nothing covers it.
    def in_sight(selector):
        return page.js(
            """const part = document.querySelector(arguments[0]);
            const { left, top, right, bottom } = part.getBoundingClientRect();
            const seen = document.elementFromPoint((left + right) / 2, (top + bottom) / 2);
            return top >= 0 && bottom <= innerHeight && part.contains(seen);""",
            selector,
        )

    @check("a file that is refused says so in the window, and beside the field where it was chosen")
    def _():
        for tab, field, note in (("transfer", "#file", "#file-note"), ("hex", "#hex-file", "#hex-note"), ("trace", "#trace-file", "#trace-note")):
            page.press(f"#tab-{tab}")
            page.js("document.getElementById('setup').open = true; document.querySelector(arguments[0]).scrollIntoView({ block: 'center' })", field)
            page.pick(field, "holiday.jpg", bytes(range(1, 200)) * 20)
            for part in ("#notice", note):
                page.until(lambda: "holiday.jpg is no" in page.text(part), f"{part}: {page.text(part)}")
                assert in_sight(part), f"{part} is not seen"
            page.press("#notice-close")
            equal(page.js("return document.getElementById('notice').hidden"), True, "closed")
        page.press("#tab-transfer")
        page.js("window.scrollTo(0, document.body.scrollHeight)")
        page.drop("nothing.uf2", b"")
        page.until(lambda: "nothing.uf2 is empty" in page.text("#notice") and in_sight("#notice"), "a sentence in the window")
        page.lesson("lostPage")
        equal([page.js("return document.getElementById('notice').hidden"), page.text("#file-note")], [True, ""], "gone with the next lesson")

    @check("the same file chosen again is read again")
    def _():
        with tempfile.TemporaryDirectory() as folder:
            path = pathlib.Path(folder, "again.uf2")
            page.js("document.getElementById('setup').open = true")
            for total in (3, 5):
                path.write_bytes(b"".join(block(k, total) for k in range(total)))
                page.get("#file").send_keys(str(path))
                page.until(lambda: page.text("#position") == f"Arrival 0 of {total}", f"a file of {total} blocks")
                # a browser tells of a choice only where the field changes
                equal(page.js("return document.getElementById('file').files.length"), 0, "the field is empty again")

    @check("after a large file the flash is as small again as it was set")
    def _():
        def flash_after(name, total, address=None):
            page.drop(name, b"".join(block(k, total, address) for k in range(total)))
            page.until(lambda: name in page.text("#file-note"), name)
            return int(page.js("return document.getElementById('flash').value"))

        page.lesson("lostPage")
        equal([flash_after("far.uf2", 1, 0x10100000), flash_after("near.uf2", 2)], [1052672, 32768])
        # a board that is set while a large file is open does not set the flash
        flash_after("far.uf2", 1, 0x10100000)
        page.press("#xip")
        page.press("#apply")
        page.until(lambda: page.js("return !document.querySelector('#proved [data-memory=xip]').hidden"), "the board")
        equal(flash_after("near.uf2", 2), 32768)
        page.js("document.getElementById('flash').value = 65536; document.getElementById('apply').click()")
        page.until(lambda: "in 16 sectors" in page.text("#proved [data-memory=flash]"), "a flash of 65,536")
        equal([flash_after("far.uf2", 1, 0x10100000), flash_after("near.uf2", 2)], [1052672, 65536])
        page.lesson("lostPage")
        for pages, flash in ((1000, 258048), (8, 32768)):
            page.js("const pages = document.getElementById('pages'); pages.value = arguments[0]; pages.dispatchEvent(new Event('change'))", pages)
            page.until(lambda: page.text("#position") == f"Arrival 0 of {pages:,}", "the sample")
            equal(int(page.js("return document.getElementById('flash').value")), flash)
        page.js("document.getElementById('setup').open = false")


def printing(driver, page):
    # The sheets of what is shown, on paper of A4 and of Letter.
    def sheets(name):
        found = []
        for paper, width, height in (("a4", 8.27, 11.69), ("letter", 8.5, 11)):
            told = driver.execute_cdp_cmd("Page.printToPDF", {"printBackground": True, "paperWidth": width, "paperHeight": height})
            content = base64.b64decode(told["data"])
            (SHOTS / f"print_{name}_{paper}.pdf").write_bytes(content)
            found.append(len(re.findall(rb"/Type\s*/Page\b(?!s)", content)))
        return found

    @check("each lesson, the hex sample and the trace sample are printed on one sheet")
    def _():
        SHOTS.mkdir(parents=True, exist_ok=True)
        counts = {}
        page.press("#tab-transfer")
        for lesson in page.js("return [...document.getElementById('lesson').options].map((option) => option.value).filter((value) => value !== 'own')"):
            page.lesson(lesson)
            page.end()
            counts[lesson] = sheets(lesson)
        page.press("#tab-hex")
        page.press("#hex-sample")
        page.until(lambda: page.text("#hex-position").startswith("Line 0 of "), "the sample")
        page.press("#hex-end")
        counts["hex"] = sheets("hex")
        page.press("#tab-trace")
        page.press("#trace-sample")
        page.until(lambda: "At record 3 the answers differ" in page.text("#trace-stop"), "the replay")
        counts["trace"] = sheets("trace")
        equal({name: count for name, count in counts.items() if count != [1, 1]}, {}, "more than one sheet")
        page.press("#tab-transfer")


def large(page):
    @check("a file of 32 MiB, 65,536 blocks, does not freeze the page")
    def _():
        page.press("#tab-transfer")
        page.lesson("lostPage")
        page.js(
            """window.longest = 0;
            let last = performance.now();
            const tick = () => { const now = performance.now(); window.longest = Math.max(window.longest, now - last); last = now; window.ticking = setTimeout(tick, 5); };
            tick();
            document.getElementById('setup').open = true;"""
        )
        total = 65536
        with tempfile.NamedTemporaryFile(suffix=".uf2") as file:
            file.write(b"".join(block(k, total) for k in range(total)))
            file.flush()
            page.get("#file").send_keys(file.name)
            page.until(lambda: page.text("#position") == "Arrival 0 of 65,536", "the file is open", 60)
        page.js("document.getElementById('setup').open = false")
        page.press("[data-block='7']")
        page.until(lambda: page.text("#position") == "Arrival 0 of 65,537", "block 7 twice", 60)
        page.press("[data-block='7']")
        page.until(lambda: page.text("#position") == "Arrival 0 of 65,535", "block 7 dropped", 60)
        opening = page.js("return window.longest")
        page.js(
            """window.longest = 0;
            window.told = new Set();
            const position = document.getElementById('position');
            new MutationObserver(() => window.told.add(position.textContent)).observe(position, { childList: true });
            document.getElementById('to-end').click();"""
        )
        page.until(lambda: page.at_end(), "the end", 120)
        playing = page.js("clearTimeout(window.ticking); return window.longest")
        equal([page.verdict("proved"), page.verdict("wrong")], ["missing", "missing"])
        assert "Page of block 7" in page.text("#proved .verdict")
        equal(page.grid("proved"), {"stored": total - 1, "missing": 1})
        print(f"longest pause: {opening:.0f} ms while it is opened, {playing:.0f} ms while it is played")
        # the pauses depend on the machine; that it works in slices, and tells how far it is, does not
        assert page.js("return [...window.told].filter((words) => words.startsWith('Working: ')).length") >= 3
        page.press("#back")
        page.until(lambda: page.text("#position") == "Arrival 65,534 of 65,535", "one back", 60)


def shots(driver, page):
    SHOTS.mkdir(parents=True, exist_ok=True)
    for width, height, name in ((390, 844, "small"), (1366, 768, "middling"), (1920, 1080, "large")):

        @check(f"nothing is cut off on a {name} screen")
        def _():
            driver.execute_cdp_cmd("Emulation.setDeviceMetricsOverride", {"width": width, "height": height, "deviceScaleFactor": 1, "mobile": False})
            page.open()
            page.lesson("lostPage")
            page.end()
            page.js("window.scrollTo(0, 0)")
            if width > 1000:
                # lamp, answer, seen map and grid of both receivers are seen at once
                below = page.js(
                    """return [...document.querySelectorAll('.receiver .lamp, .receiver .answer, .receiver .verdict, .receiver canvas')]
                        .filter((n) => n.offsetParent !== null && n.closest('#view-transfer') && n.getBoundingClientRect().bottom > innerHeight).map((n) => n.className)"""
                )
                equal(below, [], "not seen without scrolling")
            wide = page.js("return [document.documentElement.scrollWidth, window.innerWidth]")
            assert wide[0] <= wide[1], (wide, page.js("return [...document.querySelectorAll('*')].filter((n) => n.getBoundingClientRect().right > innerWidth + 1 && !n.closest('.scroll')).map((n) => n.tagName + '.' + n.className + '#' + n.id)"))
            driver.save_screenshot(str(SHOTS / f"{name}.png"))
            for tab in ("hex", "trace"):
                page.press(f"#tab-{tab}")
                page.press("#hex-end" if tab == "hex" else "#trace-sample")
                time.sleep(0.5)
                driver.save_screenshot(str(SHOTS / f"{name}_{tab}.png"))
                wide = page.js("return [document.documentElement.scrollWidth, window.innerWidth]")
                assert wide[0] <= wide[1], (tab, wide)


# A picture with some words in it, which a reader of PNG files passes over.
def labelled(png, words):
    content = b"tEXt" + b"Shows\0" + words.encode()
    chunk = struct.pack(">I", len(content) - 4) + content + struct.pack(">I", zlib.crc32(content))
    return png[:33] + chunk + png[33:]


def picture(driver, page):
    @check("docs/page.png is a picture of this page")
    def _():
        driver.execute_cdp_cmd("Emulation.setDeviceMetricsOverride", {"width": 1600, "height": 857, "deviceScaleFactor": 1, "mobile": False})
        page.open()
        page.lesson("lostPage")
        page.end()
        page.js("document.activeElement.blur(); window.scrollTo(0, 0)")
        shown = "".join(page.text(part) for part in (".top", "#lesson-text", "#position", "#proved", "#wrong"))
        sources = "".join((ROOT / "web" / name).read_text() for name in ("style.css", "index.html"))
        label = hashlib.sha256((shown + sources).encode()).hexdigest()
        made = labelled(driver.get_screenshot_as_png(), label)
        (SHOTS / "page.png").write_bytes(made)
        stored = ROOT / "docs" / "page.png"
        if "--picture" in sys.argv[2:]:
            stored.write_bytes(made)
        assert label.encode() in stored.read_bytes(), "it shows an older page: tests/page/run --picture writes it anew"


def tests(driver, page):
    lessons(page)
    playing(page)
    never_came(page)
    not_of_the_proof(page)
    beside_the_tool(page)
    hex_and_trace(page)
    files(page)
    printing(driver, page)
    large(page)
    shots(driver, page)
    picture(driver, page)


run(tests)
