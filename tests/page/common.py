"""What the tests in a browser share: the browser, the page and what a person does with it, and a count of what failed."""
import base64
import os
import pathlib
import re
import struct
import sys
import tempfile
import time

from selenium import webdriver
from selenium.webdriver.chrome.service import Service
from selenium.webdriver.common.action_chains import ActionChains
from selenium.webdriver.common.by import By
from selenium.webdriver.support.ui import Select, WebDriverWait

ROOT = pathlib.Path(__file__).resolve().parent.parent.parent
PAGE = ROOT / "target" / "web" / "vantorel.html"
SHOTS = pathlib.Path(sys.argv[1] if len(sys.argv) > 1 else ROOT / "target" / "web" / "shots")
failed = []


def browser(width, height):
    options = webdriver.ChromeOptions()
    options.binary_location = "/usr/bin/chromium" if os.path.exists("/usr/bin/chromium") else ""
    for word in ["--headless=new", "--no-sandbox", "--disable-gpu", "--disable-dev-shm-usage", "--hide-scrollbars", f"--window-size={width},{height}"]:
        options.add_argument(word)
    options.set_capability("goog:loggingPrefs", {"browser": "ALL"})
    return webdriver.Chrome(service=Service("/usr/bin/chromedriver" if os.path.exists("/usr/bin/chromedriver") else "chromedriver"), options=options)


class Page:
    def __init__(self, driver):
        self.driver = driver
        self.open()

    def open(self):
        self.driver.get(PAGE.as_uri())
        self.until(lambda: self.js("return document.documentElement.dataset.ready") == "yes", "the page is ready")

    def js(self, code, *args):
        return self.driver.execute_script(code, *args)

    def until(self, true, what, seconds=30):
        WebDriverWait(self.driver, seconds, 0.05).until(lambda _: true(), what)

    def get(self, selector):
        return self.driver.find_element(By.CSS_SELECTOR, selector)

    def text(self, selector):
        return self.js("return document.querySelector(arguments[0]).textContent", selector)

    def press(self, selector):
        # what a mouse would do; the part is brought into view first
        element = self.get(selector)
        self.js("arguments[0].scrollIntoView({ block: 'center' })", element)
        element.click()

    # Keys pressed wherever the focus is; some together with others held down.
    def keys(self, *pressed):
        for key in pressed:
            chain = ActionChains(self.driver)
            *held, last = key if isinstance(key, tuple) else (key,)
            for one in held:
                chain.key_down(one)
            chain.send_keys(last)
            for one in held:
                chain.key_up(one)
            chain.perform()

    def choose(self, selector, value):
        Select(self.get(selector)).select_by_value(value)

    def lesson(self, name):
        self.js("const lesson = document.getElementById('lesson'); lesson.value = arguments[0]; lesson.dispatchEvent(new Event('change'))", name)
        self.until(lambda: self.text("#position").startswith("Arrival 0 ") and self.js("return document.getElementById('lesson').value") == name, f"lesson {name}")
        time.sleep(0.05)

    def end(self):
        self.press("#to-end")
        self.until(self.at_end, "the end of the list")

    def at_end(self):
        match = re.fullmatch(r"Arrival ([\d,]+) of ([\d,]+)", self.text("#position"))
        return match is not None and match[1] == match[2]

    def log(self):
        return self.js("return [...document.querySelectorAll('#log tbody tr')].map((row) => [...row.cells].map((cell) => cell.textContent))")

    def verdict(self, side):
        return self.js("return document.querySelector(`#${arguments[0]} .verdict`).dataset.kind", side)

    # The verdict's words, line by line.
    def words(self, side):
        return self.js("return [...document.querySelectorAll(`#${arguments[0]} .verdict p`)].map((line) => line.textContent)", side)

    # What is said of the file over the receivers; nothing where that is hidden.
    def fault(self):
        return self.js("const fault = document.getElementById('file-fault'); return fault.hidden ? '' : fault.textContent")

    # A file chosen in a field, as the dialog would hand it over.
    def pick(self, selector, name, content):
        with tempfile.TemporaryDirectory() as folder:
            path = pathlib.Path(folder, name)
            path.write_bytes(content)
            self.js("document.getElementById('setup').open = true")
            self.get(selector).send_keys(str(path))
            # the browser reads it from there
            time.sleep(0.3)

    def lamp(self, side):
        return self.js("const lamp = document.querySelector(`#${arguments[0]} .lamp`); return [lamp.dataset.state, lamp.dataset.wrongly]", side)

    # The pages of the flash by status, as the legend counts them.
    def grid(self, side):
        rows = self.js(
            "return [...document.querySelectorAll(`#${arguments[0]} [data-memory=flash] .legend li`)].map((item) => [item.dataset.status, Number(item.dataset.count)])", side
        )
        return dict(rows)

    # The colour that the canvas has in the middle of a page's left edge, as three numbers.
    def colour(self, side, page):
        return self.js(
            """const canvas = document.querySelector(`#${arguments[0]} [data-memory=flash] canvas`);
            const ratio = window.devicePixelRatio;
            const width = canvas.width / ratio;
            const height = canvas.height / ratio;
            const gap = 6;
            // 8 sectors, in as many columns as the shape of the canvas says
            const across = [1, 2, 3, 4, 8].find((n) => {
                const side = (width - gap * (n + 1)) / (4 * n);
                return Math.abs(Math.ceil(8 / n) * (4 * side + gap) + gap - height) < 1;
            });
            const cell = (width - gap * (across + 1)) / (4 * across);
            const sector = Math.floor(arguments[1] / 16);
            const x = gap + (sector % across) * (4 * cell + gap) + (arguments[1] % 4) * cell + 3;
            const y = gap + Math.floor(sector / across) * (4 * cell + gap) + Math.floor((arguments[1] % 16) / 4) * cell + cell / 2;
            return [...canvas.getContext('2d').getImageData(x * ratio, y * ratio, 1, 1).data].slice(0, 3);""",
            side,
            page,
        )

    # The list of arrivals as bytes, as "Save the arrivals as a file" would write it.
    def saved(self):
        text = self.driver.execute_async_script(
            """const done = arguments[0];
            const make = URL.createObjectURL;
            URL.createObjectURL = (blob) => {
                URL.createObjectURL = make;
                const reader = new FileReader();
                reader.onload = () => done(reader.result.split(',')[1]);
                reader.readAsDataURL(blob);
                return 'data:,';
            };
            HTMLAnchorElement.prototype.click = function () {};
            document.getElementById('save').click();"""
        )
        return base64.b64decode(text)

    # A file handed to the page as if it were dropped.
    def drop(self, name, content):
        self.js(
            """const raw = atob(arguments[1]);
            const bytes = Uint8Array.from(raw, (c) => c.charCodeAt(0));
            const data = new DataTransfer();
            data.items.add(new File([bytes], arguments[0]));
            document.dispatchEvent(new DragEvent('drop', { dataTransfer: data, bubbles: true, cancelable: true }));""",
            name,
            base64.b64encode(content).decode(),
        )


def check(name):
    def run(test):
        try:
            test()
            print(f"page in a browser, {name} ... ok", flush=True)
        except Exception as error:  # every failure is told, and the rest is tested too
            failed.append(name)
            print(f"page in a browser, {name} ... FAILED: {type(error).__name__}: {str(error).strip()}", flush=True)
        return test

    return run


def equal(got, expected, what=""):
    if got != expected:
        raise AssertionError(f"{what}: {got!r}, and not {expected!r}")


def block(number, total, address=None, family=0xE48BFF59):
    address = 0x10000000 + 256 * number if address is None else address
    head = struct.pack("<8I", 0x0A324655, 0x9E5D5157, 0x2000, address, 256, number, total, family)
    return head + bytes([number % 251]) * 256 + bytes(220) + struct.pack("<I", 0x0AB16F30)


# The tests of a page in a browser that has no network: the page is one file, and everything works without.
def run(tests, width=1280, height=900, expected=()):
    driver = browser(width, height)
    try:
        driver.set_script_timeout(60)
        driver.execute_cdp_cmd("Network.enable", {})
        driver.execute_cdp_cmd("Network.emulateNetworkConditions", {"offline": True, "latency": 0, "downloadThroughput": 0, "uploadThroughput": 0})
        tests(driver, Page(driver))

        @check("the browser had nothing to complain of")
        def _():
            # the tests themselves read the canvas often
            told = [entry["message"] for entry in driver.get_log("browser") if entry["level"] in ("SEVERE", "WARNING")]
            equal([message for message in told if not any(part in message for part in ("willReadFrequently", *expected))], [])
    finally:
        driver.quit()
    sys.exit(1 if failed else 0)
