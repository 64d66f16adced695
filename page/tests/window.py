"""A page in Chromium, driven by Selenium."""

from functools import cached_property

from selenium import webdriver
from selenium.common.exceptions import WebDriverException
from selenium.webdriver.chrome.options import Options
from selenium.webdriver.chrome.service import Service
from selenium.webdriver.common.by import By

from command import run
from processes import SECONDS, until

# In every width a window may have: a telephone, half a screen, a screen.
WIDTHS, THEMES = [380, 800, 1600], ["light", "dark"]


def started(options, tries=5):
    """A browser. On a busy machine it may not be ready in the time that its driver gives it, and its
    port may be taken by then."""
    while True:
        tries -= 1
        try:
            return webdriver.Chrome(service=Service("/usr/bin/chromedriver"), options=options)
        except WebDriverException:
            if tries == 0:
                raise


def start():
    options = Options()
    options.binary_location = "/usr/bin/chromium"
    for word in ("--headless=new", "--no-sandbox", "--disable-gpu", "--disable-dev-shm-usage"):
        options.add_argument(word)
    options.set_capability("goog:loggingPrefs", {"browser": "ALL"})
    driver = started(options)
    driver.set_page_load_timeout(SECONDS)
    driver.set_script_timeout(SECONDS)
    return driver


class Page:
    """A page in the browser, written when it is opened for the first time."""

    def __init__(self, driver, write):
        self.driver, self.write = driver, write

    @cached_property
    def path(self):
        return self.write()

    def size(self, width, height=900):
        size = {"width": width, "height": height, "deviceScaleFactor": 1, "mobile": False}
        self.driver.execute_cdp_cmd("Emulation.setDeviceMetricsOverride", size)

    def open(self, width=1600, theme="light", link="", height=900):
        self.size(width, height)
        media = {"features": [{"name": "prefers-color-scheme", "value": theme}]}
        self.driver.execute_cdp_cmd("Emulation.setEmulatedMedia", media)
        self.driver.get("about:blank")
        self.driver.get(f"{self.path.resolve().as_uri()}{link}")
        ready = self.wait("return document.documentElement.dataset.ready")
        assert ready == "yes", (self.text("#fault"), self.log())

    def run(self, script, *values):
        return self.driver.execute_script(script, *values)

    def log(self):
        return self.driver.get_log("browser")

    def all(self, selector):
        return self.driver.find_elements(By.CSS_SELECTOR, selector)

    def text(self, selector):
        return self.run("return document.querySelector(arguments[0])?.innerText ?? null", selector)

    def texts(self, selector):
        script = "return [...document.querySelectorAll(arguments[0])].map((it) => it.innerText)"
        return self.run(script, selector)

    def keys(self, *keys):
        self.driver.switch_to.active_element.send_keys(*keys)

    def selected(self):
        return self.text(".selected .number")

    def wait(self, script, *values):
        found = []
        assert until(lambda: found.append(self.run(script, *values)) or found[-1]), f"never true: {script}"
        return found[-1]

    def wait_for_frame(self):
        """Waits until the page has been drawn again."""
        self.driver.execute_async_script(
            "requestAnimationFrame(() => requestAnimationFrame(arguments[0]))")


def make(program, place, log, *words):
    """The page of a log."""
    target = place / f"{log.name}{''.join(words)}.html"
    # Without its smallest log, which takes time, unless that is asked for.
    done = run(log, "--program", program, "-o", target, "--shrink", "0", *words)
    assert done.returncode == 0, done.stderr
    return target
