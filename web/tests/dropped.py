"""lspcheck.html in Chromium, as somebody uses it who drops files on it."""

import base64

from processes import until

# Drops files on the page, each a name and its bytes in base64.
DROP = """
const files = new DataTransfer();
for (const [name, bytes] of arguments[0]) {
  files.items.add(new File([Uint8Array.from(atob(bytes), (it) => it.charCodeAt(0))], name));
}
dispatchEvent(new DragEvent("drop", { dataTransfer: files, bubbles: true, cancelable: true }));
"""
# What came of a file: the last card of its name.
CARD = "const card = [...document.querySelectorAll('.log')].findLast((it) => it.querySelector('h2').textContent === arguments[0]);"
STATE = CARD + "return card?.dataset.is ?? null"
READY = "return document.documentElement.dataset.ready ?? null"
NO_LOG = "not a log: its first line is not that of a log"


def packed(files):
    """What DROP takes."""
    return [[name, base64.b64encode(data).decode()] for name, data in files.items()]


def visible(text):
    """A text as the page shows it."""
    return "".join(it if it.isprintable() or it == "\n" else f"[U+{ord(it):04X}]" for it in text)


def due(report):
    """The state of the card of a log and its line, by the lines of a report."""
    if report[0].startswith("bad log L1"):
        return "fault", NO_LOG
    return "page", visible(report[0] if report[0] == "yes" else f"{report[0]}: {report[1]}")


class Dropped:
    """The page on which logs are dropped."""

    def __init__(self, built, driver):
        self.driver = driver
        driver.execute_cdp_cmd("Emulation.setDeviceMetricsOverride",
                               {"width": 1200, "height": 900, "deviceScaleFactor": 1, "mobile": False})
        driver.get("about:blank")
        driver.get((built / "lspcheck.html").as_uri())
        self.is_ready = self.becomes_ready()

    def becomes_ready(self):
        """Whether the scripts of what is shown have begun their work."""
        return until(lambda: self.driver.execute_script(READY)) and self.driver.execute_script(READY) == "yes"

    def drop(self, files):
        self.driver.execute_script(DROP, packed(files))

    def choose(self, *paths):
        self.driver.find_element("id", "files").send_keys("\n".join(map(str, paths)))

    def state(self, name):
        return self.driver.execute_script(STATE, name)

    def done(self, name):
        """What came of a file, once it is there."""
        assert until(lambda: self.state(name) not in (None, "running")), name
        return self.state(name)

    def text(self, name, selector):
        return self.driver.execute_script(CARD + "return card.querySelector(arguments[1])?.textContent ?? null", name, selector)

    def judged(self, name):
        """The state of a card and its line, once they are there."""
        return self.done(name), self.text(name, ".verdict-line")

    def click(self, name, label):
        script = CARD + "[...card.querySelectorAll('button, a')].find((it) => it.textContent === arguments[1]).click()"
        self.driver.execute_script(script, name, label)

    def run(self, line):
        self.driver.execute_script("document.querySelectorAll('.log').forEach((it) => { it.dataset.is = 'running'; })")
        field = self.driver.find_element("id", "words")
        field.clear()
        field.send_keys(line + "\n")

    def faults(self):
        return [it for it in self.driver.get_log("browser") if "favicon" not in it["message"]]
