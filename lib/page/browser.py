"""browser.py KIND PAGE SUMS [SHOTS]: opens a page in Chromium without a window, and says 'ok' or 'FAILED' of each thing that was looked at, on a line of its own.

KIND is build, made or hostile; SUMS is an object in JSON of what the page must show. In the folder SHOTS it puts pictures of the page.
"""
import base64
import json
import os
import sys

from selenium import webdriver
from selenium.webdriver.chrome.service import Service
from selenium.webdriver.common.by import By
from selenium.webdriver.common.keys import Keys
from selenium.webdriver.support.ui import WebDriverWait

KIND, PAGE, SUMS = sys.argv[1], os.path.abspath(sys.argv[2]), json.loads(sys.argv[3])
SHOTS = sys.argv[4] if len(sys.argv) > 4 else None
# The contrast that a text must have with its background, by WCAG AA, for each text of the page that is in sight.
CONTRAST = """
const channel = (x) => (x /= 255) <= 0.04045 ? x / 12.92 : ((x + 0.055) / 1.055) ** 2.4;
const light = (c) => 0.2126 * channel(c[0]) + 0.7152 * channel(c[1]) + 0.0722 * channel(c[2]);
const rgb = (text) => text.match(/[\\d.]+/g).map(Number);
const ground = (it) => { for (; it; it = it.parentElement) { const c = rgb(getComputedStyle(it).backgroundColor);
  if (c.length < 4 || c[3] === 1) return c; } return [255, 255, 255]; };
const low = [];
for (const it of document.querySelectorAll('h1,h2,p,dt,dd,th,td,button,summary,label,li,span,code')) {
  if (!it.offsetParent || it.disabled || !it.textContent.trim()) continue;
  const one = light(rgb(getComputedStyle(it).color)), other = light(ground(it));
  const ratio = (Math.max(one, other) + 0.05) / (Math.min(one, other) + 0.05);
  if (ratio < 4.5) low.push(it.tagName + ' ' + it.textContent.slice(0, 20) + ' ' + ratio.toFixed(2));
}
return low;
"""
OUTLINED = "const s = getComputedStyle(document.activeElement); return s.outlineStyle !== 'none' && parseFloat(s.outlineWidth) >= 2"


def say(name, holds, more=""):
    print("ok" if holds else "FAILED", f"{KIND} page: {name}", "" if holds else more)


def open_browser():
    options = webdriver.ChromeOptions()
    for word in ("--headless=new", "--no-sandbox", "--disable-gpu", "--hide-scrollbars", "--window-size=1600,1000"):
        options.add_argument(word)
    options.set_capability("goog:loggingPrefs", {"browser": "ALL"})
    return webdriver.Chrome(service=Service("/usr/bin/chromedriver"), options=options)


class Look:
    def __init__(self, driver):
        self.driver = driver
        driver.execute_cdp_cmd("Performance.enable", {"timeDomain": "threadTicks"})
        driver.get("file://" + PAGE)
        self.say_time()

    def say_time(self):
        metrics = {it["name"]: it["value"] for it in self.driver.execute_cdp_cmd("Performance.getMetrics", {})["metrics"]}
        took = metrics["TaskDuration"]
        wall = self.driver.execute_script("return performance.getEntriesByType('navigation')[0].loadEventEnd") / 1000
        say(f"opened in {took:.2f} s of a processor, of two at most; {wall:.2f} s by the clock", took < 2)

    def find(self, selector):
        return self.driver.find_elements(By.CSS_SELECTOR, selector)

    def one(self, selector):
        return self.driver.find_element(By.CSS_SELECTOR, selector)

    def text(self, selector):
        return self.one(selector).text

    def until(self, name, holds):
        try:
            WebDriverWait(self.driver, 20).until(lambda _: holds())
            say(name, True)
        except Exception as error:
            say(name, False, repr(error)[:200])

    def console(self):
        log = self.driver.get_log("browser")
        say("nothing in the console", not log, str(log)[:500])

    def sums(self):
        shown = {}
        for fact in self.find(".facts > div"):
            count = fact.find_elements(By.CSS_SELECTOR, "[data-count]")
            if count:
                shown[fact.find_element(By.TAG_NAME, "dt").text] = int(count[0].get_attribute("data-count"))
        for name, wanted in SUMS.get("facts", {}).items():
            say(f"{name}: {wanted}", shown.get(name, 0) == wanted, str(shown))

    def rows(self):
        calls = SUMS["calls"]
        say("rows", len(self.find("tbody tr[data-call]")) == min(calls, 100))
        first = "return document.querySelector('tr[data-call]').cells[%d].textContent"
        all_times = "return JSON.parse(document.getElementById('build').textContent).calls.map((it) => it[%d])"
        took = self.driver.execute_script(all_times % 1)
        number = "return +document.querySelector('tr[data-call]').dataset.call"
        say("the longest call is first", took[self.driver.execute_script(number)] == max(took))
        heads = self.find("#calls, .scrolls[aria-labelledby=calls] th button")[-5:]
        heads[1].click()
        say("sorted the other way", took[self.driver.execute_script(number)] == min(took))
        say("which is shown", self.find("th[aria-sort=ascending]")[0].text.startswith("Took"))
        heads[0].click()
        starts = self.driver.execute_script(all_times % 0)
        say("sorted by beginning", starts[self.driver.execute_script(number)] == min(starts))
        heads[3].click()
        names = [it.text for it in self.find("tr[data-call] summary")]
        say("sorted by name", names == sorted(names) or KIND == "hostile", str(names[:5]))
        say("and shown", self.driver.execute_script(first % 3) != "")

    def search(self):
        field = self.one("#search")
        say("the search has a label", self.driver.execute_script("return document.getElementById('search').labels.length") == 1)
        wanted, found = SUMS["search"]
        field.send_keys(wanted)
        self.until(f"{found} found by {wanted}", lambda: f"of {found} that were found" in self.text("#shown"))
        field.clear()
        field.send_keys("nothing has this name")
        self.until("none found", lambda: "0 to 0 of 0" in self.text("#shown"))
        self.driver.execute_script("arguments[0].value = ''; arguments[0].dispatchEvent(new Event('input'))", field)
        self.until("all again", lambda: f"of {SUMS['calls']} calls" in self.text("#shown"))

    def keys(self):
        picture = self.one("#picture")
        self.driver.execute_script("arguments[0].focus()", picture)
        before = self.text("#facts")
        picture.send_keys(Keys.ARROW_RIGHT)
        say("an arrow shows another call", self.text("#facts") not in ("", before))
        axis = self.text("#axis")
        picture.send_keys("+", "+", "+")
        self.until("+ zooms", lambda: self.text("#axis") != axis)
        picture.send_keys("0")
        self.until("0 shows all", lambda: self.text("#axis") == axis)
        bars = "return Array.from(document.querySelectorAll('path.bars'), (it) => it.getAttribute('d')).join('').split('M').length - 1"
        say("a bar for each call", self.driver.execute_script(bars) == SUMS["calls"] + SUMS.get("others", 0))
        picture.send_keys(Keys.END)
        say("the focus is seen", self.driver.execute_script(OUTLINED))
        facts = self.text("#facts").split(" · ")[0]
        picture.send_keys(Keys.ENTER)
        chosen = "const it = document.activeElement; return it.tagName === 'SUMMARY' && it.closest('tr.chosen') ? it.textContent : ''"
        shown = self.driver.execute_script(chosen)
        say("Enter leads to its row", shown != "" and " ".join(shown.split()) == " ".join(facts.split()), f"{facts!r} {shown!r}")
        say("which is open", self.find("tr.chosen details[open] dd") != [])

    def tabs(self):
        """Tab goes to the picture, the search and the heads, and each shows that it has the focus."""
        self.driver.execute_script("const it = document.querySelector('h1'); it.tabIndex = -1; it.focus()")
        seen, outlined = [], True
        for _ in range(40):
            webdriver.ActionChains(self.driver).send_keys(Keys.TAB).perform()
            seen.append(self.driver.execute_script("const it = document.activeElement; return it.id || it.tagName + ' ' + it.textContent.slice(0, 12)"))
            outlined = outlined and (seen[-1].startswith("BODY") or self.driver.execute_script(OUTLINED))
            if "BUTTON Took" in seen:
                break
        say("Tab comes by the picture, the search and the heads", {"picture", "search", "BUTTON Took"} <= set(seen), str(seen))
        say("the focus is seen at each", outlined)

    def wheel(self):
        axis = self.text("#axis")
        event = "const p = document.getElementById('picture'), b = p.getBoundingClientRect(); p.dispatchEvent(new WheelEvent('wheel', " \
            "{deltaY: -100, clientX: b.left + b.width / 2, clientY: b.top + 8, cancelable: true}))"
        self.driver.execute_script(event)
        self.until("the wheel zooms", lambda: self.text("#axis") != axis)
        self.one("#picture").send_keys("0")
        self.until("and back", lambda: self.text("#axis") == axis)

    def labels(self):
        script = "return [...document.querySelectorAll('button,input,svg[role],[role=region]')].filter((it) => !(it.textContent.trim() && " \
            "it.tagName === 'BUTTON') && !it.labels?.length && !it.getAttribute('aria-label') && !it.getAttribute('aria-labelledby')).length"
        say("everything has a label", self.driver.execute_script(script) == 0)
        ids = "const ids = [...document.querySelectorAll('[id]')].map((it) => it.id); return ids.length === new Set(ids).size && " \
            "[...document.querySelectorAll('[aria-labelledby],[aria-describedby]')].every((it) => ((it.getAttribute('aria-labelledby') || '') + ' ' + " \
            "(it.getAttribute('aria-describedby') || '')).split(' ').filter((x) => x).every((x) => document.getElementById(x)))"
        say("labels lead somewhere", self.driver.execute_script(ids))

    def nothing_ran(self):
        say("nothing of the log ran", self.driver.execute_script("return window.hacked === undefined && document.body.innerText.length > 100"))
        say("two scripts, and no picture or frame", self.driver.execute_script(
            "return document.scripts.length === 2 && !document.querySelector('img,iframe,object,embed,a,form') && "
            "!document.querySelector('[onload],[onerror]')"))
        say("names stay names", "<script>document.body" in self.driver.execute_script("return document.body.innerText"))
        say("broken lines are counted", f"{SUMS['broken']} lines are broken" in self.text("main"))
        say("no control character", self.driver.execute_script(
            "return !/[\\0-\\x08\\x0b-\\x1f\\x7f-\\x9f\\u202a-\\u202e\\u2066-\\u2069]/.test(document.body.textContent.replace(/[\\n\\t]/g, ''))"))

    def media(self, scheme, width):
        self.driver.execute_cdp_cmd("Emulation.setEmulatedMedia", {"features": [{"name": "prefers-color-scheme", "value": scheme}]})
        self.driver.execute_cdp_cmd(
            "Emulation.setDeviceMetricsOverride", {"width": width, "height": 1000, "deviceScaleFactor": 1, "mobile": False})
        low = self.driver.execute_script(CONTRAST)
        say(f"contrast, {scheme}, {width}", not low, str(low[:3]))
        script = "return document.documentElement.scrollWidth <= window.innerWidth"
        say(f"nothing is wider than the page, {scheme}, {width}", self.driver.execute_script(script))
        if SHOTS:
            height = min(self.driver.execute_script("return document.documentElement.scrollHeight"), 3000)
            shot = {"captureBeyondViewport": True, "clip": {"x": 0, "y": 0, "width": width, "height": height, "scale": 1}}
            with open(f"{SHOTS}/{KIND}-{scheme}-{width}.png", "wb") as file:
                file.write(base64.b64decode(self.driver.execute_cdp_cmd("Page.captureScreenshot", shot)["data"]))

    def still(self):
        """The page without its script."""
        self.driver.execute_cdp_cmd("Emulation.setScriptExecutionDisabled", {"value": True})
        self.driver.get("file://" + PAGE)
        rows = len(self.find(".scrolls[aria-labelledby=calls] tbody tr"))
        say("without script: the longest calls", rows == min(SUMS["calls"] + SUMS.get("others", 0), 500), str(rows))
        say("without script: the picture", any(it.get_attribute("d") for it in self.find("path.bars")))
        self.sums()


def main():
    driver = open_browser()
    try:
        look = Look(driver)
        look.console()
        look.sums()
        if KIND == "hostile":
            look.nothing_ran()
        look.labels()
        look.wheel()
        for scheme in ("light", "dark"):
            for width in (400, 1600):
                look.media(scheme, width)
        look.rows()
        if "search" in SUMS:
            look.search()
        look.keys()
        look.tabs()
        look.console()
        look.still()
    finally:
        driver.quit()


main()
