"""Chromium without a window, by Selenium: pages that are opened, asked and typed into.

Nothing is fetched: no name resolves, and what a page asks for beside its own file is a fault, as are dialogs, messages on the
console, exceptions, what the content security policy refuses, other windows and downloads.
"""
import json
import shutil

from git_runs import put
from rt_api import read
from runs import ended, explain
from selenium import webdriver
from selenium.webdriver.chrome.service import Service

# Root has no sandbox, and some containers allow none.
WORDS = ("--headless=new", "--no-sandbox", "--disable-gpu", "--disable-dev-shm-usage", "--disable-extensions", "--disable-component-update",
         "--hide-scrollbars", "--host-resolver-rules=MAP * ~NOTFOUND")
# Reports what the policy refuses. It runs in an isolated world, which the page doesn't see, and in which
# scripts are allowed.
LISTENER = """document.addEventListener('securitypolicyviolation',
  it => console.error(`against the policy: ${it.violatedDirective} ${it.blockedURI}`))"""
ASKED = read("tests/page/page.js")
# Events that are faults, and those that are faults if the address in this member is another one.
FAULTS = {"Page.javascriptDialogOpening", "Page.windowOpen", "Page.downloadWillBegin"}
ELSEWHERE = {"Network.requestWillBeSent": "request", "Page.frameNavigated": "frame"}


class Browser(webdriver.Chrome):
    """A running browser. Its profile is in a folder of the caller's."""

    def __init__(self, folder):
        self.folder = folder
        options = webdriver.ChromeOptions()
        options.binary_location = shutil.which("chromium")
        for it in (*WORDS, f"--user-data-dir={folder}/profile"):
            options.add_argument(it)
        options.ignore_local_proxy_environment_variables()
        options.set_capability("goog:loggingPrefs", {"browser": "ALL", "performance": "ALL"})
        super().__init__(options=options, service=Service(shutil.which("chromedriver")))
        self.set_script_timeout(300)
        self.execute_cdp_cmd("Page.addScriptToEvaluateOnNewDocument", {"source": LISTENER, "worldName": "listener"})

    def open(self, file, width=1280, dark=False, script=True, first=""):
        """Opens the page of a file, until its load event, with its script or without, and with one that runs first. What went wrong before
        is forgotten."""
        self.file, self.address = file, f"file://{file}"
        self.look(width, dark)
        self.execute_cdp_cmd("Emulation.setScriptExecutionDisabled", {"value": not script})
        self.found()
        added = self.execute_cdp_cmd("Page.addScriptToEvaluateOnNewDocument", {"source": first})
        self.get(self.address)
        self.execute_cdp_cmd("Page.removeScriptToEvaluateOnNewDocument", added)

    def look(self, width, dark=False, media=""):
        """Sets the width of the window, light or dark colours, and screen or paper."""
        size = {"width": width, "height": 900, "deviceScaleFactor": 1, "mobile": width < 500}
        self.execute_cdp_cmd("Emulation.setDeviceMetricsOverride", size)
        colours = {"name": "prefers-color-scheme", "value": "dark" if dark else "light"}
        self.execute_cdp_cmd("Emulation.setEmulatedMedia", {"media": media, "features": [colours]})

    def ask(self, name, *given):
        """The result of a function of `page.js`, which may be a promise."""
        return self.execute_script(f"{ASKED} return {name}(...arguments)", *given)

    def laid_out(self):
        """The number of the boxes that are laid out, without those of pages that were open before."""
        for it in ("Performance.enable", "HeapProfiler.collectGarbage"):
            self.execute_cdp_cmd(it, {})
        return next(it["value"] for it in self.execute_cdp_cmd("Performance.getMetrics", {})["metrics"] if it["name"] == "LayoutObjects")

    def press(self, keys):
        webdriver.ActionChains(self).send_keys(keys).perform()

    def found(self):
        """What went wrong since the page was opened, or since the last call."""
        faults = [it["message"] for it in self.get_log("browser")]
        for it in self.get_log("performance"):
            event = json.loads(it["message"])["message"]
            name, said = event["method"], event["params"]
            if name in FAULTS or name in ELSEWHERE and said[ELSEWHERE[name]]["url"].partition("#")[0] != self.address:
                faults.append(f"{name}: {said}")
        return faults


def written(page, lines, title=None, end=b"\n", more=()):
    """The file of a page of lines, which is written with these words."""
    words = ["--html" if title is None else f"--html={title}", *(["--null"] if end == b"\0" else []), *more]
    return put(f"{page.folder}/page.html", explain(words, ended(lines, end)))
