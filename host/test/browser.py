"""A headless Chromium over Debian's selenium, driven by lines of JSON: `/usr/bin/python3 browser.py`, or the class `Browser`, which starts that.

A line is [name, arguments]; the answer is [true, result] or [false, text of the fault]. It has a process of its own because selenium is a module
of the system's Python, and the tests may run with another one.
"""

import contextlib
import json
import os
import shutil
import subprocess
import sys

PYTHON = "/usr/bin/python3"
DRIVER = "/usr/bin/chromedriver"


def lacks():
    """What is missing for a browser, in words; None if nothing is."""
    if not os.path.exists(DRIVER) or shutil.which("chromium") is None:
        return "Chromium is not installed (Debian: apt-get install chromium chromium-driver python3-selenium)"
    if subprocess.run([PYTHON, "-c", "import selenium"], capture_output=True).returncode != 0:
        return "selenium is not installed for /usr/bin/python3 (Debian: apt-get install python3-selenium)"
    return None


class Browser:
    """A browser in a process of its own. Each method of `Driver` is a method of it."""

    def __init__(self):
        self.process = subprocess.Popen([PYTHON, os.path.realpath(__file__)], stdin=subprocess.PIPE, stdout=subprocess.PIPE, text=True)

    def __enter__(self):
        return self

    def __exit__(self, *_):
        self.process.stdin.close()
        try:
            self.process.wait(20)
        except subprocess.TimeoutExpired:
            self.process.kill()
            self.process.wait()
        self.process.stdout.close()

    def __getattr__(self, name):
        def ask(*words):
            self.process.stdin.write(json.dumps([name, words]) + "\n")
            self.process.stdin.flush()
            line = self.process.stdout.readline()
            if not line:
                raise AssertionError("the browser has ended")
            is_done, result = json.loads(line)
            if not is_done:
                raise AssertionError(f"the browser: {name} {words}: {result}")
            return result
        return ask


class Driver:
    """What the browser can do."""

    def __init__(self):
        from selenium import webdriver
        from selenium.webdriver.chrome.options import Options
        from selenium.webdriver.chrome.service import Service
        options = Options()
        options.binary_location = shutil.which("chromium")
        for word in ("--headless=new", "--no-sandbox", "--disable-gpu", "--disable-dev-shm-usage", "--hide-scrollbars", "--force-device-scale-factor=1",
                     "--disable-background-networking", "--disable-component-update", "--no-first-run"):
            options.add_argument(word)
        options.set_capability("goog:loggingPrefs", {"browser": "ALL", "performance": "ALL"})
        self.driver = webdriver.Chrome(service=Service(DRIVER), options=options)
        self.driver.set_script_timeout(30)

    def size(self, width, height):
        self.driver.execute_cdp_cmd("Emulation.setDeviceMetricsOverride", {"width": width, "height": height, "deviceScaleFactor": 1, "mobile": width < 500})

    def prefer(self, **features):
        """What the user prefers, such as prefers_color_scheme=dark."""
        self.driver.execute_cdp_cmd("Emulation.setEmulatedMedia", {"features": [{"name": name.replace("_", "-"), "value": value} for name, value in features.items()]})

    def scheme(self, name, motion="no-preference"):
        self.prefer(prefers_color_scheme=name, prefers_reduced_motion=motion)

    def open(self, url):
        self.driver.get(url)

    def run(self, script, *words):
        return self.driver.execute_script(script, *words)

    def waits(self, script, *words):
        """A script that calls its last argument with the result."""
        return self.driver.execute_async_script(script, *words)

    def keys(self, *names):
        """Presses keys: a text, or the name of a key such as TAB, or SHIFT+TAB."""
        from selenium.webdriver.common.action_chains import ActionChains
        from selenium.webdriver.common.keys import Keys
        actions = ActionChains(self.driver)
        for name in names:
            held, _, key = name.rpartition("+")
            octets = getattr(Keys, key, name)
            if held:
                actions.key_down(Keys.SHIFT).send_keys(octets).key_up(Keys.SHIFT)
            else:
                actions.send_keys(octets)
        actions.perform()

    def processor_seconds(self):
        """What all processes of the browser have used."""
        parents, used = {}, {}
        for number in filter(str.isdecimal, os.listdir("/proc")):
            with contextlib.suppress(OSError), open(f"/proc/{number}/stat", encoding="ascii", errors="replace") as file:
                fields = file.read().rpartition(")")[2].split()
                parents[int(number)], used[int(number)] = int(fields[1]), (int(fields[11]) + int(fields[12])) / os.sysconf("SC_CLK_TCK")
        own = {self.driver.service.process.pid}
        while more := {number for number, parent in parents.items() if parent in own} - own:
            own |= more
        return sum(used.get(number, 0) for number in own)

    def shot(self, path):
        self.driver.save_screenshot(path)

    def complaints(self):
        """What the browser complained of since the last call."""
        return [entry["message"] for entry in self.driver.get_log("browser")]

    def requests(self):
        """The addresses that pages asked for since the last call."""
        messages = [json.loads(entry["message"])["message"] for entry in self.driver.get_log("performance")]
        return [message["params"]["request"]["url"] for message in messages if message["method"] == "Network.requestWillBeSent"]

    def quit(self):
        self.driver.quit()


def main():
    driver = Driver()
    try:
        for line in sys.stdin:
            name, words = json.loads(line)
            try:
                answer = [True, getattr(driver, name)(*words)]
            except Exception as fault:  # is reported to the test
                answer = [False, f"{type(fault).__name__}: {fault}"]
            print(json.dumps(answer), flush=True)
    finally:
        driver.quit()
    return 0


if __name__ == "__main__":
    sys.exit(main())
