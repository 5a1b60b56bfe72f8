"""Chromium without a window, by Selenium; and a server of a folder on this machine."""
import contextlib
import functools
import http.server
import json
import os
import shutil
import subprocess
import tempfile
import threading

from selenium import webdriver
from selenium.webdriver.chrome.service import Service
from selenium.webdriver.common.action_chains import ActionChains
from selenium.webdriver.common.keys import Keys
from selenium.webdriver.support.ui import WebDriverWait

FLAGS = ["--headless=new", "--disable-gpu", "--hide-scrollbars"]
# As root the browser runs as `nobody`: whoever reaches the port of chromedriver runs programs as the browser's user.
AS_NOBODY = ["setpriv", "--reuid=65534", "--regid=65534", "--clear-groups",
             "--no-new-privs"] if os.geteuid() == 0 else []
# Chromium's sandbox needs such namespaces, which a container may refuse.
HAS_NAMESPACES = subprocess.run([*AS_NOBODY, "unshare", "--user", "--pid", "--net", "true"],
                                capture_output=True).returncode == 0
if not HAS_NAMESPACES:
    print("left out: the sandbox of Chromium: this machine has no namespaces for users", flush=True)


class Driver(Service):
    """chromedriver, with a home of its own."""

    def __init__(self, home):
        super().__init__("/usr/bin/env", env={**os.environ, "HOME": home, "TMPDIR": home})

    def command_line_args(self):
        return [*AS_NOBODY, "/usr/bin/chromedriver", *super().command_line_args()]


class Page:
    """A page in a Chromium of its own."""

    def __init__(self, url):
        options = webdriver.ChromeOptions()
        options.binary_location = "/usr/bin/chromium"
        for flag in [*FLAGS, *["--no-sandbox"] * (not HAS_NAMESPACES)]:
            options.add_argument(flag)
        options.set_capability("goog:loggingPrefs", {"performance": "ALL", "browser": "SEVERE"})
        self.home = tempfile.mkdtemp(prefix="browser-")
        if AS_NOBODY:
            os.chown(self.home, 65534, 65534)
        self.driver = webdriver.Chrome(service=Driver(self.home), options=options)
        self.driver.set_script_timeout(600)
        self.open(url)

    def open(self, url):
        """Opens a page in a tab of its own, without the history of this one, which is closed."""
        old = self.driver.current_window_handle
        self.driver.switch_to.new_window("tab")
        new = self.driver.current_window_handle
        self.driver.switch_to.window(old)
        self.driver.close()
        self.driver.switch_to.window(new)
        self.errors(), self.requests()
        self.call("Browser.grantPermissions", permissions=["clipboardReadWrite", "clipboardSanitizedWrite"])
        self.driver.get(url)

    def call(self, method, **params):
        return self.driver.execute_cdp_cmd(method, params)

    def run(self, script):
        """The value of an expression, which may be a promise."""
        return self.driver.execute_script(f"return {script}")

    def until(self, script, seconds=300):
        WebDriverWait(self.driver, seconds, 0.05).until(lambda _: self.run(script), f"it never came: {script}")

    def requests(self):
        """The URL of each request since the last look."""
        messages = [json.loads(it["message"])["message"] for it in self.driver.get_log("performance")]
        return [it["params"]["request"]["url"] for it in messages if it["method"] == "Network.requestWillBeSent"]

    def errors(self):
        """Each exception and error message since the last look."""
        return [it["message"] for it in self.driver.get_log("browser")]

    def size(self, width, height):
        self.call("Emulation.setDeviceMetricsOverride", width=width, height=height, deviceScaleFactor=1, mobile=False)

    def keys(self, *keys):
        """Types at the focus."""
        ActionChains(self.driver).send_keys(*(it.replace("\n", Keys.ENTER) for it in keys)).perform()

    def control(self, key):
        ActionChains(self.driver).key_down(Keys.CONTROL).send_keys(key).key_up(Keys.CONTROL).perform()

    def paste(self, text):
        """Pastes at the focus, over the clipboard."""
        self.run(f"navigator.clipboard.writeText({json.dumps(text)})")
        self.control("v")

    def roles(self):
        """The role and the name of each node of the accessibility tree."""
        nodes = self.call("Accessibility.getFullAXTree")["nodes"]
        return [(it["role"]["value"], it.get("name", {}).get("value", "")) for it in nodes if not it.get("ignored")]

    def __enter__(self):
        return self

    def __exit__(self, *_):
        self.driver.quit()
        shutil.rmtree(self.home, ignore_errors=True)


class Handler(http.server.SimpleHTTPRequestHandler):
    def log_message(self, *_):
        pass


@contextlib.contextmanager
def served(folder):
    """The URL of a folder."""
    server = http.server.ThreadingHTTPServer(("127.0.0.1", 0), functools.partial(Handler, directory=folder))
    threading.Thread(target=server.serve_forever, daemon=True).start()
    try:
        yield f"http://127.0.0.1:{server.server_port}"
    finally:
        server.shutdown()
        server.server_close()
