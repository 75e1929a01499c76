"""A browser without a window, and the pixels that it has."""
import base64
import time

from selenium import webdriver
from selenium.common.exceptions import JavascriptException
from selenium.webdriver.chrome.service import Service
from selenium.webdriver.webkitgtk.options import Options as WebKitOptions

from judge import Failed

# What the tests ask of a page. `pixels` draws a picture on a canvas and reads that.
HELPERS = """
const pixels = (source, width = source.naturalWidth ?? source.width, height = source.naturalHeight ?? source.height) => {
  const pen = new OffscreenCanvas(width, height).getContext("2d", { willReadFrequently: true });
  pen.drawImage(source, 0, 0);
  const data = pen.getImageData(0, 0, width, height).data;
  let text = "";
  for (let at = 0; at < data.length; at += 8192) text += String.fromCharCode(...data.subarray(at, at + 8192));
  return [width, height, btoa(text)];
};
const image = (address) => new Promise((resolve, reject) => {
  const made = new Image();
  made.onload = () => resolve(made);
  made.onerror = () => reject(new Error("no picture"));
  made.src = address;
});
const by = {
  img: async (address) => pixels(await image(address)),
  fetch: async (address) => {
    const answer = await fetch(address);
    if (!answer.ok) throw new Error(`${answer.status} ${await answer.text()}`);
    return pixels(await createImageBitmap(await answer.blob()));
  },
  XHR: (address) => new Promise((resolve, reject) => {
    const asked = new XMLHttpRequest();
    asked.open("GET", address);
    asked.responseType = "blob";
    asked.onerror = () => reject(new Error("no answer"));
    asked.onload = async () => {
      if (asked.status !== 200) return reject(new Error(`${asked.status} ${await asked.response.text()}`));
      createImageBitmap(asked.response).then((made) => resolve(pixels(made)), reject);
    };
    asked.send();
  }),
};
"""


def unpacked(found):
    """Width, height and RGBA."""
    width, height, text = found
    return width, height, base64.b64decode(text)


def chromium(flags, prefs, size):
    options = webdriver.ChromeOptions()
    options.binary_location = "/usr/bin/chromium"
    for flag in ("--headless=new", "--no-sandbox", "--disable-gpu", "--disable-dev-shm-usage", "--force-color-profile=srgb",
                 "--force-device-scale-factor=1", "--hide-scrollbars", f"--window-size={size}", *flags):
        options.add_argument(flag)
    if prefs:
        options.add_experimental_option("prefs", prefs)
    return webdriver.Chrome(options=options, service=Service("/usr/bin/chromedriver"))


def webkit(_flags, _prefs, size):
    options = WebKitOptions()
    options.binary_location = "/usr/lib/x86_64-linux-gnu/webkit2gtk-4.1/MiniBrowser"
    options.add_argument("--automation")
    driver = webdriver.WebKitGTK(executable_path="/usr/bin/WebKitWebDriver", options=options)
    driver.set_window_size(*map(int, size.split(",")))
    return driver


class Browser:
    """A browser with a profile of its own, so that each begins with its first visit."""

    start_one = staticmethod(chromium)

    def __init__(self, flags=(), prefs=None, size="1000,800"):
        self.driver = self.start_one(flags, prefs, size)
        self.driver.set_script_timeout(60)

    def __enter__(self):
        return self

    def __exit__(self, *_):
        self.driver.quit()

    def open(self, address):
        self.driver.get(address)

    def run(self, script, *words):
        """What the body of an async function gives in the page; an error of the page is one here."""
        text = HELPERS + f"const done = arguments[arguments.length - 1]; (async (...words) => {{ {script} }})(...arguments)" \
            ".then((value) => done({ value }), (error) => done({ error: String(error.message) }))"
        try:
            found = self.driver.execute_async_script(text, *words)
        except JavascriptException as error:
            raise Failed(str(error)) from None
        if "error" in found:
            raise Failed(found["error"])
        return found.get("value")

    def start(self, page, bases=()):
        """A page with the worker alone, told of these bases."""
        self.open(page)
        self.run("await startIiif({ bases: words[0] });", list(bases))

    def pixels(self, way, address):
        """A picture by `img`, `fetch` or `XHR`."""
        return unpacked(self.run("return by[words[0]](words[1]);", way, address))

    def refused(self, way, address):
        """The words by which no picture came."""
        try:
            self.pixels(way, address)
        except Failed as failed:
            return str(failed)
        raise Failed(f"a picture by {way}")

    @property
    def sees_screen(self):
        """WebKit's driver gives no picture of the screen under Xvfb."""
        return self.start_one is chromium

    def screen(self, selector):
        """What an element shows."""
        found = self.driver.find_element("css selector", selector).screenshot_as_base64
        return unpacked(self.run("return pixels(await image('data:image/png;base64,' + words[0]));", found))

    def wait(self, what, until, seconds=30):
        """Tries until it gives something other than None."""
        deadline = time.monotonic() + seconds
        while (found := until()) is None:
            if time.monotonic() > deadline:
                raise Failed(f"{what} within {seconds} s: {self.text('#fault')}")
            time.sleep(0.05)
        return found

    def text(self, selector):
        return self.run("return document.querySelector(words[0])?.textContent ?? '';", selector)
