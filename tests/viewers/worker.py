"""The worker alone, on a page with nothing else: files that the server wouldn't write, torn answers, refusals, bases, visits."""
import itertools
import struct

import pictures
from browser import Browser, unpacked
from judge import Failed, equal, said_of, same
from servers import Odd, Program

WAYS = ("img", "fetch", "XHR")
W, H = 37, 23
WORDS = "it/full/max/0/default.jpg"


def whole(picture):
    return W, H, picture.shown(0, 0, W, H, W, H)


def layouts(tried, args, folder, pages):
    """Files that the server wouldn't write, and each way to ask for them."""
    with Odd() as odd, Browser() as browser:
        browser.start(f"{pages.base}/bare.html", [odd.base])
        for number, picture in enumerate(pictures.kinds(W, H)):
            wanted = whole(picture)
            for order, strip, planes in itertools.product("<>", (23, 7, 1), (False, True) if picture.channels == 3 else (False,)):
                name = f"{number}{'II' if order == '<' else 'MM'}{strip}{planes}"
                odd.given[name] = {"body": pictures.layout(picture, order, strip, planes)}

                def judge():
                    for way, form in zip(WAYS, ("jpg", "png", "webp")):
                        equal(browser.pixels(way, f"{odd.base}/{name}/full/max/0/default.{form}"), wanted, way)
                    return ", ".join(WAYS)

                tried.case(f"layout, {picture.kind}, {pictures.named(order)}, strips of {strip}" + ", in planes" * planes, judge)


def torn_answers(file):
    """Ways to tear this file of four strips, RGB of 8 bits with the low byte first: keywords of `send`."""
    cuts = {"no byte": 0, "half a head": 5, "the head": 8, "half": len(file) // 2, "all but a byte": len(file) - 1}
    for words, cut in cuts.items():
        for how, told in (("its length told", None), ("no length told", "none")):
            yield f"cut behind {words}, {how}", {"body": file, "cut": cut, "told": told}
    strip, rows = W * 3 * 7, "<HHIIHHI"
    turns = {"a strip ends before its rows": (struct.pack("<I", strip), struct.pack("<I", strip - 1)),
             "a strip lies behind the file's end": (struct.pack("<I", 8 + 3 + strip + 3), struct.pack("<I", len(file))),
             "a strip is wanting": (struct.pack("<HHI", 273, 4, 4), struct.pack("<HHI", 273, 4, 3)),
             "the rows are more": (struct.pack(rows, 257, 4, 1, H, 258, 3, 3), struct.pack(rows, 257, 4, 1, H + 6, 258, 3, 3)),
             "LZW": (struct.pack("<HHIHH", 259, 3, 1, 1, 0), struct.pack("<HHIHH", 259, 3, 1, 5, 0)),
             "no width": (struct.pack("<HHI", 256, 3, 1), struct.pack("<HHI", 65000, 3, 1))}
    for words, (old, new) in turns.items():
        if old not in file:
            raise ValueError(words)
        yield words, {"body": file.replace(old, new)}
    yield "a PNG", {"body": b"\x89PNG\r\n\x1a\n" + bytes(40)}
    yield "an empty answer", {"body": b""}


def torn(tried, args, folder, pages):
    """Answers that are cut off, or whose file names what isn't there: an error with words, and no picture."""
    picture = pictures.Picture(W, H, 3, 8, False)
    file = pictures.layout(picture, "<", 7, False)
    with Odd() as odd, Browser() as browser:
        browser.start(f"{pages.base}/bare.html", [odd.base])
        for words, told in torn_answers(file):
            odd.given["it"] = told

            def judge():
                said = {way: browser.refused(way, f"{odd.base}/{WORDS}?{len(odd.asked)}") for way in WAYS}
                same(said["img"], "no picture", "img")
                if not said["fetch"].startswith("502 tiff-worker: ") or said["XHR"] != said["fetch"]:
                    raise Failed(str(said))
                return said["fetch"].strip()

            tried.case(f"torn, {words}", judge)
        odd.given["it"] = {"body": file}
        tried.case("torn, whole again", lambda: equal(browser.pixels("img", f"{odd.base}/{WORDS}"), whole(picture)))
        dead = odd.base
    with Browser() as browser:
        browser.start(f"{pages.base}/bare.html")
        tried.case("torn, nobody listens", lambda: browser.refused("fetch", f"{dead}/{WORDS}").strip())


def refusals(tried, args, folder, pages):
    """What the server refuses is handed on, with its status and its line."""
    asks = {"missing/full/max/0/default.jpg": "404 Q4 identifier", "s/9,9,1,1/max/0/default.jpg": "400 Q10 empty",
            "s/full/9,9/0/default.png": "400 Q12 larger", "s/full/%5E9,9/0/default.webp": "501 Q13 upscale",
            "s/full/max/45/default.jpg": "400 Q7 rotation", "s/full/0,/0/gray.jpg": "400 Q11 zero"}
    with Program(args.program, ["s=:sample"], 256) as program, Browser() as browser:
        browser.start(f"{pages.base}/bare.html", [program.base])
        for words, line in asks.items():
            def judge():
                for way in ("fetch", "XHR"):
                    same(browser.refused(way, f"{program.base}/{words}").strip(), line, way)
                same(browser.refused("img", f"{program.base}/{words}"), "no picture", "img")
                return line

            tried.case(f"refusal, {words}", judge)
        info = f"{program.base}/x/info.json"
        line = f"{info}: 404 Q4 identifier"
        tried.case("refusal, of an image that isn't there", lambda: said_of(browser, f"{pages.base}/leaflet.html?info={info}", line))


LEFT_ALONE = ("it/full/max/0/default.tif", "it/full/max/0/default.gif", "it/info.json", "it", "a/b/c/d/photo.jpg",
              "it/full/max/0/native.jpg", "it/1,2,3/max/0/default.jpg", "it/full/wide/0/default.jpg", "it/full/max/left/default.jpg",
              "full/max/0/default.jpg")
TAKEN = {"a%2Fb/full/max/0/default.jpg?key=1": "a%2Fb/full/max/0/default.tif?key=1",
         "x.jpg/pct:1.5,2,3,4/!9,9/!90/gray.png": "x.jpg/pct:1.5,2,3,4/!9,9/!90/gray.tif",
         "it/square/pct%3A50/0.0/bitonal.webp": "it/square/pct%3A50/0.0/bitonal.tif",
         "it/0%2C0%2C9%2C9/,7/180/color.jpg": "it/0%2C0%2C9%2C9/,7/180/color.tif"}


def arrived(browser, odd, address, wanted, method="GET"):
    """That asking for this address brings the server one request, for this path."""
    seen = len(odd.asked)
    browser.run("await fetch(words[0], { method: words[1] }).catch(() => 0);", address, method)
    same(odd.asked[seen:], [wanted], "what arrived")


def passed(browser, odd, address, method="GET"):
    arrived(browser, odd, address, "/" + address.split("/", 3)[3], method)


def bases(tried, args, folder, pages):
    """Servers that the worker was told of, one that it wasn't, and addresses that it leaves alone."""
    picture = pictures.Picture(W, H, 3, 8, False)
    wanted = whole(picture)
    with Odd() as one, Odd() as two, Odd() as other, Browser() as browser:
        for odd in (one, two, other):
            odd.given["it"] = {"body": pictures.layout(picture, "<", 23, False)}
        browser.start(f"{pages.base}/bare.html", [one.base, two.base + "/"])
        for name, odd in (("first", one), ("second", two)):
            tried.case(f"bases, the {name} of two", lambda: equal(browser.pixels("img", f"{odd.base}/{WORDS}"), wanted))
        elsewhere = {"a server that isn't named": (other, f"{other.base}/{WORDS}"), "a path below it": (one, f"{one.base}/more/{WORDS}"),
                     "another path of a server that is": (one, f"http://localhost:{one.port}/even/{WORDS}")}
        for words, (odd, address) in elsewhere.items():
            tried.case(f"bases, {words}", lambda: passed(browser, odd, address))
        for path in LEFT_ALONE:
            tried.case(f"bases, left alone: {path}", lambda: passed(browser, one, f"{one.base}/{path}"))
        tried.case("bases, left alone: POST", lambda: passed(browser, one, f"{one.base}/{WORDS}", "POST"))
        for path, tif in TAKEN.items():
            tried.case(f"bases, taken: {path}", lambda: arrived(browser, one, f"{one.base}/{path}", f"/odd/{tif}"))
        browser.start(f"{pages.base}/bare.html", [])
        tried.case("bases, none named: all are taken", lambda: equal(browser.pixels("img", f"{other.base}/{WORDS}"), wanted))
        browser.start(f"{pages.base}/bare.html", [two.base])
        tried.case("bases, named anew: the last list counts", lambda: passed(browser, one, f"{one.base}/{WORDS}?anew"))

        def again():
            """A worker of another list has to give way to the next."""
            for number in range(8):
                browser.start(f"{pages.base}/bare.html", [(one, two)[number % 2].base])

        tried.case("bases, named anew eight times", again)


def visits(tried, args, folder, pages):
    """The first visit, a reload, one past the worker, and where there can be none."""
    picture = pictures.Picture(W, H, 1, 8, False)
    with Odd() as odd:
        odd.given["it"] = {"body": pictures.layout(picture, "<", 23, False)}

        def shown(browser):
            """The worker waited for and the first picture in one go, and no request for JPEG."""
            seen = len(odd.asked)
            address = f"{odd.base}/{WORDS}?{seen}"
            equal(unpacked(browser.run("await startIiif(); return by.img(words[0]);", address)), whole(picture))
            same([path for path in odd.asked[seen:] if ".tif" not in path], [], "what arrived")

        def free(browser):
            browser.open(f"{pages.base}/own.html")
            same(browser.run("return !navigator.serviceWorker.controller;"), True, "whether a page without iiif.js is free")

        for number in (1, 2, 3):
            with Browser() as browser:
                browser.open(f"{pages.base}/bare.html")
                tried.case(f"visits, the first, browser {number}", lambda: shown(browser))
                if number == 1:
                    browser.driver.refresh()
                    tried.case("visits, the second", lambda: shown(browser))
                    browser.driver.execute_cdp_cmd("Page.reload", {"ignoreCache": True})
                    tried.case("visits, a reload past the worker", lambda: shown(browser))
                    tried.case("visits, another page of the folder isn't touched", lambda: free(browser))
    page = f"leaflet.html?info={pages.base}/info.json"
    with Browser(flags=["--host-resolver-rules=MAP insecure.test 127.0.0.1"]) as browser:
        address = f"http://insecure.test:{pages.port}/viewers/{page}"
        tried.case("visits, neither https nor localhost", lambda: said_of(browser, address, "needs https"))
    with Browser(prefs={"profile.default_content_setting_values.cookies": 2}) as browser:
        words = "refuses the service worker"
        tried.case("visits, the browser stores nothing for sites", lambda: said_of(browser, f"{pages.base}/{page}", words))
