"""The page that decodes TIFF itself, those for OpenSeadragon and Mirador beside their libraries, and pictures."""
import math
import os
import struct
import sys

import pictures
from browser import Browser, unpacked
from judge import Failed, equal, said_of, same
from leaflet import EDGE, LOADED, H, W, pressed
from servers import Program
from worker import WORDS, whole

sys.path.insert(0, os.path.join(os.path.dirname(os.path.abspath(__file__)), ".."))
from lib import tiff  # noqa: E402

CALLED = "window.told = [!!navigator.serviceWorker.controller, ...told];"
STAND_INS = {"openseadragon/openseadragon.js": f"window.OpenSeadragon = (...told) => {{ {CALLED} return {{ addHandler() {{}} }}; }};",
             "mirador/mirador.min.js": f"window.Mirador = {{ viewer: (...told) => {{ {CALLED} }} }};"}
DECODED = "return pixels(await createImageBitmap(decoded((await ask(words[0])).body).image));"


def own(tried, args, folder, pages):
    """The page that decodes TIFF by itself: its decoder on each kind, and that it draws."""
    images, made = [], list(pictures.kinds(W, H))
    for number, picture in enumerate(made):
        with open(path := os.path.join(folder, f"own{number}.tif"), "wb") as file:
            file.write(picture.file("<", tile=48))
        images.append(f"p{number}={path}")
    with Program(args.program, images, EDGE) as program, Browser() as browser:
        for number, picture in enumerate(made):
            base = f"{program.base}/p{number}"

            def judge():
                browser.open(f"{pages.base}/own.html?info={base}/info.json")
                for quality in ("default", "bitonal"):
                    found = unpacked(browser.run(DECODED, f"{base}/full/max/0/{quality}.tif"))
                    equal(found, (W, H, picture.shown(0, 0, W, H, W, H, quality)), quality)
                browser.wait("the canonical URI", lambda: browser.text("#uri") or None)
                same(browser.text("#fault"), "", "what the page says is wrong")
                width, height, data = unpacked(browser.run("return pixels(canvas);"))
                if len(set(struct.unpack(f"{width * height}I", data))) < 3:
                    raise Failed("the canvas is blank")
                return browser.text("#uri").removeprefix(program.base)

            tried.case(f"own, {picture.kind}", judge)


def others(tried, args, folder, pages):
    """What the pages do before and beside their library, which is a stand-in of one line here; Debian has no Mirador."""
    picture = pictures.Picture(W := 37, H := 23, 3, 8, False)
    with open(path := os.path.join(folder, "other.tif"), "wb") as file:
        file.write(picture.file("<"))
    with Program(args.program, [f"it={path}"], EDGE) as program, Browser() as browser:
        info, words = f"{program.base}/it/info.json", "set LIBRARY in this page"
        pages.stand_ins.update(dict.fromkeys(STAND_INS))
        for page in ("openseadragon", "mirador"):
            tried.case(f"others, {page} without its library", lambda: said_of(browser, f"{pages.base}/{page}.html?info={info}", words))
        pages.stand_ins.update(STAND_INS)

        def told(address):
            browser.open(address)
            controlled, words = browser.wait("the viewer to be called", lambda: browser.run("return window.told;"))
            same((controlled, browser.text("#fault")), (True, ""), "whether the worker controls the page first")
            return words

        def openseadragon():
            same(told(f"{pages.base}/openseadragon.html?info={info}")["tileSources"], [info], "tileSources")
            equal(browser.pixels("img", f"{program.base}/{WORDS}"), whole(picture))

        def mirador():
            address = told(f"{pages.base}/mirador.html?info={info}")["windows"][0]["manifestId"]
            made = browser.run("return (await fetch(words[0])).json();", address)
            body = made["items"][0]["items"][0]["items"][0]["body"]
            service = [{"id": f"{program.base}/it", "type": "ImageService3", "profile": "level0"}]
            same((made["type"], body["service"], body["width"], body["height"]), ("Manifest", service, W, H), "the manifest")
            equal(browser.pixels("img", body["id"]), whole(picture))

        def manifest():
            """The server of the test is none of the page's BASES, so it is left alone and refuses JPEG."""
            same(told(f"{pages.base}/mirador.html?manifest=x.json")["windows"], [{"manifestId": "x.json"}], "windows")
            same(browser.refused("fetch", f"{program.base}/{WORDS}").strip(), "400 Q9 format", "what came")

        tried.case("others, openseadragon by a stand-in", openseadragon)
        tried.case("others, mirador by a stand-in, of an image", mirador)
        tried.case("others, mirador by a stand-in, of a manifest", manifest)
        pages.stand_ins.clear()


LAND = [(86, 134, 110), (120, 160, 110), (160, 184, 118), (200, 200, 136),
        (216, 190, 134), (200, 160, 110), (176, 132, 98), (224, 216, 208)]


def scene(width, height):
    """Something to look at for the pictures of the pages: a land of eight heights with lines between them, as one strip."""
    across, down = ([math.sin(x / 137) for x in range(width)], [math.cos(y / 109) for y in range(height)])
    slant = [math.sin(n / 233) + math.sin(n / 61) / 3 for n in range(width + height)]

    def color(rise):
        step, rest = divmod(rise, 1)
        return bytes(part - 50 * (rest < 0.06) for part in LAND[int(step)])

    colors = [color(n / 100) for n in range(800)]
    data = b"".join(colors[int(116 * (across[x] + down[y] + slant[x + y] + 3.34))] for y in range(height) for x in range(width))
    return tiff.encode_pieces(width, height, [data], channels=3, strip=height)


def take_pictures(args, folder, pages):
    """A PNG of each page that could be run."""
    with open(path := os.path.join(folder, "scene.tif"), "wb") as file:
        file.write(scene(1600, 1200))
    there = {"leaflet": LOADED, "openseadragon": "return viewer?.world.getItemAt(0)?.getFullyLoaded() || null;",
             "own": "return document.getElementById('uri').textContent && !asked && !waiting;"}
    with Program(args.program, [f"scene={path}"], 256) as program, Browser(size="960,760") as browser:
        for page, script in there.items():
            browser.open(f"{pages.base}/{page}.html?info={program.base}/scene/info.json")
            browser.wait("the page", lambda: browser.run(script) or None, 60)
            if page == "leaflet":
                pressed(browser, "in")
            browser.run("await new Promise((resolve) => setTimeout(resolve, 1000));")
            browser.wait("the page", lambda: browser.run(script) or None, 60)
            with open(out := os.path.join(args.pictures, f"viewer-{page}.png"), "wb") as file:
                file.write(browser.driver.get_screenshot_as_png())
            print(out, os.path.getsize(out), "bytes")
