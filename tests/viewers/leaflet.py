"""Leaflet's page: each tile of each zoom, on a canvas and on the screen, beside the exact image of its request."""
import os

import pictures
from browser import Browser, unpacked
from debian import absent
from judge import Failed, equal, same
from servers import Program

W, H, EDGE = 203, 151, 64
LOADED = """const tiles = [...document.querySelectorAll(".leaflet-tile")];
    const settled = (tile) => tile.complete && getComputedStyle(tile).opacity === "1";
    if (document.querySelector(".leaflet-zoom-anim") || !tiles.every(settled)) return null;
    const placed = (tile) => { const { x, y, width, height } = tile.getBoundingClientRect(); return [tile.src, x, y, width, height]; };
    return tiles.map(placed);"""
CANVAS = """const tiles = [...document.querySelectorAll(".leaflet-tile")].filter((tile) => words[0].includes(tile.src));
    return tiles.map((tile) => [tile.src, ...pixels(tile)]);"""
STATE = """const tiles = [...document.querySelectorAll(".leaflet-tile")], moving = !!document.querySelector(".leaflet-zoom-anim");
    return [moving, tiles.map((tile) => `${tile.src} ${tile.complete} ${getComputedStyle(tile).opacity} ${tile.className}`)];"""
# A press while the map moves is lost, so that each waits until its own movement has begun and ended.
PRESS = """const button = document.querySelector(".leaflet-control-zoom-" + words[0]);
    if (button.classList.contains("leaflet-disabled")) return false;
    button.click();
    for (const moving of [true, false]) {
      const end = Date.now() + 10000;
      while (!!document.querySelector(".leaflet-zoom-anim") !== moving) {
        if (Date.now() > end) throw new Error("the map " + (moving ? "doesn't move" : "moves on"));
        await new Promise((resolve) => setTimeout(resolve, 5));
      }
    }
    return true;"""


def wanted_tiles(base, picture, edge, factor, quality):
    """Each tile's address at a scale factor: its place in the grid, and its pixels."""
    wanted = {}
    for place, rect, (w, h) in pictures.tiles(picture.width, picture.height, edge, factor):
        address = f"{base}/{','.join(map(str, rect))}/{w},{h}/0/{quality}.jpg"
        wanted[address] = place, (w, h, picture.shown(*rect, w, h, quality))
    return wanted


def looked_at(browser, wanted):
    """The tiles of this zoom once they are there: where each stands. Those of the zoom before may still lie below them."""
    def there():
        found = {tile[0]: tile[1:] for tile in browser.run(LOADED) or ()}
        return {address: found[address] for address in wanted} if set(wanted) <= set(found) else None

    try:
        return browser.wait(f"{len(wanted)} tiles of the zoom", there)
    except Failed as failed:
        raise Failed(f"{failed}; there are {browser.run(STATE)}") from None


def canvas_equals(browser, wanted):
    for address, *found in browser.run(CANVAS, list(wanted)):
        equal(unpacked(found), wanted[address][1], f"the canvas of {address}")


def screen_equals(browser, wanted, where, edge):
    """That each tile stands at its place in the grid, and the screen shows its pixels there."""
    width, height, screen = browser.screen("#map")
    places = {wanted[address][0]: corner for address, corner in where.items()}
    left, top = places[0, 0][:2]
    for address, ((column, row), (w, h, data)) in wanted.items():
        x, y, shown_w, shown_h = where[address]
        same((x - left, y - top, shown_w, shown_h), (column * edge, row * edge, w, h), f"the place of {address}")
        if x < 0 or y < 0 or x + w > width or y + h > height or x % 1 or y % 1:
            raise Failed(f"{address} isn't wholly on the screen: {x},{y}")
        rows = [screen[4 * ((int(y) + n) * width + int(x)):][:4 * w] for n in range(h)]
        equal((w, h, b"".join(rows)), (w, h, data), f"the screen of {address}")


def pressed(browser, which):
    """Leaflet's own button, `in` or `out`, and whether it had an effect."""
    return browser.run(PRESS, which)


def through_zooms(tried, browser, base, picture, name, quality="default", edge=EDGE):
    """The page at its nearest zoom, which has the tiles of the factor 1, and then farther and farther away."""
    wanted = wanted_tiles(base, picture, edge, 1, quality)
    while True:
        looked_at(browser, wanted)
        if not pressed(browser, "in"):
            break
    zooms = [1, 1, *pictures.factors(picture.width, picture.height, edge)]  # two beyond the image's own size
    for number, factor in enumerate(zooms):
        wanted, screen = wanted_tiles(base, picture, edge, factor, quality), number >= 2 and browser.sees_screen

        def judge():
            where = looked_at(browser, wanted)
            canvas_equals(browser, wanted)
            if screen:
                screen_equals(browser, wanted, where, edge)
            same(browser.text("#fault"), "", "what the page says is wrong")
            return f"{len(wanted)} tiles" + (" and the screen" if screen else "")

        tried.case(f"leaflet, {name}, zoom {len(zooms) - 1 - number}, factor {factor}", judge)
        pressed(browser, "out")


def leaflet(tried, args, folder, pages):
    """Each kind of source at each zoom, and other qualities."""
    if wanting := absent("libjs-leaflet"):
        print(f"leaflet isn't tried: there is no {wanting}")
        return
    made, images = {}, []
    for number, picture in enumerate(pictures.kinds(W, H)):
        for cut in ("strips", "tiles"):
            order, name = "<>"[(number + (cut == "tiles")) % 2], f"p{number}{cut}"
            made[name] = picture, f"{picture.kind}, {cut}, {pictures.named(order)}"
            with open(path := os.path.join(folder, name + ".tif"), "wb") as file:
                file.write(picture.file(order, tile=48 if cut == "tiles" else 0))
            images.append(f"{name}={path}")
    others = ("p4tiles", "bitonal"), ("p4tiles", "gray"), ("p5strips", "bitonal"), ("p1tiles", "bitonal"), ("p6strips", "bitonal")
    with Program(args.program, images, EDGE) as program, Browser() as browser:
        for name, quality in [*((name, "default") for name in made), *others]:
            picture, words = made[name]
            browser.open(f"{pages.base}/leaflet.html?info={program.base}/{name}/info.json&quality={quality}")
            told = words if quality == "default" else f"{words}, {quality}"
            through_zooms(tried, browser, f"{program.base}/{name}", picture, told, quality)
