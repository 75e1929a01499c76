"""OpenSeadragon's page: each tile, and what the viewer's canvas shows at each zoom, panned and turned, beside the exact image.

OpenSeadragon draws each tile a pixel wider and higher than it is, so that no seam shows. A place of the canvas therefore has the pixel of
the source at this place, or of the one before it, by each axis; the tiles themselves are compared as they are.
"""
import os

import pictures
from browser import Browser, unpacked
from debian import absent
from judge import Failed, equal, same
from servers import Program

W, H, EDGE = 103, 77, 32
VIEW = 160, 120  # both even, so that a turn about the middle takes pixels to pixels
# No smoothing: a pixel of the canvas is one of the source. At least a pixel of the screen for each of a tile: a zoom of 1/4 shows the factor 4.
START = """const [width, height] = words, view = document.getElementById("view");
    if (!viewer?.world.getItemCount()) return null;
    Object.assign(view.style, { width: `${width}px`, height: `${height}px` });
    const { x, y } = viewer.viewport.getContainerSize();
    if (x !== width || y !== height) return null;
    viewer.drawer.setImageSmoothingEnabled(false);
    viewer.world.getItemAt(0).minPixelRatio = 0.9;
    return OpenSeadragon.version.versionStr;"""
# The image's upper left corner to this place of the canvas as it is before the turn.
MOVE = """const [zoom, left, top, degrees] = words, { viewport } = viewer, { x, y } = viewport.getContainerSize();
    viewport.setRotation(degrees);
    viewport.zoomTo(viewport.imageToViewportZoom(zoom), null, true);
    viewport.panTo(viewport.imageToViewportCoordinates((x / 2 - left) / zoom, (y / 2 - top) / zoom), true);"""
# At rest: all tiles there, no spring moving, and two frames drawn since.
REST = """const item = viewer.world.getItemAt(0), { viewport } = viewer;
    const [now, then] = [viewport.getCenter(true), viewport.getCenter(false)];
    if (!item.getFullyLoaded() || now.x !== then.x || now.y !== then.y || viewport.getZoom(true) !== viewport.getZoom(false)) return null;
    for (const _ of [1, 2]) await new Promise(requestAnimationFrame);
    if (!item.getFullyLoaded() || viewer.world.needsDraw()) return null;
    return item.lastDrawn.map((tile) => [tile.level, tile.url]);"""
CANVAS = "return pixels(viewer.drawer.canvas);"
TILES = """const wanted = new Set(words[0]), drawn = viewer.world.getItemAt(0).lastDrawn.filter((tile) => wanted.has(tile.url));
    return drawn.map((tile) => [tile.url, ...pixels((tile.context2D ?? tile.cacheImageRecord.getRenderedContext()).canvas)]);"""


class Level:
    """The image at a scale factor: its tiles by the address that OpenSeadragon asks for, and all of them in one."""

    def __init__(self, base, picture, edge, factor):
        self.width, self.height = -(-picture.width // factor), -(-picture.height // factor)
        self.exact = picture.width / factor, picture.height / factor
        self.tiles, self.rows = {}, [bytearray(4 * self.width) for _ in range(self.height)]
        for (column, row), rect, (w, h) in pictures.tiles(picture.width, picture.height, edge, factor):
            whole = rect == (0, 0, picture.width, picture.height)
            region = "full" if whole else ",".join(map(str, rect))
            size = "max" if whole and factor == 1 else f"{w},{h}"
            data = picture.shown(*rect, w, h)
            self.tiles[f"{base}/{region}/{size}/0/default.jpg"] = w, h, data
            for y in range(h):
                self.rows[row * edge + y][4 * column * edge:4 * (column * edge + w)] = data[4 * w * y:4 * w * (y + 1)]

    def at(self, x, y):
        """The pixel at this place; none beyond the image."""
        return bytes(self.rows[y][4 * x:4 * x + 4]) if 0 <= x < self.width and 0 <= y < self.height else None


def unturned(x, y, width, height, degrees):
    """Where a place of the canvas lies before it is turned clockwise about its middle."""
    right, down = x - width / 2, y - height / 2
    for _ in range(degrees // 90):
        right, down = down, -right
    return right + width / 2, down + height / 2


def canvas_equals(found, level, scale, left, top, degrees):
    """That each place of the canvas shows the source, where the image's corner is at left, top and each pixel of it has this side."""
    width, height, data = found
    same((width, height), VIEW, "the canvas")
    seen = 0
    for y in range(height):
        for x in range(width):
            across, down = unturned(x + 0.5, y + 0.5, width, height, degrees)
            u, v = (across - left) / scale, (down - top) / scale
            got = data[4 * (y * width + x):][:4]
            if 0 <= u < int(level.exact[0]) and 0 <= v < int(level.exact[1]):
                near = [level.at(int(a), int(b)) for a in (u, u - 1 / scale) for b in (v, v - 1 / scale)]
                if got not in near:
                    raise Failed(f"the canvas at {x},{y} has {tuple(got)}, not {tuple(near[0])} of {int(u)},{int(v)}, nor one before it")
                seen += 1
            elif (u < -1 or v < -1 or u > level.width + 2 / scale or v > level.height + 2 / scale) and any(got):
                raise Failed(f"the canvas at {x},{y}, beyond the image, has {tuple(got)}")
    if not seen:
        raise Failed("the image isn't on the canvas")
    return seen


def rest(browser):
    return browser.wait("OpenSeadragon to rest", lambda: browser.run(REST))


def shows(browser, level, scale, left, top, degrees=0):
    """What the canvas shows at rest, and each tile that is drawn there: in words."""
    drawn = {url for _, url in rest(browser) if url in level.tiles}
    tiles = browser.run(TILES, sorted(drawn))
    for address, *found in tiles:
        equal(unpacked(found), level.tiles[address], f"the tile {address}")
    seen = canvas_equals(unpacked(browser.run(CANVAS)), level, scale, left, top, degrees)
    same(browser.text("#fault"), "", "what the page says is wrong")
    return f"{len(tiles)} tiles, and {seen} pixels of the canvas"


def through_views(tried, browser, base, picture, name):
    """The page at each zoom and turned by 90; of RGB panned and turned further, too."""
    levels = {factor: Level(base, picture, EDGE, factor) for factor in pictures.factors(picture.width, picture.height, EDGE)}

    def case(words, factor, scale, left, top, degrees=0):
        def judge():
            browser.run(MOVE, scale / factor, left, top, degrees)
            return shows(browser, levels[factor], scale, left, top, degrees)

        tried.case(f"openseadragon, {name}, {words}", judge)

    for factor in levels:
        case(f"zoom 1/{factor}", factor, 1, 20, 10)
    case("turned by 90", 1, 1, 30, 20, 90)
    if picture.channels == 1:
        return
    case("panned beyond two edges", 1, 1, -41, -30)
    for degrees in (180, 270):
        case(f"turned by {degrees}", 1, 1, 30, 20, degrees)
    case("turned by 90, zoom 1/2", 2, 1, 50, 40, 90)


def openseadragon(tried, args, folder, pages):
    """Each kind of source in Debian's OpenSeadragon, as it comes."""
    if wanting := absent("python-openslide-examples"):
        print(f"openseadragon isn't tried: there is no {wanting}")
        return
    made, images = {}, []
    for number, picture in enumerate(pictures.kinds(W, H)):
        made[name := f"o{number}"] = picture
        with open(path := os.path.join(folder, name + ".tif"), "wb") as file:
            file.write(picture.file("<>"[number % 2], tile=48 if number % 2 else 0))
        images.append(f"{name}={path}")
    with Program(args.program, images, EDGE) as program, Browser() as browser:
        for name, picture in made.items():
            browser.open(f"{pages.base}/openseadragon.html?info={program.base}/{name}/info.json")
            version = browser.wait("OpenSeadragon", lambda: browser.run(START, *VIEW))
            through_views(tried, browser, f"{program.base}/{name}", picture, f"{version}, {picture.kind}")
