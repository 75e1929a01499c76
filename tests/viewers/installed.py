"""The pages of an installed package, through its proxy, in a real browser. packaging/check calls it.

    tests/viewers/installed.py --make FOLDER     writes the scans one.tif, two.tif and wide.tif there
    tests/viewers/installed.py --site https://localhost:8443 [--crowd SIDE]

Goes through each zoom of the scans `one` and `two` in Leaflet's page and compares tiles and screen with the exact image, opens own.html,
and registers the worker for another folder of the host. With --crowd it asks for 100 different overviews of `wide` at once in place of
these, each of a region with this side and more, and each has to come with 200. Any certificate will do. Ends with `N passed, M failed`,
status 1 where one failed.
"""
import argparse
import collections
import http.client
import os
import ssl
import sys
import threading
from urllib.parse import urlsplit

import pictures
from browser import Browser
from judge import Failed, Tried, same
from leaflet import through_zooms

sys.path.insert(0, os.path.join(os.path.dirname(os.path.abspath(__file__)), ".."))
from lib import tiff  # noqa: E402

EDGE = 256  # as the service has it
SCANS = {"one": pictures.Picture(600, 400, 3, 8, False, 1), "two": pictures.Picture(520, 300, 1, 16, True, 2)}


def wide(side=2048):
    """Gray in tiles of 256 that all stand at one place of the file, so that it is small and its overviews take long."""
    return tiff.encode_repeated(side, side, bytes((x * 7 + y * 3) & 255 for y in range(256) for x in range(256)))


def make(folder):
    for name, data in {"one": SCANS["one"].file("<", tile=256), "two": SCANS["two"].file(">", strip=16), "wide": wide()}.items():
        with open(os.path.join(folder, name + ".tif"), "wb") as file:
            file.write(data)


def pages(tried, site):
    with Browser(flags=["--ignore-certificate-errors"], size="2600,1900") as browser:
        for name, picture in SCANS.items():
            browser.open(f"{site}/viewers/leaflet.html?info={site}/iiif/{name}/info.json")
            through_zooms(tried, browser, f"{site}/iiif/{name}", picture, f"{name}: {picture.kind}", edge=EDGE)

            def own():
                browser.open(f"{site}/viewers/own.html?info={site}/iiif/{name}/info.json")
                browser.wait("the canonical URI", lambda: browser.text("#from") or None)
                same((browser.text("#fault"), browser.text("#from")), ("", "(the server's Link field)"), "what the page says")

            tried.case(f"own, {name}", own)

        def other():
            """Service-Worker-Allowed: a page outside of the folder may use the worker."""
            browser.open(f"{site}/iiif/one/info.json")
            return browser.run("return (await navigator.serviceWorker.register('/viewers/tiff-worker.js', { scope: '/iiif/' })).scope;")

        tried.case("the worker for pages elsewhere on the host", other)


def crowd(tried, site, side, count=100):
    host, got, meet = urlsplit(site).netloc, collections.Counter(), threading.Barrier(count)

    def one(number):
        link = http.client.HTTPSConnection(host, context=ssl._create_unverified_context(), timeout=120)
        link.connect()
        meet.wait()
        try:
            target = f"/iiif/wide/{number},{number},{side + number},{side + number}/64,64/0/default.tif"
            link.request("GET", target, headers={"Cookie": "a" * 4500, "X-Other": "b" * 4500}) # which the server would refuse
            answer = link.getresponse()
            got[answer.status, len(answer.read())] += 1
        except (OSError, http.client.HTTPException) as error:
            got[type(error).__name__, 0] += 1

    threads = [threading.Thread(target=one, args=(number,)) for number in range(count)]
    for thread in threads:
        thread.start()
    for thread in threads:
        thread.join()

    def judge():
        if dict(got) != {(200, 64 * 64 + 174): count}:
            raise Failed(str(dict(got)))

    tried.case(f"{count} different overviews at once: {count} times 200", judge)


def main():
    parser = argparse.ArgumentParser(description=__doc__, formatter_class=argparse.RawDescriptionHelpFormatter)
    parser.add_argument("--make")
    parser.add_argument("--site")
    parser.add_argument("--crowd", type=int)
    args = parser.parse_args()
    if args.make:
        make(args.make)
        return 0
    tried = Tried()
    if args.crowd:
        crowd(tried, args.site, args.crowd)
    else:
        pages(tried, args.site)
    return tried.told()


if __name__ == "__main__":
    sys.exit(main())
