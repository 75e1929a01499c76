"""The viewers' pages and their worker in a real browser, beside a plain evaluation of each request.

    /usr/bin/python3 tests/viewers/viewers.py --program crates/iiif_serve/out/iiif_serve

Takes Debian's python3-selenium, chromium, chromium-driver, libjs-leaflet and python-openslide-examples (OpenSeadragon), and listens on
the loopback alone. Where one isn't there it says so, leaves out what needs it, and passes. The groups:

  leaflet        a picture of each kind that the server reads (gray and RGB of 8 and 16 bits, and bits, gray ones also where white is 0; in
                 strips and in tiles; in both byte orders) in Leaflet's page, at each zoom: each tile on a canvas, and the screen, are
                 compared with the exact image of its request
  openseadragon  a picture of each kind in OpenSeadragon's page, at each zoom, panned and turned by quarters: each tile,
                 and the viewer's canvas, are compared with the exact image
  layouts        files that the server wouldn't write, by `img`, `fetch` and XHR
  torn           answers that are cut off, or whose file names what isn't there
  refusals       what the server refuses
  bases          several servers, and what the worker has to leave alone
  visits         the first visit, reloads, and what a page says where there can be no worker
  own            own.html
  others         what the pages for OpenSeadragon and Mirador do beside their libraries

--browser webkit tries WebKitGTK in place of Chromium, by Debian's webkit2gtk-driver under `xvfb-run -a` (xvfb, xauth), and leaves
`visits` and the screen out. --only WORD tries the groups whose name has that word, --viewers FOLDER another folder of pages (such as a
copy with an error planted), and --pictures FOLDER writes a picture of each page that could be run, in place of trying. Prints what it
tried and ends with `N passed, M failed`, status 1 where one failed.
"""
import argparse
import sys
import tempfile

from debian import absent
from judge import Tried
from servers import VIEWERS, Pages


def main():
    parser = argparse.ArgumentParser(description=__doc__, formatter_class=argparse.RawDescriptionHelpFormatter)
    parser.add_argument("--program", required=True)
    parser.add_argument("--viewers", default=VIEWERS)
    parser.add_argument("--only", default="")
    parser.add_argument("--browser", default="chromium", choices=["chromium", "webkit"])
    parser.add_argument("--pictures")
    args = parser.parse_args()
    tried = Tried()
    drivers = ["webkit2gtk-driver"] if args.browser == "webkit" else ["chromium", "chromium-driver"]
    if wanting := absent("python3-selenium", *drivers):
        print(f"no viewer is tried: there is no {wanting}")
        return tried.told()
    # These import selenium.
    from browser import Browser, webkit
    from leaflet import leaflet
    from openseadragon import openseadragon
    from others import others, own, take_pictures
    from worker import bases, layouts, refusals, torn, visits
    groups = [leaflet, openseadragon, layouts, torn, refusals, bases, visits, own, others]
    if args.browser == "webkit":
        Browser.start_one = staticmethod(webkit)
        groups.remove(visits)
    with tempfile.TemporaryDirectory() as folder, Pages(args.viewers) as pages:
        if args.pictures:
            take_pictures(args, folder, pages)
            return 0
        for group in groups:
            if args.only in group.__name__:
                group(tried, args, folder, pages)
    return tried.told()


if __name__ == "__main__":
    sys.exit(main())
