"""What the tests take from Debian, and what of it isn't there."""
import os

# The file or folder of each package by which it is found.
PACKAGES = {"python3-selenium": "/usr/lib/python3/dist-packages/selenium", "chromium": "/usr/bin/chromium",
            "chromium-driver": "/usr/bin/chromedriver", "webkit2gtk-driver": "/usr/bin/WebKitWebDriver",
            "libjs-leaflet": "/usr/share/javascript/leaflet",
            "python-openslide-examples": "/usr/share/doc/python-openslide-examples/examples/deepzoom/static"}
# The package of each library, by the folder in which a page looks for it.
LIBRARIES = {"leaflet": "libjs-leaflet", "openseadragon": "python-openslide-examples"}


def absent(*packages):
    """Which of these packages aren't there, in words; nothing where all are."""
    return ", ".join(f"{package} ({PACKAGES[package]})" for package in packages if not os.path.exists(PACKAGES[package]))


def library_file(name):
    """The file of a library that a page asks for as FOLDER/NAME, or None where the folder is no library's."""
    folder, _, rest = name.partition("/")
    return os.path.join(PACKAGES[LIBRARIES[folder]], rest) if folder in LIBRARIES else None
