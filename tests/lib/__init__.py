"""Fixtures of the tests in Python: `tiff` writes files, `server` runs the program and asks it. They need Python alone.

A test puts the folder `tests` on its path, and then imports them:

    sys.path.insert(0, os.path.join(os.path.dirname(os.path.abspath(__file__)), ".."))
    from lib import server, tiff
"""
