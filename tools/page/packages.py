"""The parts of other packages that the page is made of, and the files that are served."""
import os

HERE = os.path.join(os.path.dirname(os.path.realpath(__file__)), "files")
SHARED = "/usr/share/javascript"
TYPES = {".html": "text/html", ".css": "text/css", ".js": "text/javascript", ".svg": "image/svg+xml"}
OTHERS = {
    "codemirror.js": "codemirror/lib/codemirror.js",
    "codemirror.css": "codemirror/lib/codemirror.css",
    "show-hint.js": "codemirror/addon/hint/show-hint.js",
    "show-hint.css": "codemirror/addon/hint/show-hint.css",
    "matchbrackets.js": "codemirror/addon/edit/matchbrackets.js",
    "closebrackets.js": "codemirror/addon/edit/closebrackets.js",
    "placeholder.js": "codemirror/addon/display/placeholder.js",
    "chart.js": "chart.js/chart.min.js",
}
PACKAGES = {"codemirror": "libjs-codemirror", "chart.js": "libjs-chart.js"}


def missing(shared=SHARED):
    """The Debian packages that have to be installed for the page."""
    absent = {path.split("/")[0] for path in OTHERS.values() if not os.path.isfile(os.path.join(shared, path))}
    return sorted(PACKAGES[name] for name in absent)


def served(shared=SHARED):
    """Each address that is served with its file and its type. No part of an address is ever a part of a path."""
    files = {f"/{name}": os.path.join(HERE, name) for name in os.listdir(HERE)}
    files |= {f"/parts/{name}": os.path.join(shared, path) for name, path in OTHERS.items()}
    files["/"] = files.pop("/page.html")
    return {address: (path, TYPES[os.path.splitext(path)[1]]) for address, path in files.items()}
