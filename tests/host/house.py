"""One small tree, made by the same calls behind the guard and on the machine, and paths of every kind into it."""

DIRECTORY, FILE = "directory", "file"
DEEP = "/" + "/".join(["d" * 31] * 7)  # 224 bytes

# in the order of their making, with their modes: 4 read, 2 write, 1 search
NODES = [
    ("/full", DIRECTORY, 7), ("/full/x", FILE, 7), ("/empty", DIRECTORY, 7), ("/file", FILE, 7),
    ("/mute", FILE, 0), ("/reads", FILE, 4), ("/writes", FILE, 2), ("/" + "o" * 32, FILE, 7),
    ("/shut", DIRECTORY, 6), ("/shut/x", FILE, 7), ("/shut/empty", DIRECTORY, 7),
    ("/kept", DIRECTORY, 5), ("/kept/x", FILE, 7), ("/kept/empty", DIRECTORY, 7),
    ("/kept/full", DIRECTORY, 7), ("/kept/full/x", FILE, 7), ("/blind", DIRECTORY, 3),
    *((DEEP[: 32 * n], DIRECTORY, 7) for n in range(1, 8)), (DEEP + "/" + "p" * 30, FILE, 7),
]

PATHS = {
    "missing": "/missing", "below missing": "/missing/x", "file": "/file", "below a file": "/file/x",
    "full": "/full", "in full": "/full/x", "empty": "/empty", "root": "/",
    "no bits": "/mute", "read only": "/reads", "write only": "/writes", "unreadable": "/blind",
    "unsearchable": "/shut", "barred file": "/shut/x", "barred empty": "/shut/empty", "barred missing": "/shut/y",
    "kept file": "/kept/x", "kept missing": "/kept/y", "kept empty": "/kept/empty", "kept full": "/kept/full",
    "32": "/" + "o" * 32, "32 missing": "/" + "n" * 32, "33": "/" + "n" * 33,
    "33 below missing": "/missing/" + "n" * 33, "33 below a file": "/file/" + "n" * 33,
    "255": DEEP + "/" + "p" * 30, "255 missing": DEEP + "/" + "n" * 30, "256": DEEP + "/" + "n" * 31,
    "no path": "", "relative": "file", "file and slash": "/file/", "directory and slash": "/empty/",
    "missing and slash": "/missing/", "two slashes": "//full", "slashes within": "/full//x",
    "dot": "/.", "dot within": "/./file", "dots": "/full/..",
}


def build(files):
    """Modes last, and the deepest first, so that all can be made and reached."""
    for path, kind, _ in NODES:
        files.create(path) if kind == FILE else files.mkdir(path)
    for path, _, mode in reversed(NODES):
        files.chmod(path, mode)
