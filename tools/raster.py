"""Makes a PNG of an SVG picture, by a program of the system, for tools/picture.

It takes rsvg-convert (Debian's package librsvg2-bin) where it is installed, else Chromium.
"""
import os
import re
import shutil
import subprocess
import tempfile

import listing

BROWSERS = ("chromium", "chromium-browser", "google-chrome")
MISSING = "a PNG needs rsvg-convert (Debian's package librsvg2-bin) or Chromium, and neither is installed"
SIZE = re.compile(r'<svg [^>]*?width="([0-9.]+)" height="([0-9.]+)"')
PNG = b"\x89PNG\r\n"
# How many seconds a program has.
LONGEST = 120


def png_of(svg: str) -> bytes:
    """The picture as a PNG, as many px large as the SVG."""
    converter = shutil.which("rsvg-convert")
    if converter:
        return made_by([converter], svg.encode("utf-8"))
    browser = find_browser()
    if browser is None:
        raise listing.InputError(MISSING)
    return by_browser(browser, svg)


def find_browser() -> str | None:
    """The path of a browser that is installed."""
    for name in BROWSERS:
        path = shutil.which(name)
        if path:
            return path
    return None


def made_by(command: list[str], data: bytes) -> bytes:
    """What a program writes for an input, which has to be a PNG."""
    try:
        ran = subprocess.run(command, input=data, stdout=subprocess.PIPE, stderr=subprocess.DEVNULL, timeout=LONGEST, check=False)
    except (OSError, subprocess.TimeoutExpired) as error:
        raise listing.InputError(f"{command[0]}: {error}") from None
    if not ran.stdout.startswith(PNG):
        raise listing.InputError(f"{command[0]} made no PNG of the picture, and ended with the status {ran.returncode}")
    return ran.stdout


def browser_words(folder: str) -> list[str]:
    """The words with which a browser runs without a window, with its files in a folder."""
    # The browser's sandbox refuses to run as root.
    unguarded = ["--no-sandbox"] if os.geteuid() == 0 else []
    return ["--headless", "--disable-gpu", f"--user-data-dir={folder}/profile", *unguarded]


def by_browser(browser: str, svg: str) -> bytes:
    """A photograph of the picture in a browser."""
    found = SIZE.search(svg)
    width, height = (int(float(size) + 0.999) for size in found.groups()) if found else (800, 600)
    with tempfile.TemporaryDirectory(prefix="picture-") as folder:
        page, photograph = os.path.join(folder, "page.html"), os.path.join(folder, "page.png")
        with open(page, "w", encoding="utf-8") as file:
            file.write(f'<!DOCTYPE html><meta charset="utf-8"><body style="margin:0">{svg}')
        words = ["--hide-scrollbars", f"--window-size={width},{height}", f"--screenshot={photograph}", f"file://{page}"]
        try:
            subprocess.run([browser, *browser_words(folder), *words], timeout=LONGEST, check=False, capture_output=True)
            with open(photograph, "rb") as file:
                return file.read()
        except (OSError, subprocess.TimeoutExpired) as error:
            raise listing.InputError(f"{browser} made no PNG of the picture: {error}") from None
