"""Opens pages in a real browser, Debian's Chromium without a window, and looks at what stands there and happens."""
import base64
import hashlib
import json
import os
import pathlib
import re
import shutil
import subprocess
import tempfile

CHROMIUM = shutil.which("chromium")
PROBE = pathlib.Path(__file__).with_name("probe.js")
FLAGS = ("--headless", "--no-sandbox", "--disable-gpu", "--disable-background-networking", "--no-first-run",
         "--enable-logging=stderr", "--virtual-time-budget=20000")
DARK = "--blink-settings=preferredColorScheme=0"
SECONDS = 120


def with_probe(text):
    """A page with a script of the tests behind its own, which its policy then allows."""
    script = PROBE.read_text()
    allowed = "sha256-" + base64.b64encode(hashlib.sha256(script.encode()).digest()).decode()
    text = text.replace("; base-uri", f" '{allowed}'; base-uri", 1)
    return text.replace("</body>", f"<script>{script}</script></body>", 1)


def framed(room, width):
    """A page around another that is as narrow as is asked: no window of the browser is narrower than 500 pixels."""
    path = os.path.join(room, "frame.html")
    pathlib.Path(path).write_text(f"""<!DOCTYPE html><iframe width="{width}" height="900" style="border:0"></iframe><script>
        document.querySelector("iframe").src = "page.html" + location.hash;
        addEventListener("message", (event) => {{ const answer = document.createElement("script");
        answer.type = "application/json"; answer.id = "found"; answer.textContent = event.data; document.body.append(answer); }});
        </script>""")
    return path


def opened(text, *flags, width=1200):
    """What the probe found on a page: the names of its checks, each with what was wrong, or ''."""
    with tempfile.TemporaryDirectory() as room:
        page = os.path.join(room, "page.html")
        pathlib.Path(page).write_text(with_probe(text))
        page = framed(room, width) if width < 500 else page
        words = [CHROMIUM, *FLAGS, f"--user-data-dir={room}/user", f"--window-size={max(width, 500)},900"]
        address = f"file://{page}#{width},{'dark' if DARK in flags else 'light'}"
        ran = subprocess.run([*words, *flags, "--dump-dom", address], capture_output=True, text=True, timeout=SECONDS)
    found = re.search(r'<script type="application/json" id="found">(.*?)</script>', ran.stdout, re.S)
    if not found:
        return {"the probe's answer": f"none: {ran.stderr[-300:]}"}
    checks = json.loads(found[1])
    complaints = [line for line in ran.stderr.splitlines() if "CONSOLE" in line]
    return checks | {"no complaint on the console": " ".join(complaints)[:300]}


def cases(pages):
    """What is found of pages, each with its name: on a wide screen, in the dark, and at 360 pixels."""
    for name, text in pages.items():
        for how, flags, width in (("wide", (), 1200), ("dark", (DARK,), 1200), ("360 pixels", (), 360)):
            for what, wrong in opened(text, *flags, width=width).items():
                yield f"{name}, {how}: {what}", not wrong, wrong
