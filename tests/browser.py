"""Debian's Chromium, headless: a page as it stands once its script ran, what it says on its console, pictures, and what a look at it finds."""
from __future__ import annotations

import html
import os
import re
import shutil
import subprocess
import tempfile
from typing import NamedTuple, Sequence

BROWSER = shutil.which("chromium")
# Seconds that a page may take.
PATIENCE = 120
# So many pixels of a window's height aren't the page's.
FRAME = 90

PROBE = r"""<script>
(function () {
  const folded = Array.from(document.querySelectorAll('details'));
  const named = folded.map(d => d.getAttribute('name'));
  folded.forEach(d => { d.removeAttribute('name'); d.open = true; });
  const clipped = e => e.closest('svg, .map, .skip, .kind em, .matrix thead span, summary > span, table.counts');
  const wide = Array.from(document.querySelectorAll('body *')).filter(e => e.getBoundingClientRect().right > innerWidth + 1 && !clipped(e)).length +
    (document.documentElement.scrollWidth > innerWidth ? 1 : 0);
  const parts = c => c.match(/[\d.]+/g).map(Number);
  // Relative luminance and contrast, as WCAG 2 has them.
  const light = c => {
    const v = c.slice(0, 3).map(x => { x /= 255; return x <= 0.03928 ? x / 12.92 : Math.pow((x + 0.055) / 1.055, 2.4); });
    return 0.2126 * v[0] + 0.7152 * v[1] + 0.0722 * v[2];
  };
  const back = e => {
    for (; e; e = e.parentElement) {
      const c = parts(getComputedStyle(e).backgroundColor);
      if (c.length === 3 || c[3] > 0) return c;
    }
    return [255, 255, 255];
  };
  let least = 99;
  for (const e of document.querySelectorAll('body *')) {
    const said = Array.from(e.childNodes).some(n => n.nodeType === 3 && n.textContent.trim() !== '');
    if (!said || e.tagName === 'SCRIPT' || e.closest('svg')) continue;
    const a = light(parts(getComputedStyle(e).color)), b = light(back(e));
    least = Math.min(least, (Math.max(a, b) + 0.05) / (Math.min(a, b) + 0.05));
  }
  const still = Array.from(document.querySelectorAll('input, select, button, summary, [role=button]')).filter(e => e.tabIndex < 0).length;
  const contrast = least >= 4.5 ? 'contrast' : 'contrast ' + least.toFixed(2);
  document.documentElement.dataset.probe = [innerWidth, 'wide ' + wide, contrast, 'unreachable ' + still].join(', ');
  folded.forEach((d, at) => { d.open = false; if (named[at]) d.setAttribute('name', named[at]); });
  const first = document.querySelector('details.f');
  if (first) first.open = true;
})();
</script>"""


class Opened(NamedTuple):
    """A page as the browser has it, and the lines of its console."""

    dom: str
    console: list[str]


def run(words: Sequence[str]) -> tuple[str, str]:
    """What the browser writes with these words, and says on its error output."""
    assert BROWSER is not None
    with tempfile.TemporaryDirectory(prefix="diqenyu-browser-") as profile:
        command = [BROWSER, "--headless", "--no-sandbox", "--disable-gpu", "--hide-scrollbars", "--user-data-dir=" + profile,
                   "--enable-logging=stderr", *words]
        done = subprocess.run(command, stdin=subprocess.DEVNULL, stdout=subprocess.PIPE, stderr=subprocess.PIPE, timeout=PATIENCE)
    return done.stdout.decode("utf-8", "replace"), done.stderr.decode("utf-8", "replace")


def opened(path: str, behind: str = "", options: Sequence[str] = ()) -> Opened:
    """A page with what stands behind # in its address."""
    dom, told = run([*options, "--virtual-time-budget=3000", "--dump-dom", "file://%s%s" % (path, behind)])
    return Opened(dom, [line for line in told.split("\n") if "CONSOLE" in line])


def scheme(dark: bool) -> str:
    """Blink's own number for light and dark."""
    return "--blink-settings=preferredColorScheme=%d" % (0 if dark else 1)


def unpoliced(page: str) -> str:
    """A page without its policy, so that a look at it may run."""
    return re.sub(r'<meta http-equiv="Content-Security-Policy"[^>]*>', "", page)


def framed(pages: Sequence[str], width: int) -> str:
    """Pages of that width in frames (a window is no narrower than 500 pixels), of which each tells what a look at it finds."""
    frames = ['<iframe style="border:0" width="%d" height="1400" srcdoc="%s"></iframe>' % (
        width, html.escape(unpoliced(page).replace("</body>", PROBE + "</body>"))) for page in pages]
    return ('<!doctype html><meta name="color-scheme" content="light dark"><body style="margin:0">%s<script>onload = function () {'
            'document.body.dataset.found = Array.from(document.querySelectorAll("iframe")).map('
            'f => f.contentDocument.documentElement.dataset.probe).join("|"); };</script></body>' % "".join(frames))


def looked(pages: Sequence[str], width: int, dark: bool) -> tuple[list[str], list[str]]:
    """What a look at each page finds at a width, in light or dark, with all that is folded opened; and their console."""
    with tempfile.TemporaryDirectory(prefix="diqenyu-look-") as folder:
        path = os.path.join(folder, "frame.html")
        with open(path, "w", encoding="utf-8") as stream:
            stream.write(framed(pages, width))
        found = opened(path, options=["--window-size=1400,1400", scheme(dark)])
    told = re.search(r'data-found="([^"]*)"', found.dom)
    return told[1].split("|") if told else [], found.console


def pictured(path: str, width: int, height: int, dark: bool, to: str, behind: str = "") -> None:
    """A picture of a page. Below 500 pixels it stands in a frame."""
    options = [scheme(dark), "--window-size=%d,%d" % (max(width, 500), height), "--virtual-time-budget=3000", "--screenshot=" + to]
    if width >= 500:
        run([*options, "file://%s%s" % (path, behind)])
        return
    with open(path, encoding="utf-8") as stream:
        page = stream.read()
    with tempfile.TemporaryDirectory(prefix="diqenyu-picture-") as folder:
        frame = os.path.join(folder, "frame.html")
        with open(frame, "w", encoding="utf-8") as stream:
            stream.write('<!doctype html><meta name="color-scheme" content="light dark"><body style="margin:0"><iframe style="border:0" width="%d" '
                         'height="%d" srcdoc="%s"></iframe></body>' % (width, height - FRAME, html.escape(unpoliced(page))))
        run([*options, "file://" + frame])


def printed(path: str, to: str) -> None:
    """A page on paper, where poppler's pdftoppm is there."""
    if shutil.which("pdftoppm"):
        with tempfile.TemporaryDirectory(prefix="diqenyu-paper-") as folder:
            paper = os.path.join(folder, "page.pdf")
            run(["--no-pdf-header-footer", "--print-to-pdf=" + paper, "file://" + path])
            subprocess.run(["pdftoppm", "-singlefile", "-r", "80", "-png", paper, to[:-len(".png")]], check=True)
