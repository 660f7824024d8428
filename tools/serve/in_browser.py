#!/usr/bin/env python3
"""Shows `pages serve` with the shop of examples/ to a browser:
`tools/serve/in_browser.py [PROGRAM [PICTURE]]`. It wants chromium, which asks nobody but this
machine, takes half a minute, ends by itself in four at the most, and leaves no process. The picture
is of the shop's list."""

import os
import re
import signal
import subprocess
import sys
import tempfile

HERE = os.path.dirname(os.path.abspath(__file__))
sys.path.insert(0, HERE)
sys.dont_write_bytecode = True

from messages import publish  # noqa: E402
from server import HOST, Server, Tally  # noqa: E402

BUILT = os.path.join(HERE, "../../crates/pages_cli/out/pages_cli")
SHOP = os.path.join(HERE, "../../examples/shop")
MOST_SECONDS = 240
CORE = '<%@ taglib prefix="c" uri="jakarta.tags.core" %>'
PAGE = '<!DOCTYPE html><html><head><meta charset="UTF-8"></head><body>'
END = "</body></html>"
SEND = '<script>document.getElementById("f").submit()</script>'
# How many clicks lead from a page of `walk.jsp` to the next.
CLICKS = 3
# The shop's list in a frame, and what its style sheet says and the browser makes of it.
STYLES = """<p id="seen"></p><iframe id="shop" src="/index.jsp"></iframe>
<script>
addEventListener("load", () => {
  const shop = document.getElementById("shop").contentDocument;
  const rules = [...shop.styleSheets[0].cssRules];
  const said = (name) => rules.find((rule) => rule.selectorText == name).style;
  const made = (name) => getComputedStyle(shop.querySelector(name));
  const same = (name, property) => made(name)[property] == said(name)[property];
  const held = [same("body", "color"), same("a", "color"), same("header", "display")];
  document.getElementById("seen").textContent = "styles " + held.join(" ") + " " + made("a").color;
});
</script>"""
# Pages that a browser runs, beside those of the shop.
FILES = {
    "/try/hello.jsp": CORE + PAGE + '<p id="hello">Hello <c:out value="${param.who}"/>!</p>' + END,
    "/try/say.jsp": PAGE + '<form id="f" method="post" action="hello.jsp">'
    '<input name="who" value="Zoë &amp; &lt;Co&gt;"></form>' + SEND + END,
    "/try/buy.jsp": PAGE + '<form id="f" method="post" action="/add.jsp"><input name="id" value="pot">'
    '<input name="count" value="2"></form>' + SEND + END,
    "/try/count.jsp": CORE + '<c:set var="n" value="${sessionScope.n + 1}" scope="session"/>${n}',
    "/try/clicks.jsp": PAGE + '<p id="seen"></p><script>(async () => { const seen = []; for (let i = 0; i < 3; i++)'
    ' seen.push((await (await fetch("count.jsp")).text()).trim());'
    ' document.getElementById("seen").textContent = "counted " + seen.join(" "); })()</script>' + END,
    "/try/walk.jsp": CORE + PAGE + '<c:set var="walk" value="${sessionScope.walk} ${param.by}" scope="session"/>'
    '<c:set var="n" value="${sessionScope.n + 1}" scope="session"/><p>click ${n - 1}:${walk}</p>'
    '<a id="link" href="walk.jsp?by=link">on</a>'
    '<form method="post" action="walk.jsp"><input name="by" value="button"><button id="button">on</button></form>'
    f'<c:if test="${{n <= {CLICKS}}}"><script>addEventListener("load", () =>'
    ' document.getElementById("${param.by}").click())</script></c:if>' + END,
    "/try/styles.jsp": PAGE + STYLES + END,
}


def shop():
    """The files of the shop, by their paths in the site."""
    files = {}
    for folder, _, names in os.walk(SHOP):
        for name in names:
            place = os.path.join(folder, name)
            with open(place) as text:
                files["/" + os.path.relpath(place, SHOP)] = text.read()
    return files


def browse(url, *words):
    """What the browser makes of the page, in a home of its own."""
    with tempfile.TemporaryDirectory() as home:
        told = ["chromium", "--headless", "--no-sandbox", "--disable-gpu", "--disable-dev-shm-usage", "--no-first-run"]
        told += ["--disable-background-networking", "--host-resolver-rules=MAP * ~NOTFOUND , EXCLUDE 127.0.0.1"]
        told += [f"--user-data-dir={home}", "--virtual-time-budget=8000", "--timeout=30000", *words, url]
        return subprocess.run(told, capture_output=True, timeout=80).stdout.decode(errors="replace")


def dom(url):
    """What the page is once the browser has done all that is on it."""
    return browse(url, "--dump-dom")


def try_sessions(here, tally):
    """A counter over requests that a page makes, and over clicks, each of which leads to a page."""
    page = dom(f"{here}/try/clicks.jsp")
    tally.check("a counter by the browser's cookie", "counted 1 2 3" in page, page)
    for by in ("link", "button"):
        page = dom(f"{here}/try/walk.jsp?by={by}")
        walked = f"click {CLICKS}:" + f" {by}" * (CLICKS + 1) + "<"
        tally.check(f"three clicks, each on a {by}", walked in page, page)


def try_forms(here, tally):
    page = dom(f"{here}/try/say.jsp")
    tally.check("a form is sent and answered", "Hello Zoë &amp; &lt;Co&gt;!" in page, page)
    page = dom(f"{here}/try/buy.jsp")
    holds = "<td>2</td><td>A pot</td>" in page and "60.00" in page
    tally.check("two pots are in the cart behind a redirect", holds, page)


def colour_of_links(sheet):
    """The colour that this style sheet has for links, as a browser writes it."""
    digits = re.search(r"^a \{ color: #(\w)(\w)(\w);", sheet, re.MULTILINE).groups()
    return "rgb({}, {}, {})".format(*(int(each * 2, 16) for each in digits))


def try_shop(here, files, picture, tally):
    page = dom(f"{here}/index.jsp")
    tally.check("the shop's list", "Plum jam" in page and "3 things to buy; 1 times" in page, page)
    page = dom(f"{here}/try/styles.jsp")
    colour = colour_of_links(files["/shop.css"])
    tally.check("its style sheet is applied", f"styles true true true {colour}<" in page, page)
    browse(f"{here}/index.jsp", f"--screenshot={picture}", "--window-size=960,420")
    tally.check("a picture of it", os.path.exists(picture) and os.path.getsize(picture) > 2_000)


def main():
    program = os.path.abspath(sys.argv[1] if len(sys.argv) > 1 else BUILT)
    signal.alarm(MOST_SECONDS)
    tally = Tally()
    files = shop() | FILES
    with tempfile.TemporaryDirectory() as folder, Server(program, workers=16) as server:
        picture = os.path.abspath(sys.argv[2]) if len(sys.argv) > 2 else os.path.join(folder, "shop.png")
        publish(server.editor_port, files)
        here = f"http://{HOST}:{server.port}"
        try_sessions(here, tally)
        try_forms(here, tally)
        try_shop(here, files, picture, tally)
    print(f"{tally.held} held, {tally.failed} failed")
    return 1 if tally.failed else 0


if __name__ == "__main__":
    sys.exit(main())
