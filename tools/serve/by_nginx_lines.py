"""What the lines of examples/nginx.conf and examples/nginx_editors.conf are for: images from a
folder, the page of a folder, the flags of a cookie, pages of the site's own for what there isn't,
and the editors' port behind TLS."""

import os
import shutil
import subprocess
import sys
import time

from messages import publish
from nginx import make_key, start_nginx
from server import HOST, free_ports

HERE = os.path.dirname(os.path.abspath(__file__))
EDITORS = os.path.join(HERE, "../../examples/nginx_editors.conf")
PUBLISH = os.path.join(HERE, "../../examples/publish")
IMAGE = b"\x89PNG\r\n\x1a\n" + bytes(range(256))
PASSWORD = "a word of hers"
FILES = {
    "/index.jsp": "first ${param.q}",
    "/sub/index.jsp": "below ${param.q}",
    "/not-found.html": "nothing here",
    "/fails.jsp": '<%@ page errorPage="/told.jsp" %>${1 + true}',
    "/told.jsp": "told ${pageContext.exception.code}",
}
# What nginx itself has, in the folder that is published.
OF_FOLDER = {"pictures/a.png": IMAGE, "WEB-INF/a.png": IMAGE, ".hidden.png": IMAGE, "sorry.html": b"later, please"}
# Texts that the program would send as text/plain, with the types that nginx gives them.
TYPES = {"a.svg": "image/svg+xml", "a.htm": "text/html", "a.mjs": "text/javascript"}


def make_site(folder):
    """The folder that nginx has files of, whoever its user is."""
    os.chmod(folder, 0o755)
    for name, content in {**OF_FOLDER, **dict.fromkeys(TYPES, b"text")}.items():
        path = os.path.join(folder, "site", name)
        os.makedirs(os.path.dirname(path), exist_ok=True)
        with open(path, "wb") as file:
            file.write(content)


def head_of(front, target, *words):
    return front.curl(target, "--head", *words).decode().lower()


def try_lines(front, server, tally):
    publish(server.editor_port, FILES)
    tally.same("an image of the folder", front.curl("/pictures/a.png"), IMAGE)
    head = head_of(front, "/pictures/a.png")
    tally.check("and its type", "content-type: image/png" in head, head)
    for name, kind in TYPES.items():
        head = head_of(front, "/" + name)
        tally.check(f"the type of {name}", f"content-type: {kind}; charset=utf-8" in head, head)
    kept = [front.status("/" + name) for name in ("WEB-INF/a.png", ".hidden.png", "pictures/b.png")]
    tally.same("images under WEB-INF, hidden and absent ones", kept, ["404"] * 3)
    pages = [front.curl(target) for target in ("/", "/?q=1", "/sub/", "/sub/?q=2")]
    tally.same("a path that ends with a slash", pages, [b"first ", b"first 1", b"below ", b"below 2"])
    head = head_of(front, "/")
    (cookie,) = [it for it in head.split("\r\n") if it.startswith("set-cookie:")] or [head]
    holds = all(flag in cookie for flag in ("; secure", "; samesite=lax", "; httponly"))
    tally.check("the flags of the cookie", holds, cookie)
    absent = front.curl("/none.jsp", "--write-out", "%{http_code}")
    tally.same("the site's page for what there isn't", absent, b"nothing here404")
    own = front.curl("/fails.jsp", "--write-out", "%{http_code}")
    tally.same("the errorPage of a page stays", own, b"told X1500")
    tally.same("a client of HTTP/1.0", front.curl("/", "--http1.0"), b"first ")


def try_without_program(front, server, tally):
    """Where the program doesn't answer; it is killed for this."""
    server.kill()
    told = front.curl("/", "--write-out", "%{http_code}")
    tally.same("where the program is gone", told, b"later, please502")
    tally.same("images are there all the same", front.curl("/pictures/a.png"), IMAGE)


def make_editor(folder, name, *words):
    """A key with its certificate in one file."""
    make_key(folder, name, *words)
    with open(f"{folder}/{name}.pem", "w") as pem:
        for part in ("key", "crt"):
            with open(f"{folder}/{name}.{part}") as file:
                pem.write(file.read())


def said_by_publish(program, folder, port, *words):
    """The status of examples/publish without a terminal, and what it says."""
    told = [sys.executable, PUBLISH, f"{folder}/edited", f"https://{HOST}:{port}", "--pages", program]
    told += ["--trust", f"{folder}/pages.crt", *words]
    done = subprocess.run(told, stdin=subprocess.DEVNULL, capture_output=True, timeout=60, start_new_session=True)
    return done.returncode, (done.stdout + done.stderr).decode()


def write(path, text):
    os.makedirs(os.path.dirname(path), exist_ok=True)
    with open(path, "w") as file:
        file.write(text)


def try_editors(program, folder, server, front, tally):
    """The editors' port behind TLS: for an editor with a key and its password, and for others."""
    (port,) = free_ports(1)
    make_editor(folder, "anna", "-passout", f"pass:{PASSWORD}")
    make_editor(folder, "other", "-nodes")
    shutil.copy(f"{folder}/anna.crt", f"{folder}/editors.crt")
    write(f"{folder}/edited/edited.jsp", "edited over TLS")
    write(f"{folder}/password", PASSWORD + "\n")
    nginx = start_nginx(EDITORS, folder, {8081: server.editor_port, 8444: port})
    try:
        time.sleep(1)
        for name, words in (("no key", []), ("another's key", ["--key", f"{folder}/other.pem"])):
            status, said = said_by_publish(program, folder, port, *words)
            tally.check(f"with {name} nothing is published", status == 2 and "nothing was published" in said, said)
        words = ["--key", f"{folder}/anna.pem", "--password", f"{folder}/password"]
        status, said = said_by_publish(program, folder, port, *words)
        tally.check("an editor with a key and its password publishes", status == 0, (status, said))
        tally.same("readers see it", front.curl("/edited.jsp"), b"edited over TLS")
    finally:
        nginx.terminate()
        nginx.wait()
