"""What an editor sees of a draft, with a visitor's session, while visitors see the published
page."""

from by_curl import CORE, COUNTER, FILES
from front import curl, status

EDITED = "draft: " + FILES[COUNTER]


def try_previews(server, tally):
    here = f"http://127.0.0.1:{server.port}{COUNTER}"
    editor = f"http://127.0.0.1:{server.editor_port}"
    previews = f"http://127.0.0.1:{server.preview_port}"
    put = ["--request", "PUT", "--data-binary"]
    edit = [*put, CORE + EDITED, f"{previews}/_editor/files{COUNTER}", "--next"]
    place = f"{editor}/_editor/files{COUNTER}"
    publish = ["--next", "--request", "POST", f"{editor}/_editor/publish"]
    curl(*put, CORE + FILES[COUNTER], place, *publish)
    head, _, body = curl("--include", here).partition(b"\r\n\r\n")
    tally.same("a visitor's first page", body, b"1")
    cookie = head.split(b"Set-Cookie: ")[1].split(b";")[0].decode()
    mine = ["--cookie", cookie]
    tally.same("the second", curl(*mine, here), b"2")
    shown = curl(*edit, *mine, previews + COUNTER, "--next", *mine, previews + COUNTER)
    tally.same("a draft with the visitor's session", shown, b"draft 1\ndraft: 3draft: 3")
    tally.same("a preview without a draft", curl(*mine, previews + COUNTER), b"3")
    tally.same("the visitor's third page", curl(*mine, here), b"3")
    tally.same("publishing where drafts are shown", status("--request", "POST", f"{previews}/_editor/publish"), "400")
    curl(*put, CORE + EDITED, place, *publish)
    tally.same("the page once it is published", curl(*mine, here), b"draft: 4")
    words = [*put, "x", f"{previews}/_editor/files/x.txt", "--next", f"{previews}/x.txt"]
    tally.same("a file of a draft", curl(*words), b"draft 1\nx")
    tally.same("the same elsewhere", status(f"http://127.0.0.1:{server.port}/x.txt"), "404")
