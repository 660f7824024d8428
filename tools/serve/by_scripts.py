"""What the scripts of examples/ say of a folder: faults, tag files that are unread, what they leave
out, several publishings, several servers, drafts, and saves that are watched."""

import os
import shutil
import signal
import time

from publisher import EXAMPLES, Publisher, asked, ended, missing, write
from server import Server

TAGS = '<%@ taglib prefix="t" tagdir="/WEB-INF/tags" %>'


def try_faults(publisher, server, folder, tally):
    """A folder with a fault is published only where that is said."""
    write(folder, {"bad.jsp": "<p>${1 +}</p>\n", "good.txt": "good"})
    status, said = publisher.run(folder, server.editor_port)
    told = "bad.jsp:1:4: E15 ElSyntax: an expression that isn't tokens" in said and "    <p>${1 +}</p>" in said
    tally.check("a fault is told with its line and its sentence", status == 1 and told, (status, said))
    tally.same("and nothing is published", asked(server.port, "/good.txt").status, 404)
    status, said = publisher.run(folder, server.editor_port, "--anyway")
    tally.check("but where that is said", status == 1 and asked(server.port, "/good.txt").status == 200, (status, said))


def try_check(publisher, top, tally):
    """A look without a server: at the shop as it is, and with what is wrong."""
    shop = os.path.join(top, "shop")
    shutil.copytree(os.path.join(EXAMPLES, "shop"), shop)
    tally.same("the shop has no fault", publisher.check(shop), (0, ""))
    write(shop, {"WEB-INF/tags/alone.tag": "${1 +}"})
    status, said = publisher.check(shop)
    named = said.startswith("unread: WEB-INF/tags/alone.tag: ") and said.count("unread") == 1
    tally.check("a tag file that no page uses is named", status == 0 and named, said)
    write(shop, {"alone.jsp": TAGS + "\n<t:alone/>", "WEB-INF/beans/cart.json": "{nothing"})
    status, said = publisher.check(shop)
    told = [it in said for it in ("WEB-INF/tags/alone.tag:1:1: E15 ElSyntax: ", "    ${1 +}", ": E12 BadAttribute: ")]
    tally.check("faults of a tag file and of a bean are told", status == 1 and all(told), (status, said))
    tally.check("with the bean's file", "the bean's file is WEB-INF/beans/cart.json: Expecting" in said, said)
    tally.check("and the tag file is read now", "unread" not in said, said)


def try_kinds(publisher, server, folder, tally):
    """Files that are left out, pages whose run breaks off or lacks a parameter."""
    write(folder, {"a b/c d é.jsp": "here", "lacks.jsp": "${param.n + 1}${param.none.x}"})
    write(folder, {"breaks.jsp": '<%@ page buffer="none" %>begun${1 + true}', "z.jsp": "<p>${1 +}</p>"})
    with open(os.path.join(folder, "picture.png"), "wb") as file:
        file.write(b"\x89PNG")
    write(folder, {"large.txt": "x" * 1_048_577})
    status, said = publisher.run(folder, server.editor_port)
    holds = status == 1 and said.count(": E") == 1
    tally.check("after a page that breaks off the others are looked at", holds, (status, said))
    write(folder, {"z.jsp": "<p>${1 + 1}</p>"})
    status, said = publisher.run(folder, server.editor_port)
    named = ["left out: picture.png: it isn't UTF-8" in said, "left out: large.txt: it is over 1 MiB" in said]
    tally.check("what is left out is named", status == 0 and all(named), (status, said))
    tally.same("a page with blanks in its name", asked(server.port, "/a%20b/c%20d%20%C3%A9.jsp").body, b"here")


def try_large(publisher, server, folder, tally):
    """A folder that no draft takes."""
    files = {f"f{number}.txt": "first" for number in range(1_500)}
    write(folder, files)
    status, said = publisher.run(folder, server.editor_port)
    holds = status == 0 and "in 2 publishings" in said and not missing(server.port, files)
    tally.check("1,500 files go in two publishings", holds, (status, said))
    for number in range(0, 1_500, 2):
        os.remove(os.path.join(folder, f"f{number}.txt"))
    status, said = publisher.run(folder, server.editor_port)
    gone = [asked(server.port, f"/f{number}.txt").status for number in (0, 1, 1_498, 1_499)]
    tally.check("half of them are deleted", status == 0 and gone == [404, 200, 404, 200], (status, said, gone))


def try_servers(publisher, program, folder, tally):
    """Several servers, of which one is away for a while, and one is started anew."""
    write(folder, {"a.txt": "a", "b.txt": "b"})
    with Server(program, workers=1) as first, Server(program, workers=1) as second:
        url = f"http://127.0.0.1:{second.editor_port}"
        statuses = [publisher.run(folder, first.editor_port, url)[0]]
        os.remove(os.path.join(folder, "b.txt"))
        second.kill()
        status, said = publisher.run(folder, first.editor_port, url)
        statuses.append(status)
        is_told = f"{url}: nothing was published: there is no connection" in said
        tally.check("which server failed is said", is_told, said)
        second.start()
        status, said = publisher.run(folder, first.editor_port, url)
        statuses.append(status)
        tally.check("one that was started anew gets all", "the server was started anew" in said, said)
        tally.same("two servers, one of them away", statuses, [0, 2, 0])
        seen = [asked(it.port, target).status for it in (first, second) for target in ("/a.txt", "/b.txt")]
        tally.same("each has what the folder has", seen, [200, 404] * 2)


def try_drafts(publisher, program, folder, tally):
    """A look at the port of drafts, which shows what others published too."""
    with Server(program, workers=2, shows_drafts=True) as server:
        others = os.path.join(os.path.dirname(folder), "others")
        write(others, {"part.jspf": "of others"})
        write(folder, {"uses.jsp": '<%@ include file="part.jspf" %>'})
        statuses = [publisher.run(it, server.editor_port)[0] for it in (others, folder)]
        drafts = ["--drafts", f"http://127.0.0.1:{server.preview_port}"]
        status, said = publisher.run(folder, server.editor_port, *drafts)
        holds = [*statuses, status] == [0, 1, 0]
        tally.check("what includes others' files is looked at in a draft", holds, (statuses, said))
        tally.same("and then published", asked(server.port, "/uses.jsp").body, b"of others")
        write(folder, {"uses.jsp": "${1 +}"})
        status, said = publisher.run(folder, server.editor_port, *drafts)
        tally.check("faults show there too", status == 1 and "uses.jsp:1:1: E15" in said, (status, said))


def comes(port, target, text):
    """Whether readers get this text within twenty seconds."""
    for _ in range(100):
        if asked(port, target).body == text:
            return True
        time.sleep(0.2)
    return False


def try_watch(publisher, server, folder, tally):
    write(folder, {"w.jsp": "first"})
    process = publisher.start(folder, server.editor_port, script="watch")
    try:
        seen = [comes(server.port, "/w.jsp", b"first")]
        write(folder, {"w.jsp": "${1 +}"})
        time.sleep(3)
        seen.append(comes(server.port, "/w.jsp", b"first"))
        write(folder, {"w.jsp": "at last"})
        seen.append(comes(server.port, "/w.jsp", b"at last"))
    finally:
        process.send_signal(signal.SIGINT)
        status, said = ended(process, 20)
    tally.same("what is saved is published, if it has no fault", seen, [True] * 3)
    tally.check("faults are shown, and it goes on", status == 0 and "w.jsp:1:1: E15" in said, (status, said))


def try_scripts(program, top, tally):
    publisher = Publisher(program)
    try_check(publisher, top, tally)
    with Server(program, workers=2) as server:
        for number, work in enumerate((try_faults, try_kinds, try_large, try_watch)):
            work(publisher, server, os.path.join(top, str(number), "site"), tally)
    for name, work in (("servers", try_servers), ("drafts", try_drafts)):
        work(publisher, program, os.path.join(top, name, "site"), tally)
