"""What `measure` measures: sites, a request of each, and what is answered to it. The answers are by docs/LANGUAGE.md."""
import json

from messages import CORE, COUNTER, FIRST_ID, NO_SESSION, PLAIN, TAGS, cookie, get, published, put, whole

ROWS, PARTS, TESTS, PAGES_OF_SITE = 100, 10, 1000, 1000
ITEMS = [f"Tea of the hill {place}" for place in range(1, ROWS + 1)]
STOCK = {"/WEB-INF/beans/stock.json": json.dumps({"items": [{"name": name} for name in ITEMS]})}
LIST = NO_SESSION + CORE + '<jsp:useBean id="stock" class="stock"/><ul>\n{}</ul>\n'
LOOP = '<c:forEach items="${{stock.items}}" var="it"{}><li>{}<c:out value="${{it.name}}"/></li>\n</c:forEach>'
STATUS_LOOP = LOOP.format(' varStatus="st"', "${st.count}/${st.last}: ")
PLAIN_LOOP = LOOP.format("", "")
LARGE = "body { color: #333 }\n" * 3121
BOX = '<%@ attribute name="title" %><div><h2>${title}</h2><jsp:doBody/></div>\n'


def bytes_of(answer):
    """An answer as it is on the wire."""
    status, fields, body = answer
    head = "".join(f"{name}: {value}\r\n" for name, value in fields)
    return f"HTTP/1.1 {status}\r\n{head}\r\n".encode() + body


class Case:
    """A site, a request that is made many times, the answer to the one of a number from 1 on, and how many are timed and counted."""

    def __init__(self, name, files, request, wanted, timed, counted, first=None):
        self.name = name
        self.site = published(files) + (first or request)
        self.request = request
        self.wanted = wanted if callable(wanted) else lambda _: wanted
        self.timed = timed
        self.counted = counted


def listed(row):
    rows = "".join(row(place, name) for place, name in enumerate(ITEMS, 1))
    return whole(f"<ul>\n{rows}</ul>\n")


CASES = [
    Case("hello", {"/hello.jsp": NO_SESSION + "Hi ${param.n}!"}, get("/hello.jsp?n=Bo"), whole("Hi Bo!"), 20000, 2000),
    Case(
        "list with status",
        STOCK | {"/list.jsp": LIST.format(STATUS_LOOP)},
        get("/list.jsp"),
        listed(lambda place, name: f"<li>{place}/{str(place == ROWS).lower()}: {name}</li>\n"),
        600,
        20,
    ),
    Case(
        "list",
        STOCK | {"/list.jsp": LIST.format(PLAIN_LOOP)},
        get("/list.jsp"),
        listed(lambda _, name: f"<li>{name}</li>\n"),
        1000,
        40,
    ),
    Case(
        "session counter",
        {"/count.jsp": COUNTER},
        get("/count.jsp", cookie(FIRST_ID)),
        lambda number: whole(str(number + 1)),
        20000,
        2000,
        first=get("/count.jsp"),
    ),
    Case("small file", {"/small.txt": "a small file\n"}, get("/small.txt"), whole("a small file\n", PLAIN), 20000, 2000),
    Case("file of 64 KiB", {"/large.css": LARGE}, get("/large.css"), whole(LARGE, "text/css;charset=UTF-8"), 3000, 500),
    Case(
        "ten includes",
        {"/ten.jsp": NO_SESSION + '<jsp:include page="part.jsp"/>' * PARTS, "/part.jsp": NO_SESSION + "<p>${param.n}</p>\n"},
        get("/ten.jsp?n=Bo"),
        whole("<p>Bo</p>\n" * PARTS),
        4000,
        200,
    ),
    Case(
        "ten tag calls",
        {
            "/ten.jsp": NO_SESSION + TAGS + '<t:box title="A box"><b>${param.n}</b></t:box>' * PARTS,
            "/WEB-INF/tags/box.tag": BOX,
        },
        get("/ten.jsp?n=Bo"),
        whole("<div><h2>A box</h2><b>Bo</b></div>\n" * PARTS),
        3000,
        200,
    ),
    Case(
        "1,000 c:if",
        {
            "/ifs.jsp": NO_SESSION
            + CORE
            + '<c:set var="k" value="${param.n}"/>'
            + "<c:if test=\"${k == 'Bo'}\">x</c:if><c:if test=\"${k == 'Al'}\">y</c:if>" * (TESTS // 2)
        },
        get("/ifs.jsp?n=Bo"),
        whole("x" * (TESTS // 2)),
        300,
        20,
    ),
]

# The site whose pages all include one file.
PATHS = [f"/page{place:04}.jsp" for place in range(PAGES_OF_SITE)]
INCLUDING = published(
    {path: NO_SESSION + '<%@ include file="head.jspf" %><p>${param.n}</p>\n' for path in PATHS} | {"/head.jspf": "<h1>0</h1>\n"}
)


def change(number):
    """The message that puts the included file anew."""
    return put("/head.jspf", f"<h1>{number}</h1>\n")


def included(number):
    """What each page of the site answers then."""
    return whole(f"<h1>{number}</h1>\n<p>Bo</p>\n")


MADE_ANEW = whole("version 2\n" + "".join(f"{path}\n" for path in PATHS), PLAIN)
