"""Talks of many kinds of request, each behind the messages that publish one site."""
from messages import CORE, COUNTER, FIRST_ID, NO_SESSION, TAGS, cookie, get, message, publish, published, put

BIG = "a" * 1025
SITE = {
    "/a.jsp": NO_SESSION + "Hi ${param.n}!",
    "/f.html": "<b>",
    "/s.jsp": COUNTER,
    "/r.jsp": NO_SESSION + CORE + '<c:redirect url="/b"/>',
    "/e.jsp": NO_SESSION + "${1",
    "/x.jsp": '<%@ page session="false" errorPage="/err.jsp" %>${1 mod 0}',
    "/err.jsp": NO_SESSION + "${pageContext.exception.message}",
    "/fw.jsp": 'x<jsp:forward page="s.jsp"><jsp:param name="a" value="b"/></jsp:forward>',
    "/inc.jsp": NO_SESSION + CORE + 'a<jsp:include page="a.jsp"/><c:import url="f.html" var="v"/>${v}',
    "/big.jsp": '<%@ page buffer="1kb" %>'
    + BIG
    + CORE
    + '<c:set var="n" value="${n + 1}" scope="application"/>${n}'
    + "b" * 2000,
    "/broken.jsp": '<%@ page session="false" buffer="1kb" %>' + BIG + "${1 mod 0}",
    "/t.jsp": NO_SESSION + TAGS + '<t:t a="1">x${b}</t:t>',
    "/WEB-INF/tags/t.tag": '<%@ attribute name="a" %><%@ variable name-given="b" %><jsp:doBody/>${a}',
    "/b.jsp": NO_SESSION + '<jsp:useBean id="m" class="m"/>${m.k}',
    "/WEB-INF/beans/m.json": '{"k":[1,"x",null,{"a":true}]}',
}
FORM = ["Content-Type: application/x-www-form-urlencoded"]
CLOSE = ["Connection: close"]
# Behind the site, by name.
TALKS = {
    "page": [get("/a.jsp?n=Bo")],
    "file": [get("/f.html")],
    "redirect": [get("/r.jsp")],
    "fault of a page": [get("/e.jsp")],
    "error page": [get("/x.jsp")],
    "forward": [get("/fw.jsp")],
    "include": [get("/inc.jsp")],
    "chunks": [get("/big.jsp")],
    "broken": [get("/broken.jsp")],
    "tag file": [get("/t.jsp")],
    "bean": [get("/b.jsp")],
    "absent": [get("/nix")],
    "HEAD": [message("HEAD", "/s.jsp")],
    "HEAD of chunks": [message("HEAD", "/big.jsp")],
    "close": [get("/s.jsp", *CLOSE)],
    "HEAD and close": [message("HEAD", "/s.jsp", None, CLOSE)],
    "form": [message("POST", "/a.jsp", "n=Bo", FORM)],
    "another method": [message("DELETE", "/a.jsp")],
    "no message of an editor": [message("GET", "/_editor/x")],
    "stale": [publish("?base=9")],
    "two of a session": [get("/s.jsp"), get("/s.jsp", cookie(FIRST_ID))],
    "twice": [get("/a.jsp"), get("/a.jsp")],
    "a page made anew": [get("/a.jsp"), put("/a.jsp", "x"), publish()],
}
FRONT = published(SITE)
