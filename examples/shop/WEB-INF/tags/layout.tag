<%@ tag body-content="scriptless" trimDirectiveWhitespaces="true" %>
<%@ attribute name="title" required="true" %>
<%@ taglib prefix="c" uri="jakarta.tags.core" %>
<!DOCTYPE html>
<html lang="en">
<head><meta charset="UTF-8"><title><c:out value="${title}"/></title><link rel="stylesheet" href="/shop.css"></head>
<body>
<%@ include file="/head.jspf" %>
<main>
<jsp:doBody/>
</main>
</body>
</html>
