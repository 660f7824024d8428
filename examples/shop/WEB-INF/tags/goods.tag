<%@ tag body-content="scriptless" trimDirectiveWhitespaces="true" %>
<%@ attribute name="items" required="true" type="java.util.List" %>
<%@ attribute name="empty" fragment="true" %>
<%@ variable name-given="item" scope="NESTED" %>
<%@ taglib prefix="c" uri="jakarta.tags.core" %>
<c:choose>
<c:when test="${empty items}"><jsp:invoke fragment="empty"/></c:when>
<c:otherwise><ul>
<c:forEach items="${items}" var="item"><li><jsp:doBody/></li>
</c:forEach></ul></c:otherwise>
</c:choose>
