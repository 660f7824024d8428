<%@ page session="false" isErrorPage="true" trimDirectiveWhitespaces="true" %>
<%@ taglib prefix="c" uri="jakarta.tags.core" %>
<%@ taglib prefix="shop" tagdir="/WEB-INF/tags" %>
<shop:layout title="Not so">
<c:choose>
<c:when test="${pageContext.exception.code == 'X1'}"><p>That was no whole number.</p></c:when>
<c:otherwise><p>This went wrong: <c:out value="${pageContext.exception.message}"/></p></c:otherwise>
</c:choose>
</shop:layout>
