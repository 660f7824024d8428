<%@ page errorPage="/error.jsp" trimDirectiveWhitespaces="true" %>
<%@ taglib prefix="c" uri="jakarta.tags.core" %>
<jsp:useBean id="cart" class="cart" scope="session"/>
<c:if test="${not empty param.id}">
<c:set target="${cart}" property="${param.id}" value="${cart[param.id] + param.count}"/>
<c:set var="added" value="${applicationScope.added + 1}" scope="application"/>
</c:if>
<c:redirect url="/cart.jsp"/>
