<%@ page errorPage="/error.jsp" trimDirectiveWhitespaces="true" %>
<%@ taglib prefix="c" uri="jakarta.tags.core" %>
<%@ taglib prefix="shop" tagdir="/WEB-INF/tags" %>
<jsp:useBean id="stock" class="shop"/>
<jsp:useBean id="cart" class="cart" scope="session"/>
<c:set var="total" value="${0}"/>
<shop:layout title="Your cart">
<c:choose>
<c:when test="${empty cart}"><p>Nothing yet.</p></c:when>
<c:otherwise><table>
<c:forEach items="${stock.items}" var="item"><c:if test="${cart[item.id] > 0}"><c:set var="total" value="${total + item.cents * cart[item.id]}"/>
<tr><td>${cart[item.id]}</td><td><c:out value="${item.name}"/></td><td><shop:price cents="${item.cents * cart[item.id]}"/></td></tr>
</c:if></c:forEach></table>
<p>Together <shop:price cents="${total}"/></p></c:otherwise>
</c:choose>
</shop:layout>
