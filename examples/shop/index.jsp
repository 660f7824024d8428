<%@ page session="false" errorPage="/error.jsp" trimDirectiveWhitespaces="true" %>
<%@ taglib prefix="c" uri="jakarta.tags.core" %>
<%@ taglib prefix="fn" uri="jakarta.tags.functions" %>
<%@ taglib prefix="shop" tagdir="/WEB-INF/tags" %>
<jsp:useBean id="stock" class="shop"/>
<shop:layout title="${stock.name}">
<shop:goods items="${stock.items}">
<jsp:attribute name="empty"><p>All is sold.</p></jsp:attribute>
<jsp:body><a href="/item.jsp?id=${item.id}"><c:out value="${item.name}"/></a> <shop:price cents="${item.cents}"/></jsp:body>
</shop:goods>
<p>${fn:length(stock.items)} things to buy; ${applicationScope.added + 0} times one was put into a cart.</p>
</shop:layout>
