<%@ page session="false" errorPage="/error.jsp" trimDirectiveWhitespaces="true" %>
<%@ taglib prefix="c" uri="jakarta.tags.core" %>
<%@ taglib prefix="fn" uri="jakarta.tags.functions" %>
<%@ taglib prefix="shop" tagdir="/WEB-INF/tags" %>
<jsp:useBean id="stock" class="shop"/>
<c:forEach items="${stock.items}" var="each"><c:if test="${each.id == param.id}"><c:set var="item" value="${each}"/></c:if></c:forEach>
<c:if test="${empty item}"><jsp:forward page="/index.jsp"/></c:if>
<shop:layout title="${item.name}">
<h2><c:out value="${item.name}"/></h2>
<p><shop:price cents="${item.cents}"/> <c:out value="${empty item.notes ? 'as it is' : fn:join(item.notes, ', ')}"/></p>
<form method="post" action="/add.jsp">
<input type="hidden" name="id" value="${item.id}">
<input name="count" value="1"> <button>Put into the cart</button>
</form>
</shop:layout>
