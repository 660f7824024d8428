<%@ tag body-content="empty" trimDirectiveWhitespaces="true" %>
<%@ attribute name="cents" required="true" type="java.lang.Integer" %>
<%@ taglib prefix="fn" uri="jakarta.tags.functions" %>
<%-- The language has no division, so the digits are cut: a price has at least three. --%><span class="price">${
fn:substring(cents, 0, fn:length(cents) - 2)}.${fn:substring(cents, fn:length(cents) - 2, -1)}</span>
