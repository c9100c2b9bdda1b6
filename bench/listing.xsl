<?xml version="1.0"?>
<!-- The same listing by XSLT: everything but descriptions, and (no title) where there is none. -->
<xsl:stylesheet version="1.0" xmlns:xsl="http://www.w3.org/1999/XSL/Transform">
  <xsl:output omit-xml-declaration="yes" encoding="UTF-8"/>
  <xsl:strip-space elements="schedule programme people"/>
  <xsl:template match="*"><xsl:copy><xsl:apply-templates/></xsl:copy></xsl:template>
  <xsl:template match="programme">
    <programme>
      <xsl:apply-templates select="start"/>
      <xsl:if test="not(title)"><title>(no title)</title></xsl:if>
      <xsl:apply-templates select="title | people"/>
    </programme>
  </xsl:template>
</xsl:stylesheet>
