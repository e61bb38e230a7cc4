"""Texts in XML."""
import re

# What XML has no form for.
NOT_XML = re.compile("[^\t\n\r\u0020-\ud7ff\ue000-\ufffd\U00010000-\U0010ffff]")


def xml_text(text: str) -> str:
    """A text in XML, in which characters that XML has no form for are escaped."""
    return NOT_XML.sub(lambda found: found[0].encode("unicode_escape").decode(), text)
