"""IRIs: the IRI-safe form, absolute ones, and references against a base (R2RML, 7.3; RFC 3987, 2.2; RFC 3986, 3.1 and 5)."""
import re

UCSCHAR = [(0xA0, 0xD7FF), (0xF900, 0xFDCF), (0xFDF0, 0xFFEF), (0xE1000, 0xEFFFD)]
UCSCHAR += [(plane * 0x10000, plane * 0x10000 + 0xFFFD) for plane in range(1, 14)]
REFERENCE = r"(?:([A-Za-z][A-Za-z0-9+.-]*):)?(?://([^/?#]*))?([^?#]*)(?:\?([^#]*))?(?:#(.*))?"


def is_unreserved(char):
    """Whether a character is of the production iunreserved (RFC 3987, 2.2)."""
    if char.isascii():
        return char.isalnum() or char in "-._~"
    return any(low <= ord(char) <= high for low, high in UCSCHAR)


def iri_safe(text):
    """The IRI-safe version of a text (R2RML, 7.3): all but unreserved characters are percent-encoded."""
    return "".join(char if is_unreserved(char) else "".join(f"%{octet:02X}" for octet in char.encode()) for char in text)


def is_absolute(text):
    """Whether a text is an absolute IRI: a scheme (RFC 3986, 3.1), a colon, and what IRIREF allows (N-Quads, 4).

    A fragment is allowed, and the digits behind a `%` are not looked at (docs/DECISIONS.md).
    """
    return re.fullmatch(r'[A-Za-z][A-Za-z0-9+.-]*:[^\0-\x20<>"{}|^`\\]*', text) is not None


def components(reference):
    """Scheme, authority, path, query and fragment, each None where it is not there (RFC 3986, appendix B)."""
    return re.fullmatch(REFERENCE, reference, re.DOTALL).groups()


def without_dots(path):
    """A path without its dot segments, by the steps A to E of RFC 3986, 5.2.4."""
    output = ""
    while path:
        if path.startswith(("../", "./")):
            path = path[path.index("/") + 1 :]
        elif path.startswith("/./") or path == "/.":
            path = "/" + path[3:]
        elif path.startswith("/../") or path == "/..":
            path, output = "/" + path[4:], output.rpartition("/")[0]
        elif path in (".", ".."):
            path = ""
        else:
            segment = re.match("/?[^/]*", path)[0]
            path, output = path[len(segment) :], output + segment
    return output


def resolve(base, reference):
    """The IRI of a reference against a base, strictly (RFC 3986, 5.2.2, 5.2.3 and 5.3).

    An absolute reference loses its dot segments, too: 5.2.2 has it so, and vkg with it (docs/DECISIONS.md).
    """
    scheme, authority, path, query, _ = components(base)
    own_scheme, own_authority, own_path, own_query, fragment = components(reference)
    if own_scheme is not None:
        scheme, authority, path, query = own_scheme, own_authority, without_dots(own_path), own_query
    elif own_authority is not None:
        authority, path, query = own_authority, without_dots(own_path), own_query
    elif own_path == "":
        query = query if own_query is None else own_query
    else:
        if not own_path.startswith("/"):
            has_no_path = authority is not None and path == ""
            own_path = ("/" if has_no_path else path[: path.rfind("/") + 1]) + own_path
        path, query = without_dots(own_path), own_query
    parts = [(scheme, "{}:"), (authority, "//{}"), (path, "{}"), (query, "?{}"), (fragment, "#{}")]
    return "".join(form.format(part) for part, form in parts if part is not None)
