"""The origin of a URL as the URL Standard has it, for scripts and step lines.

Of hosts it knows those of ASCII letters, IPv4 and IPv6. Of others it gives the form in ASCII, and
refuses none: which letters a host may not have stands in tables of Unicode that Python lacks.
"""

import ipaddress
import re
import unicodedata
import urllib.parse

# The schemes whose URLs have a host, with their default ports.
DEFAULT_PORTS = {"http": 80, "https": 443, "ws": 80, "wss": 443, "ftp": 21}
MOST_PORT = 65_535
# What is left out of account at both ends of a URL, and anywhere.
CONTROLS = "".join(map(chr, range(0x21)))
IGNORED = re.compile("[\t\n\r]")
SCHEME = re.compile(r"([A-Za-z][A-Za-z0-9+.-]*):")
AUTHORITY = re.compile(r"[/\\]*([^/\\?#]*)")
HOST_AND_PORT = re.compile(r"(\[[^\]]*\]|[^:\[]*)(?::([0-9]*))?")
# The forbidden domain code points.
FORBIDDEN = re.compile(r"[\0-\x20#/:<>?@\[\\\]^|%\x7f]")
# Letters that stand for a dot, and those that stand for nothing.
DOTS = re.compile("[\u3002\uff0e\uff61]")
NOTHING = re.compile("[\u00ad\u200b\u2060\ufeff\ufe00-\ufe0f]")
OCTAL_OR_DECIMAL = re.compile(r"0[0-7]*|[1-9][0-9]*")
HEXADECIMAL = re.compile(r"0x[0-9a-f]*")


class NoOrigin(Exception):
    """The text has no origin that an agent may have."""


class BadUrl(NoOrigin):
    """The text is no URL."""


class OpaqueOrigin(NoOrigin):
    """The origin of the URL is opaque."""


def origin_of(text):
    """The origin as its ASCII text. NoOrigin tells why there is none."""
    text = IGNORED.sub("", text.strip(CONTROLS))
    found = SCHEME.match(text)
    if found is None:
        raise BadUrl
    scheme, rest = found[1].lower(), text[found.end():]
    if scheme == "blob":
        return origin_of_blob(rest)
    if scheme not in DEFAULT_PORTS:
        raise OpaqueOrigin
    host, port = host_and_port(AUTHORITY.match(rest)[1])
    return f"{scheme}://{host}" + ("" if port in (None, DEFAULT_PORTS[scheme]) else f":{port}")


def origin_of_blob(path):
    """The origin of the URL inside, where that is one of HTTP."""
    try:
        origin = origin_of(re.split("[?#]", path)[0])
    except NoOrigin:
        raise OpaqueOrigin from None
    if not origin.startswith(("http://", "https://")):
        raise OpaqueOrigin
    return origin


def host_and_port(authority):
    found = HOST_AND_PORT.fullmatch(authority.rpartition("@")[2])
    if found is None or not found[1]:
        raise BadUrl
    digits = (found[2] or "").lstrip("0")
    if len(digits) > 5 or int(digits or 0) > MOST_PORT:
        raise BadUrl
    return host_of(found[1]), int(digits or 0) if found[2] else None


def host_of(text):
    if text.startswith("["):
        return f"[{address_of(text[1:-1])}]"
    host = urllib.parse.unquote(text, errors="replace")
    host = host.lower() if host.isascii() else in_ascii(host)
    if not host or FORBIDDEN.search(host):
        raise BadUrl
    parts = host.split(".")
    if parts[-1] == "" and len(parts) > 1:
        parts.pop()
    if re.fullmatch("[0-9]+", parts[-1]) or HEXADECIMAL.fullmatch(parts[-1]):
        return str(ipaddress.IPv4Address(number_of_address(parts)))
    return host


def in_ascii(host):
    """A host with other letters as a name in ASCII, label by label."""
    host = unicodedata.normalize("NFKC", NOTHING.sub("", DOTS.sub(".", host))).lower()
    labels = unicodedata.normalize("NFC", host).split(".")
    return ".".join(it if it.isascii() else f"xn--{it.encode('punycode').decode()}" for it in labels)


def address_of(text):
    """The address of eight numbers, in a form of its own."""
    try:
        if "%" not in text:
            return ipaddress.IPv6Address(text).compressed
    except ValueError:
        pass
    raise BadUrl


def number_of_address(parts):
    """The number that up to four parts of an IPv4 address are, the last one for all that follow."""
    if len(parts) > 4:
        raise BadUrl
    *before, last = map(number_of_part, parts)
    if any(it > 255 for it in before) or last >= 256 ** (5 - len(parts)):
        raise BadUrl
    return last + sum(it * 256 ** (3 - at) for at, it in enumerate(before))


def number_of_part(part):
    if HEXADECIMAL.fullmatch(part):
        return int(part[2:] or "0", 16)
    if OCTAL_OR_DECIMAL.fullmatch(part) and len(part) < 20:
        return int(part, 8 if part[0] == "0" else 10)
    raise BadUrl
