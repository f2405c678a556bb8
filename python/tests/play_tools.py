"""What the tests of the page share: pages that end with their test, and requests as no browser makes them."""

import http.client
import json

import numpy as np
import sandpile

SECONDS = 60  # that anything may take


class Connection(http.client.HTTPConnection):
    """Sends any byte in an address."""

    def _encode_request(self, request):
        return request.encode("latin-1")


def opened(test, *start, **how):
    """A page that is open until the end of a test."""
    page = sandpile.play(*start, **{"port": 0, "browser": False, "wait": False, **how})
    test.addCleanup(page.close)
    return page


def place_of(page):
    """The host, the port and the path of a page."""
    _, _, host, path = page.address.split("/", 3)
    name, port = host.split(":")
    return name, int(port), f"/{path}"


def asked(page, name, method="GET", content=None, path=None, **headers):
    """The status, the headers and the content of an answer. Header names have underscores here; one that is None is left out."""
    host, port, top = place_of(page)
    connection = Connection(host, port, timeout=SECONDS)
    try:
        connection.putrequest(method, path or f"{top}{name}", skip_host=True, skip_accept_encoding=True)
        length = {} if content is None else {"Content_Length": str(len(content))}
        for key, value in {"Host": f"{host}:{port}", **length, **headers}.items():
            if value is not None:
                connection.putheader(key.replace("_", "-"), value)
        connection.endheaders(content)
        answer = connection.getresponse()
        return answer.status, answer.headers, answer.read()
    finally:
        connection.close()


def unpacked(content):
    """The numbers and arrays of an answer."""
    length = int.from_bytes(content[:8], "little")
    told, at = json.loads(content[8 : 8 + length]), 8 + length
    for name, kind, size in told["arrays"]:
        told[name] = np.frombuffer(content, f"<{kind}", size, at)
        at += -(-told[name].nbytes // 8) * 8
    if at != len(content):
        raise AssertionError(f"an answer of {len(content)} bytes has {at}")
    return told


def read(page, name, method="GET", content=None):
    """The numbers and arrays of an answer that is none of a refusal."""
    status, _, answer = asked(page, name, method, content)
    if status != 200:
        raise AssertionError(f"{name}: status {status}, {answer}")
    return unpacked(answer)


def changed(page, name, content=None):
    return read(page, name, "POST", content)


def refused(page, name, method="POST", content=None, **headers):
    """The status and the sentence of a refusal."""
    status, _, answer = asked(page, name, method, content, **headers)
    return status, json.loads(answer)["error"]
