"""What is turned away before a page is asked, and what every answer carries."""

from collections.abc import Collection
from functools import cache

from flask import Flask, Response, request

from evp.desk.render import message
from evp.pages.render import policy

METHODS = ("GET", "HEAD", "POST")
MOST_BODY = 4_100_000  # bytes of any request: the sheets of a class fit in

HEADERS = {
    "Cache-Control": "no-store",  # a page has a secret in its address
    "Content-Security-Policy": policy() + "; frame-ancestors 'none'",
    "Cross-Origin-Opener-Policy": "same-origin",
    "Cross-Origin-Resource-Policy": "same-origin",
    "Referrer-Policy": "no-referrer",
    "X-Content-Type-Options": "nosniff",
    "X-Frame-Options": "DENY",
}

WORDS = {  # of what is turned away: a heading and a sentence
    400: ("Not understood", "The desk did not understand this request."),
    403: ("From elsewhere", "The page of another site sent this. What is sent to this desk comes from its own pages."),
    404: ("No such page", "There is nothing at this address. A link to a ledger must be whole: its end is a key."),
    405: ("Not done", "This page is read and not written to."),
    411: ("Not understood", "A request must tell how long it is."),
    413: ("Too long", "This is longer than anything that is wanted here."),
    421: ("Another name", "This desk does not go by that name. Use the address that its terminal shows."),
    431: ("Too long", "The headers of this request are longer than any that are wanted here."),
    500: ("A fault of the desk", "This page could not be made. What was answered before is kept."),
    501: ("Not understood", "This request is sent in a way that this server does not know."),
    503: ("Busy", "Others keep this desk busy at the moment. Try again in a minute."),
    505: ("Not understood", "This server speaks HTTP/1.0 and HTTP/1.1."),
}


@cache
def _page(status: int) -> bytes:
    return message(status, *WORDS.get(status, WORDS[400])).data


def turned_away(status: int) -> Response:
    return Response(_page(status), status)


def hosts_of(address: str, port: int) -> frozenset[str]:
    """The Host headers of a desk that listens at an address: a page from elsewhere whose name was led to this machine
    has another."""
    names = {"[%s]" % address if ":" in address else address}
    if address in ("127.0.0.1", "::1", "localhost"):
        names |= {"127.0.0.1", "localhost", "[::1]"}
    return frozenset("%s:%d" % (name, port) for name in names) | (names if port == 80 else frozenset())


def from_elsewhere(hosts: Collection[str]) -> bool:
    """Whether a browser says that another site's page sends this. A link to the desk may stand anywhere; what is sent
    to it may not. A desk's own page, which tells no referrer, has the Origin null."""
    origin = request.headers.get("Origin", "null")
    return request.method == "POST" and (
        request.headers.get("Sec-Fetch-Site", "none") not in ("same-origin", "none")
        or origin != "null" and origin.lower().removeprefix("http://") not in hosts)


def protect(app: Flask, hosts: frozenset[str]):
    """Checks each request for its host and for where it comes from, and gives each answer its headers."""
    @app.before_request
    def check_request():
        if request.environ.get("HTTP_HOST", "").lower() not in hosts:
            return turned_away(421)
        if request.method not in METHODS:  # OPTIONS too, whose header would have its words in any order
            return turned_away(405)
        return turned_away(403) if from_elsewhere(hosts) else None

    @app.after_request
    def add_headers(answer: Response) -> Response:
        for name, value in HEADERS.items():
            answer.headers.setdefault(name, value)
        return answer
