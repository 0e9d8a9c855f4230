"""Requests to the server in the operator's name."""
import http.client
import json
import ssl
import urllib.error
import urllib.request
from typing import Any

# What a page of the server has: keys and values as docs/formats.md lists them.
Page = dict[str, Any]

CLOSING_SECONDS = 300  # as long as nginx waits for a closing
PAGE_SECONDS = 5
PUBLIC_PAGE = "/v1/status"  # which comes through the inner door, as a sheet does
# nginx's words if others at this address ask much, or if the curtain of a window's end is drawn.
BARRED = ("too_often", "closing")


class NoReply(Exception):
    """Nobody answered, or only nginx, or a stranger: what was asked may have been done all the
    same.
    """


class Refused(Exception):
    """The server refused a page."""


class Straight(urllib.request.HTTPRedirectHandler):
    """Follows no redirection: the token is for one address only."""

    def redirect_request(self, *_: Any) -> None:
        return None


class Operator:
    """Asks the server in the operator's name, at the operator's port of nginx or at its own."""

    def __init__(self, url: str, token: str) -> None:
        self.url, self.token = url.rstrip("/"), token
        # the shell's `http_proxy` would see the token
        self.opener = urllib.request.build_opener(Straight, urllib.request.ProxyHandler({}))

    def ask(self, path: str, body: bytes | None = None, seconds: float = CLOSING_SECONDS) -> Page:
        """The page for a path, also if it is a refusal. NoReply if anything else comes."""
        request = urllib.request.Request(
            self.url + path, body, {"authorization": "Bearer " + self.token}
        )
        try:
            try:
                reply = self.opener.open(request, timeout=seconds)
            except urllib.error.HTTPError as error:
                if not 400 <= error.code < 500:
                    raise
                reply = error
            with reply:
                page = json.load(reply)
            if not isinstance(page, dict) or page.keys().isdisjoint(("code", "ended")):
                raise ValueError("this is not a page of the server")
            return page
        except (OSError, ValueError, http.client.HTTPException) as error:
            raise NoReply(f"no reply to {path} at {self.url}: {error}") from error

    def page(self, path: str, seconds: float = CLOSING_SECONDS) -> Page:
        """The page for a path.

        A refusal is an exception, so that none is stored as if it were a page.
        """
        page = self.ask(path, seconds=seconds)
        if "code" in page:
            raise Refused(f"the server refuses {path}: {page}")
        return page


class BiddersPort:
    """The port of nginx at which bidders come, asked as they ask: with the certificate's name."""

    def __init__(self, url: str, authority: str) -> None:
        self.url, self.authority = url.rstrip("/"), authority

    def answers(self) -> bool:
        """Whether a page of the server comes from there, or nginx withholds it."""
        try:
            context = ssl.create_default_context(cafile=self.authority or None)
            opener = urllib.request.build_opener(
                Straight,
                urllib.request.ProxyHandler({}),
                urllib.request.HTTPSHandler(context=context),
            )
            with opener.open(self.url + PUBLIC_PAGE, timeout=PAGE_SECONDS):
                return True
        except urllib.error.HTTPError as error:
            return code_of(error) in BARRED
        except (OSError, ValueError, http.client.HTTPException):
            return False


def code_of(error: urllib.error.HTTPError) -> str:
    """The code in the page of a refusal, or nothing if it is another page."""
    try:
        return str(json.load(error)["code"])
    except (OSError, ValueError, LookupError, TypeError, http.client.HTTPException):
        return ""
