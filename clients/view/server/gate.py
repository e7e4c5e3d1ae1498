"""Which requests the lab's server takes: from its own page in a browser on this machine, and from nothing else.

A page of another site can make a browser send requests here, and a name that it owns can be made to lead here (DNS rebinding). So the
host must be this server's own, an origin must be its page's, and the path must begin with a token that was drawn at the start; the
token also keeps out other users of this machine."""
import hmac
import re
from collections.abc import Mapping, Sequence
from dataclasses import dataclass

MOST_INPUT = 262_144
TYPE_OF_INPUT = "application/x-lvdc-deck"
LENGTH = re.compile("0|[1-9][0-9]{0,9}")

# The headers of a request that matter here: of each all values that were sent.
Headers = Mapping[str, Sequence[str]]
HEADERS = ("Host", "Origin", "Sec-Fetch-Site", "Content-Type", "Content-Length", "Transfer-Encoding")


class Refusal(Exception):
    """A request that isn't taken: the status of HTTP, and a sentence that says why."""

    def __init__(self, status: int, sentence: str) -> None:
        super().__init__(sentence)
        self.status, self.sentence = status, sentence


@dataclass(frozen=True, slots=True)
class Gate:
    """What a request must name: the port that is listened at, and the token."""

    port: int
    token: str

    def path_of(self, method: str, target: str, headers: Headers) -> str:
        """What the request is for: its path after the token. Raises Refusal."""
        host = self._host(headers)
        _check_origin(method, headers, f"http://{host}")
        first, _, rest = target.partition("?")[0].removeprefix("/").partition("/")
        if not hmac.compare_digest(first.encode("utf-8", "replace"), self.token.encode()):
            raise Refusal(404, "There is nothing at this address. The lab's address is the one that it wrote when it was started.")
        return rest

    def _host(self, headers: Headers) -> str:
        """The host that was asked: this one, by its address or its name."""
        hosts = headers["Host"]
        if len(hosts) != 1 or hosts[0] not in (f"127.0.0.1:{self.port}", f"localhost:{self.port}"):
            raise Refusal(421, "This server answers at its own address alone.")
        return hosts[0]


def _check_origin(method: str, headers: Headers, own: str) -> None:
    """Wants the origin to be the lab's own page: where there is one, and always where something is sent."""
    origins = headers["Origin"]
    if list(origins) != [own] and (origins or method == "POST"):
        raise Refusal(403, "Only the lab's own page may ask here.")
    sites = {"same-origin"} if method == "POST" else {"same-origin", "none"}
    if not sites.issuperset(headers["Sec-Fetch-Site"]):
        raise Refusal(403, "Another site may not ask here.")


def length_of_input(headers: Headers) -> int:
    """How many bytes the input has, which is told before it. Raises Refusal."""
    if list(headers["Content-Type"]) != [TYPE_OF_INPUT]:
        raise Refusal(415, f"An input is a deck, and its type is {TYPE_OF_INPUT}.")
    lengths = headers["Content-Length"]
    if headers["Transfer-Encoding"] or len(lengths) != 1 or not LENGTH.fullmatch(lengths[0]):
        raise Refusal(411, "An input must say once how many bytes it has, in decimal digits.")
    if int(lengths[0]) > MOST_INPUT:
        raise Refusal(413, f"An input has at most {MOST_INPUT} bytes here.")
    return int(lengths[0])
