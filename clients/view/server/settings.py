"""Reads the settings of an exhibit that is kept running: on each line a name, =, and a value."""
import pathlib
import re
import shlex
from dataclasses import dataclass
from urllib.parse import urlencode

FORMS = {
    "show": re.compile("flight|kiosk|lab"), "language": re.compile("[a-z]{2,3}(-[a-z0-9]{2,8})?"), "idle": re.compile("[1-9][0-9]{0,4}"),
    "sound": re.compile("button|none"), "brightness": re.compile("100|[2-9][0-9]"), "browser": re.compile(r"\S.*")}
MOST_BYTES = 65_536


class WrongSettings(Exception):
    """Settings that can't be used, with the line."""


@dataclass(frozen=True, slots=True)
class Settings:
    """What is shown, and how."""

    show: str = "flight"
    language: str = "en"
    idle: str = "60"
    sound: str = "button"
    brightness: str = "100"
    browser: str = "chromium --kiosk"

    @property
    def command(self) -> list[str]:
        """The browser with its words."""
        return shlex.split(self.browser)

    @property
    def query(self) -> str:
        """What the page is told in its address."""
        return urlencode({"kiosk": self.language, "idle": self.idle, "sound": self.sound, "brightness": self.brightness})


def text_of(path: pathlib.Path) -> str:
    """The text of a file, which may be a device without an end. Raises WrongSettings."""
    with path.open("rb") as file:
        text = file.read(MOST_BYTES + 1)
    if len(text) > MOST_BYTES:
        raise WrongSettings(f"{path} has more than {MOST_BYTES} bytes, which settings can't have")
    return text.decode("utf-8")


def is_command(words: str) -> bool:
    """Whether these words name a program, and no quote among them stays open."""
    try:
        return any(shlex.split(words)[:1])
    except ValueError:
        return False


def read(path: pathlib.Path) -> Settings:
    """The settings of a file; what isn't there is as at first. Raises WrongSettings."""
    found: dict[str, str] = {}
    for number, line in enumerate(text_of(path).splitlines(), 1):
        name, sign, value = (it.strip() for it in line.partition("="))
        if not name or name.startswith("#"):
            continue
        is_value = name in FORMS and FORMS[name].fullmatch(value) and (name != "browser" or is_command(value))
        if not sign or name in found or not is_value:
            raise WrongSettings(f"{path.name}, line {number}: this can't be a setting: {line.strip()}")
        found[name] = value
    return Settings(**found)
