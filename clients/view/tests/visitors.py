"""What no screen of visitors may have: an octal number, a mnemonic, or the name of a file."""
import re

MNEMONICS = "CLA ADD SUB RSU STO PIO MPY MPH DIV AND XOR TRA TMI TNZ HOP CDS SHF EXM".split()
OCTAL = [r"\b[0-7]{9}\b", r"\b[0-7] [0-7]{2} [0-7]{3}\b", r"\b[0-7] [0-7]{2} [01] [0-7]{3}\b", r"(?<![\d,.])0[0-7]{1,2}\b"]
FORMS = [*OCTAL, r"\b(?:" + "|".join(MNEMONICS) + r")\b", r"\w\.(?:deck|js|html|txt|source|py)\b"]
NOT_FOR_VISITORS = re.compile("|".join(FORMS))

# All that stands on the page or is read aloud: texts, what pops up, and names.
ALL_TEXTS = """[...document.querySelectorAll('body *')]
    .filter((it) => it.checkVisibility() && !['SCRIPT', 'STYLE'].includes(it.tagName))
    .flatMap((it) => [
        ...['aria-label', 'title', 'aria-valuetext'].map((name) => it.getAttribute(name)), it.tagName === 'OPTION' ? it.textContent : null,
        ...[...it.childNodes].filter((child) => child.nodeType === 3 || child.nodeName === 'title').map((child) => child.textContent)])
    .filter((it) => it && it.trim()).join(' | ')"""


def unreadable(text: str) -> list[str]:
    """What visitors can't read."""
    return NOT_FOR_VISITORS.findall(text)
