"""Uplinks."""
from . import Case, block

TITLE = "uplinks"
SHOWS = """Images that are patched by checked messages, by `uplink`: each answer, and what a repeated message does."""

EMPTY = "IMAGE\nLVDC 1\nEND\nUPLINK\n"
FRAMES = "OPEN 7 2\nFRAME 7 2 0 01 000 5 6 424\nFRAME 7 1 0 01 001 1 2 3 417\n"


def uplink(name: str, shows: str, messages: str, answers: str, image: str = "LVDC 1\nEND\n", head: str = EMPTY,
           worked: bool = False) -> Case:
    return Case(name, shows, "uplink", head + block(messages), text=block(answers) + image, worked=worked)


def refused(name: str, shows: str, given: str, cause: str, status: int = 2) -> Case:
    return Case(name, shows, "uplink", given, status, "REFUSED %s" % cause)


CASES = [
    uplink("one-load", "A load of one frame is opened, sent, committed; a repeated COMMIT is acknowledged and changes nothing.",
           "OPEN 1 1\nFRAME 1 1 0 01 000 5 407\nCOMMIT 1 407\nCOMMIT 1 407",
           "ACK OPEN 1\nACK FRAME 1 1\nACK COMMIT 1\nACK COMMIT 1", "LVDC 1\n0 01 000 000000005\nEND\n", worked=True),
    uplink("wrong-checks-and-missing-frames",
           "A wrong check word is answered by the right one; a COMMIT names the first frame that is missing; one load is open.",
           "OPEN 1 2\nFRAME 1 1 0 01 000 5 406\nCOMMIT 1 0\nOPEN 2 1",
           "ACK OPEN 1\nNAK Check 000000407\nNAK Missing 1\nNAK Busy 1", worked=True),
    uplink("frames-in-any-order", "Frames are applied in the order of their numbers: frame 2 has the last word where both write.",
           FRAMES + "COMMIT 7 1043", "ACK OPEN 7\nACK FRAME 7 2\nACK FRAME 7 1\nACK COMMIT 7",
           "LVDC 1\n0 01 000 000000005\n0 01 001 000000006\n0 01 002 000000002\n0 01 003 000000003\nEND\n"),
    uplink("each-message-again", "A message may be sent again after its ACK; only a second ABANDON is refused.",
           "OPEN 3 1\nOPEN 3 1\nFRAME 3 1 0 00 000 17 423\nFRAME 3 1 0 00 000 17 23\nFRAME 3 1 0 00 000 17 23\nABANDON "
           "3\nABANDON 3", "ACK OPEN 3\nACK OPEN 3\nNAK Check 000000023\nACK FRAME 3 1\nACK FRAME 3 1\nACK ABANDON 3\nNAK NoLoad"),
    uplink("old-and-busy", "A load's number is above the last committed one; an abandoned load uses up none.",
           "OPEN 5 1\nFRAME 5 1 0 00 000 1 7\nCOMMIT 5 7\nOPEN 5 1\nOPEN 4 1\nOPEN 6 1\nOPEN 6 2\nOPEN 7 1\nABANDON 6\nOPEN 6 2",
           "ACK OPEN 5\nACK FRAME 5 1\nACK COMMIT 5\nNAK Old 5\nNAK Old 5\nACK OPEN 6\nNAK Busy 6\nNAK Busy 6\nACK ABANDON "
           "6\nACK OPEN 6", "LVDC 1\n0 00 000 000000001\nEND\n"),
    uplink("frames-that-are-refused", "NoLoad, Range, Check, Differs, in this order.",
           "FRAME 1 1 0 00 000 1 3\nOPEN 1 1\nFRAME 2 1 0 00 000 1 4\nFRAME 1 2 0 00 000 1 0\nFRAME 1 1 0 00 377 1 2 0\nFRAME 1 "
           "1 0 00 000 1 0\n" "FRAME 1 1 0 00 000 1 3\nFRAME 1 1 0 00 000 2 4\nFRAME 1 1 0 00 001 1 4",
           "NAK NoLoad\nACK OPEN 1\nNAK NoLoad\nNAK Range\nNAK Range\nNAK Check 000000003\nACK FRAME 1 1\nNAK Differs 1\nNAK "
           "Differs 1"),
    uplink("no-form",
           "Each line after UPLINK is a message; one without a form is answered NAK Form, a blank line and a comment too.",
           "OPEN 0 1\nOPEN 1 65\nOPEN 1\n* A COMMENT\n \nopen 1 1\nFRAME 1 1 4 00 000 1 0\nFRAME 1 1 0 00 000 0\nFRAME 1 1 0 00 "
           "000 1 1 1 1 1 1 1 1 1 0\n" "COMMIT 1 400000000\nOPEN 1000000 1\n\tOPEN  000001\t01 ", 11 * "NAK Form\n" + "ACK OPEN 1"),
    uplink("a-commit-that-is-refused", "NoLoad, Missing, Check; a refused COMMIT changes nothing.",
           "COMMIT 1 0\nOPEN 1 2\nCOMMIT 1 0\nFRAME 1 1 0 00 000 1 3\nCOMMIT 1 3\nFRAME 1 2 0 00 001 1 5\nCOMMIT 1 11\nCOMMIT 1 "
           "10\nCOMMIT 1 11",
           "NAK NoLoad\nACK OPEN 1\nNAK Missing 1\nACK FRAME 1 1\nNAK Missing 2\nACK FRAME 1 2\nNAK Check 000000010\nACK COMMIT "
           "1\nNAK NoLoad", "LVDC 1\n0 00 000 000000001\n0 00 001 000000001\nEND\n"),
    uplink("a-version-2-image",
           "The patched image keeps its version, its start constant and its pairs; written words 0 stand in it.",
           "OPEN 1 1\nFRAME 1 1 3 17 376 0 0 37600\nFRAME 1 1 3 17 376 0 0 40000\nCOMMIT 1 40000",
           "ACK OPEN 1\nNAK Check 000040000\nACK FRAME 1 1\nACK COMMIT 1",
           "LVDC 2\nSTART 000000216\nSIMPLEX 0\n3 17 376 000000000\n3 17 377 000000000\n4 01 000 000000007\nEND\n",
           "* A version 2 image.\nIMAGE\nLVDC 2\nSTART 000000216\nSIMPLEX 0\n4 01 000 000000007\nEND\n\n* Then the "
           "messages.\nUPLINK\n"),
    uplink("a-word-0-is-written", "A word 0 that is written stands in the image.", "OPEN 1 1\nFRAME 1 1 0 00 000 0 2\nCOMMIT 1 2",
           "ACK OPEN 1\nACK FRAME 1 1\nACK COMMIT 1", "LVDC 1\n0 00 000 000000000\nEND\n"),
    refused("no-uplink", "UPLINK is the first line after the image that isn't skipped.", "IMAGE\nLVDC 1\nEND\nRUN 1\n",
            "BadSection 4"),
    refused("no-line-after-the-image", "One more than the last line is named.", "IMAGE\nLVDC 1\nEND\n", "BadSection 4"),
    refused("no-image", "The first line is IMAGE.", "SOURCE\n END\nUPLINK\n", "NoProgram 1"),
    refused("an-image-without-its-end", "The line IMAGE is named.", "IMAGE\nLVDC 1\nUPLINK\n", "BadSection 1"),
    refused("a-long-line-before-uplink", "Lines before UPLINK have at most 120 bytes, outside the image.",
            "IMAGE\nLVDC 1\nEND\n*" + 120 * "X" + "\nUPLINK\n", "BadLine 4"),
    refused("an-image-with-a-fault", "The image's own faults come last, status 4.",
            "IMAGE\nLVDC 1\n0 00 000 400000000\nEND\nUPLINK\nOPEN 1 1\n", "BadWord 3", 4),
    uplink("an-id-of-seven-digits", "An id and a number of frames have at most six digits.", "OPEN 0000001 1\nOPEN 1 0000001",
           "NAK Form\nNAK Form"),
    uplink("a-check-word-past-2-to-the-26", "Check words are modulo 2^26.",
           "OPEN 1 1\nFRAME 1 1 0 00 000 377777777 1 2\nCOMMIT 1 2", "ACK OPEN 1\nACK FRAME 1 1\nACK COMMIT 1",
           "LVDC 1\n0 00 000 377777777\n0 00 001 000000001\nEND\n"),
    uplink("a-message-of-121-bytes", "A message has at most 120 bytes.", "OPEN" + 114 * " " + "1 1\nOPEN" + 113 * " " + "1 1",
           "NAK Form\nACK OPEN 1"),
    uplink("a-frame-that-differs-is-lost", "A frame that was staged stays as it was.",
           "OPEN 1 1\nFRAME 1 1 0 00 000 1 3\nFRAME 1 1 0 00 000 2 4\nCOMMIT 1 3",
           "ACK OPEN 1\nACK FRAME 1 1\nNAK Differs 1\nACK COMMIT 1", "LVDC 1\n0 00 000 000000001\nEND\n"),
    uplink("abandon-of-another-load", "ABANDON names the load that is open.", "OPEN 1 1\nABANDON 2\nOPEN 2 1",
           "ACK OPEN 1\nNAK NoLoad\nNAK Busy 1"),
    refused("an-image-with-more-on-its-line", "IMAGE stands alone on its line.", "IMAGE X\nLVDC 1\nEND\nUPLINK\n", "NoProgram 1"),
    refused("no-uplink-after-a-bad-image", "The image is read after the line UPLINK is found.", "IMAGE\nLVDC 3\nEND\n", "BadSection 4"),
]
