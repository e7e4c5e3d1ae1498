"""When products and quotients stand, and what they are."""
from . import Case, deck

TITLE = "delays"
SHOWS = """When the results of MPY, MPH and DIV stand, what holds the machine, what replaces or ends a pending result, and the
results themselves. All of this is this project's profile: a machine with other delays differs here and in nothing else."""

MULTIPLY = "17000 01000 17775 17775 17775 17775 17775"
DIVIDE = "17000 03001" + 9 * " 17775"
HIGH = "17000 05000 10002"
TWICE = "17000 01000 17001 01001 10004"
SOON = "17000 01000 17001 17001 17001 01001 10006"


def product(name: str, shows: str, a: str, m: str, result: str) -> Case:
    """Multiplies two words: the product is in PQ at the fifth time after MPY."""
    return Case(name, shows, "run", deck("%s by %s." % (a, m), "17000 01001 17002 17002 17002 17002 17775", "%s %s" % (a, m), 7),
                has="A %s\nPQ %s" % (result, result))


def quotient(name: str, shows: str, a: str, m: str, result: str) -> Case:
    """Divides two words: the quotient is in PQ at the ninth time after DIV."""
    return Case(name, shows, "run", deck("%s by %s." % (a, m), "17000 03001" + 8 * " 17002" + " 17775", "%s %s" % (a, m), 11),
                has="A %s\nPQ %s" % (result, result))


CASES = [
    Case("a-product-isnt-there-in-the-third-time", "MPY at time 1: after time 4 PQ is still 0.", "run",
         deck("Half by half. MPY stands at 001, CLA 775 takes PQ from 002 on.", MULTIPLY, "100000000", 5), has="PQ 000000000",
         worked=True),
    Case("a-product-lands-in-the-fourth-time", "MPY at time 1 lands in time 5. The instruction of time 5 still takes the old PQ.",
         "run", deck("Half by half is a quarter.", MULTIPLY, "100000000", 6), has="A 000000000\nPQ 040000000", worked=True),
    Case("a-product-is-found-by-the-fifth", "The instruction of time 6 is the first to take the product from PQ.", "run",
         deck("Half by half is a quarter.", MULTIPLY, "100000000", 7), has="A 040000000", worked=True),
    Case("the-only-product-that-wraps", "The least fraction by itself would be 1, and wraps to -1.", "run",
         deck("-1 by -1.", MULTIPLY, "200000000", 7), has="A 200000000", worked=True),
    Case("a-quotient-isnt-found-in-the-eighth-time",
         "DIV at time 1 lands in time 9. The instruction of time 9 still takes the old PQ.", "run", deck("A quarter by half.",
         DIVIDE, "040000000 100000000", 10), has="A 000000000\nPQ 100000000", worked=True),
    Case("a-quotient-is-found-by-the-ninth", "The instruction of time 10 is the first to take the quotient from PQ.", "run",
         deck("A quarter by half is half.", DIVIDE, "040000000 100000000", 11), has="A 100000000", worked=True),
    Case("nothing-by-nothing", "0 by 0 is the greatest fraction. DIV is the first instruction, so it lands in time 8.", "run",
         deck("Memory has no words: both are 0.", "03000 10001", "", 9), has="PQ 177777774", worked=True),
    Case("a-negative-word-by-0", "A negative word by 0 is the least fraction.", "run",
         deck("-4 by 0.", "17000 03001 10002", "377777774", 10), has="PQ 200000000", worked=True),
    Case("mph-holds-the-machine",
         "After MPH at time 1 times 2 to 4 are held: nothing is fetched, A stays, the place is after MPH.", "run",
         deck("Half by half.", HIGH, "100000000", 5), has="PLACE 0 00 0 002\nA 100000000\nPQ 000000000\nTIMES 5", worked=True),
    Case("mph-lands-in-a-and-pq", "In the fourth held time, time 5, the product lands in PQ and in A.", "run",
         deck("Half by half.", HIGH, "100000000", 6), has="PLACE 0 00 0 002\nA 040000000\nPQ 040000000\nSAVER 000000000",
         worked=True),
    Case("after-mph-the-next-instruction", "The instruction after MPH is that of time 6.", "run",
         deck("TRA 002 at 002 loads the saver.", HIGH, "100000000", 7), has="SAVER 000006016", worked=True),
    Case("a-new-product-before-the-old-one",
         "A second MPY replaces what is pending: in time 5, where the first would land, PQ stays 0.", "run",
         deck("Half by half at time 1, then a quarter by a quarter at time 3.", TWICE, "100000000 040000000", 6),
         has="PQ 000000000", worked=True),
    Case("the-new-product-lands", "The second product lands four times after its own MPY.", "run",
         deck("Half by half at time 1, then a quarter by a quarter at time 3.", TWICE, "100000000 040000000", 8),
         has="PQ 010000000", worked=True),
    Case("a-new-product-as-the-old-one-lands", "An MPY in the very time in which the old product lands doesn't touch it.", "run",
         deck("Half by half at time 1, a quarter by a quarter at time 5.", SOON, "100000000 040000000", 6), has="PQ 040000000",
         worked=True),
    Case("then-the-newer-one-lands", "Four times later the newer product lands over the older one.", "run",
         deck("Half by half at time 1, a quarter by a quarter at time 5.", SOON, "100000000 040000000", 10), has="PQ 010000000",
         worked=True),
    Case("a-store-to-pq-wins", "STO 775 in the time in which a product would land: PQ is A, and nothing is pending.", "run",
         deck("The product of time 1 would land in time 5, that of STO 775.", "17000 01000 17000 17000 17000 13775", "100000000",
         6), has="PQ 100000000", worked=True),
    Case("a-store-to-pq-ends-what-is-pending", "STO 775 two times after MPY: the product never lands.", "run",
         deck("STO 775 puts 5 into PQ, which stays.", "17000 01000 17001 13775 10004", "100000000 000000005", 10),
         has="PQ 000000005"),
    Case("a-product-in-place-of-a-quotient", "MPY replaces a DIV that is still pending.", "run",
         deck("DIV at time 1, MPY at time 3, which lands in time 7. Time 9 brings nothing.", "17000 03001 17000 01000 10004",
              "040000000 100000000", 12), has="PQ 010000000"),
    Case("a-quotient-in-place-of-a-product", "DIV replaces an MPY that is still pending, and lands eight times later.", "run",
         deck("MPY at time 1, DIV at time 2: nothing in time 5, the quotient in time 10.", "17000 01001 03001 10003",
         "040000000 100000000", 10), has="PQ 000000000"),
    Case("then-the-quotient-lands", "The same one time later.", "run",
         deck("MPY at time 1, DIV at time 2: the quotient in time 10.", "17000 01001 03001 10003", "040000000 100000000", 11),
         has="PQ 100000000"),
    Case("mph-ends-a-quotient", "MPH replaces a DIV that is still pending.", "run",
         deck("DIV at time 1, MPH at time 2, which lands in time 6. No quotient comes in time 9.", "17000 03001 05001 10003",
              "040000000 100000000", 12), has="A 020000000\nPQ 020000000"),
    Case("a-stop-while-a-product-is-pending", "A machine that has stopped stays: the product that is pending never lands.", "run",
         deck("MPY at time 1, EXM at time 2.", "17000 01000 16600", "100000000", 9), 6,
         has="END STOPPED 8 EXM\nTIMES 3\nPQ 000000000"),
    Case("a-product-lands-in-the-time-of-a-stop", "A result lands also in the time in which the machine stops.", "run",
         deck("MPY at time 1, EXM at time 5.", "17000 01000 17000 17000 17000 16600", "100000000", 9), 6,
         has="END STOPPED 17 EXM\nTIMES 6\nPQ 040000000"),
    product("the-lowest-two-bits-dont-count", "A product takes the upper 24 bits of both words.", "100000003", "100000003",
            "040000000"),
    product("a-product-is-rounded-down",
            "The least negative fraction by the least positive one is too small for a step, and rounded down to -1.", "377777774",
            "000000004", "377777777"),
    product("a-product-of-two-signs", "Half by minus half.", "100000000", "300000000", "340000000"),
    quotient("a-quotient-by-the-least-negative-word", "A quarter by the negative word that is nearest to 0 is the least fraction.", "040000000",
             "377777774", "200000000"),
    quotient("a-quotient-of-two-signs", "A quarter by minus half.", "040000000", "300000000", "300000000"),
    quotient("a-quotient-is-cut-towards-0", "One third, with 24 bits, and its two lowest bits 0.", "000000004", "000000014",
             "052525250"),
    quotient("a-negative-quotient-is-cut-towards-0", "Minus one third: the magnitude is cut, and then negated.", "377777774",
             "000000014", "325252530"),
    quotient("equal-magnitudes-are-too-large", "A word by its negative isn't below it in magnitude: the least fraction.",
             "100000000", "300000000", "200000000"),
    product("the-fraction-of-a-negative-factor-is-rounded-down",
            "-1 is the fraction -1/4, rounded down -1: by a half that is -2 of the lowest bits.", "377777777", "100000000", "377777776"),
    quotient("the-fraction-of-a-negative-dividend-is-rounded-down",
             "-1 is the fraction -1/4, rounded down -1: by a half that is -2, and times 4.", "377777777", "100000000", "377777770"),
    quotient("a-quotient-of-two-negative-words-is-positive", "-1/2 by -1 is 1/2.", "300000000", "200000000", "100000000"),
    quotient("a-quotient-of-equal-magnitudes-and-signs-is-the-greatest", "1/2 by 1/2 would be 1, which doesn't fit.", "100000000",
             "100000000", "177777774"),
    quotient("a-quotient-of-equal-magnitudes-and-two-signs-is-the-lowest", "1/2 by -1/2 is -1.", "100000000", "300000000",
             "200000000"),
]
