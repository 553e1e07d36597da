"""Calibration: a page with every character and every colour of the suite, for who captures pictures."""
from ...family import Family
from ...page import Page
from ...words import BLACK, BLUE, CYAN, GREEN, GREY, MAGENTA, ORANGE, RED, WHITE, YELLOW

FAMILY = Family("calibration", "The page from which a reader of captured pictures learns", "The picture", "Attributes 13 to 22", "none: a tool of the suite")

# Every colour that a wanted frame has, in the order of the patches; two cells a patch.
COLOURS = [BLACK, WHITE, RED, GREEN, BLUE, YELLOW, CYAN, MAGENTA, GREY, ORANGE]
# Every character that a wanted frame has, a row each (suite/make --wanted tells where one lacks).
CHARACTERS = ["".join(map(chr, range(33, 80))), "".join(map(chr, range(80, 127)))]
OTHERS = [[0xA0, 0xA1, 0xA9, 0xC3, 0xE9, 0x7FF, 0x800, 0x20AC, 0xD7FF, 0xE000], [0xFFFD, 0xFFFF, 0x10000, 0x1F600, 0xF3FFF, 0x10FFFF]]


def cases():
    page = Page(log=False)
    for place, tone in enumerate(COLOURS):
        page.scene.rectangle(10 + place, 24 + 48 * place, 32, 24, 32, tone)
    for place, row in enumerate(CHARACTERS + ["".join(map(chr, row)) for row in OTHERS]):
        page.scene.words(40 + place, 24, 96 + 32 * place, 624, 16, row.encode("utf-8", "surrogatepass"))
    for place, tone in enumerate(COLOURS):
        page.scene.words(60 + place, 24 + 48 * place, 256, 24, 16, "Aa", TextColour=tone, BackgroundColour=WHITE if tone == BLACK else BLACK)
    yield page.case("page", "Every colour and every character that the suite shows, each at its place", "")
