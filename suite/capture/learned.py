"""What is learned from a capture of the calibration page: where the picture lies, how noisy it is, its colours and its glyphs."""
from .cells import COLUMNS, COUNT, ROWS, distance, in_luma, mean, parted, points, unrest

SHIFTS = [(x, y) for x in range(-3, 4) for y in range(-3, 4)]
LEAST_UNREST = 60       # a cell whose brightness varies less than this, and than the noise allows, has one colour,
COLOUR_UNREST = 1500    # if its colour does not vary by more than this, as that of letters does which are as bright as what is behind them


class Learned:
    """`page` is the wanted frame of the calibration page, cell by cell: lists of (character, fore, back)."""

    def __init__(self, picture, page):
        self.page, self.shift = page, (0, 0)
        self.patches = [(column, row) for row in range(ROWS) for column in range(COLUMNS) if page[row][column][0] == " "]
        self.shift = min(SHIFTS, key=lambda shift: self.unrest_at(picture, shift))
        blank = [unrest(points(picture, column, row, self.shift)) for column, row in self.edge_patches()]
        noise = max(bright for bright, _ in blank)
        self.limit, self.colour_limit = max(LEAST_UNREST, 1.25 * noise + 20), COLOUR_UNREST + 5 * noise
        self.brightest_black = 12 + 5 * noise ** 0.5
        self.colours = self.learn_colours(picture)
        self.mixing = self.learn_mixing(picture)
        self.glyphs, self.alike = self.learn_glyphs(picture)

    def edge_patches(self):
        """Cells of one colour beside cells of another, which a shift would mix."""
        return [(column, row) for column, row in self.patches if self.page[row][column][2] != "000000"]

    def unrest_at(self, picture, shift):
        return sum(unrest(points(picture, column, row, shift))[1] for column, row in self.edge_patches())

    def parts_of(self, some):
        """The two colours of a cell and its shape; None where it has one colour."""
        bright, colour = unrest(some)
        if bright < self.limit and colour < self.colour_limit:
            return None
        return parted(some, bright >= self.limit)

    def learn_colours(self, picture):
        """The captured colour of each colour of the page, as a background."""
        seen = {"000000": [points(picture, column, 0, self.shift) for column in range(4)]}
        for column, row in self.edge_patches():
            seen.setdefault(self.page[row][column][2], []).append(points(picture, column, row, self.shift))
        return {name: mean([point for one in cells for point in one]) for name, cells in seen.items()}

    def letters(self):
        return [(column, row) for row in range(ROWS) for column in range(COLUMNS) if self.page[row][column][0] != " "]

    def learn_mixing(self, picture):
        """How much of the background's colour, brightness aside, comes into that of thin strokes: 4:2:0 mixes them."""
        above = below = 0.0
        for column, row in self.letters():
            _, fore, back = self.page[row][column]
            if fore not in self.colours or back not in self.colours or fore == back:
                continue
            parts = self.parts_of(points(picture, column, row, self.shift))
            if parts is None:
                continue
            low, high, _ = parts
            if distance(low, self.colours[fore]) < distance(low, self.colours[back]):
                low, high = high, low
            got, true, behind = in_luma(high), in_luma(self.colours[fore]), in_luma(self.colours[back])
            for part in (1, 2):
                above += (got[part] - true[part]) * (behind[part] - true[part])
                below += (behind[part] - true[part]) ** 2
        return min(0.9, max(0.0, above / below)) if below else 0.0

    def learn_glyphs(self, picture):
        """The points of each character; those that look alike stand for the first of them."""
        glyphs, alike = {}, {}
        for column, row in self.letters():
            character, fore, back = self.page[row][column]
            if fore != "ffffff" or back != "000000" or character in alike:
                continue
            some = points(picture, column, row, self.shift)
            parts = self.parts_of(some)
            bits = parts[2] if parts else 0
            if bits and distance(mean([point for at, point in enumerate(some) if bits >> at & 1]), self.colours["ffffff"]) > distance(mean(some), self.colours["ffffff"]):
                bits ^= (1 << COUNT) - 1
            same = next((known for known, shape in glyphs.items() if (shape ^ bits).bit_count() <= 2), None if bits else " ")
            if same is None:
                glyphs[character] = bits
            alike[character] = same or character
        return glyphs, alike

    def back_of(self, colour):
        return min(self.colours, key=lambda name: distance(self.colours[name], colour))

    def fore_of(self, colour, back):
        """The colour of a character before this background, with what is mixed into it."""
        got, behind = in_luma(colour), in_luma(self.colours[back])

        def error(name):
            true = in_luma(self.colours[name])
            mixed = [(1 - self.mixing) * true[part] + self.mixing * behind[part] for part in (1, 2)]
            return (true[0] - got[0]) ** 2 + (1 - self.mixing) * ((mixed[0] - got[1]) ** 2 + (mixed[1] - got[2]) ** 2)
        return min((name for name in self.colours if name != back), key=error)

    def cell(self, some):
        """What a cell shows: a character, its colour, and the colour behind it."""
        parts = self.parts_of(some)
        if parts is None:
            return " ", "000000", self.back_of(mean(some))
        low, high, bits = parts
        full = (1 << COUNT) - 1
        best = min(((shape ^ seen).bit_count(), turned, character) for character, shape in self.glyphs.items() for turned, seen in ((False, bits), (True, bits ^ full)))
        if best[1]:
            low, high = high, low
        back = self.back_of(low)
        return best[2], self.fore_of(high, back), back
