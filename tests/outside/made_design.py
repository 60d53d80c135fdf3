#!/usr/bin/env python3
"""Makes a placed design of cells in rows: a LEF, a DEF and a text of guides, by number.

The same words give the same bytes on every machine. Says on one line what was made; `wire` there
is the sum of half the perimeters of the nets' hulls, `demand` its share of the length of all
tracks above the lowest layer, in percent.
"""

import argparse
import os
from bisect import bisect_left, bisect_right
from fractions import Fraction
from math import isqrt

UNITS = 1000
PITCH = 200
WIDTH = 100
SPACING = 100
HEIGHT = 10 * PITCH
RAIL = 200
STRAP = 600

# name, sites, outputs and inputs with their rectangles on M1, obstructions on M1; from the lower
# left corner. A vertex stands at 100, 300, .. in x and in y; CK of DFF holds none.
CELLS = [
    ("INV", 2,
     [("Y", [(250, 1050, 350, 1550)])],
     [("A", [(50, 650, 150, 950)])],
     []),
    ("NAND2", 3,
     [("Y", [(450, 450, 550, 1150)])],
     [("A", [(50, 650, 150, 950)]), ("B", [(250, 1050, 350, 1350)])],
     [(50, 1250, 150, 1550)]),
    ("NOR2", 3,
     [("Y", [(450, 850, 550, 1550), (250, 1450, 350, 1550)])],
     [("A", [(50, 1050, 150, 1350)]), ("B", [(250, 650, 350, 750)])],
     [(50, 450, 150, 750)]),
    ("DFF", 10,
     [("Q", [(1850, 850, 1950, 1350)])],
     [("D", [(250, 650, 350, 950)]), ("CK", [(750, 850, 850, 1150)])],
     [(50, 1250, 550, 1350), (1050, 450, 1150, 1550), (1350, 850, 1650, 950)]),
]


class Numbers:
    """The generator splitmix64."""

    def __init__(self, seed):
        self.state = seed % 2**64

    def below(self, most):
        self.state = (self.state + 0x9E3779B97F4A7C15) % 2**64
        word = self.state
        word = (word ^ (word >> 30)) * 0xBF58476D1CE4E5B9 % 2**64
        word = (word ^ (word >> 27)) * 0x94D049BB133111EB % 2**64
        return (word ^ (word >> 31)) * most >> 64

    def draw(self, items, count):
        """Takes `count` of the items, in any order; mixes the list."""
        for at in range(count):
            other = at + self.below(len(items) - at)
            items[at], items[other] = items[other], items[at]
        return items[:count]

    def weighed(self, weights):
        value = self.below(sum(weights))
        for index, weight in enumerate(weights):
            if value < weight:
                return index
            value -= weight


def is_horizontal(level):
    return level % 2 == 0


def micron(value):
    sign = "-" if value < 0 else ""
    whole, part = divmod(abs(value), UNITS)
    return f"{sign}{whole}.{part:03}".rstrip("0").rstrip(".")


def microns(values):
    return " ".join(map(micron, values))


def lef(layers):
    out = ["VERSION 5.8 ;", 'BUSBITCHARS "[]" ;', 'DIVIDERCHAR "/" ;',
           "UNITS", f"  DATABASE MICRONS {UNITS} ;", "END UNITS", "MANUFACTURINGGRID 0.005 ;"]
    for level in range(layers):
        if level > 0:
            out += [f"LAYER V{level}", "  TYPE CUT ;", f"  SPACING {micron(SPACING)} ;", f"END V{level}"]
        out += [f"LAYER M{level + 1}", "  TYPE ROUTING ;",
                f"  DIRECTION {'HORIZONTAL' if is_horizontal(level) else 'VERTICAL'} ;",
                f"  PITCH {micron(PITCH)} ;", f"  WIDTH {micron(WIDTH)} ;",
                f"  SPACING {micron(SPACING)} ;", f"END M{level + 1}"]
    for level in range(1, layers):
        name = f"V{level}{level + 1}"
        out.append(f"VIA {name} DEFAULT")
        for layer, half in ((f"M{level}", 50), (f"V{level}", 25), (f"M{level + 1}", 50)):
            out += [f"  LAYER {layer} ;", f"    RECT {microns((-half, -half, half, half))} ;"]
        out.append(f"END {name}")
    out += ["SITE core", "  CLASS CORE ;", f"  SIZE {micron(PITCH)} BY {micron(HEIGHT)} ;", "END core"]

    def pin(name, direction, use, rectangles):
        lines = [f"  PIN {name}", f"    DIRECTION {direction} ;", f"    USE {use} ;"]
        if use != "SIGNAL":
            lines.append("    SHAPE ABUTMENT ;")
        lines += ["    PORT", "      LAYER M1 ;"]
        lines += [f"        RECT {microns(rectangle)} ;" for rectangle in rectangles]
        return lines + ["    END", f"  END {name}"]

    for name, sites, outputs, inputs, obstructions in CELLS:
        width = sites * PITCH
        out += [f"MACRO {name}", "  CLASS CORE ;", "  ORIGIN 0 0 ;",
                f"  SIZE {micron(width)} BY {micron(HEIGHT)} ;", "  SYMMETRY X Y ;", "  SITE core ;"]
        for pin_name, rectangles in inputs:
            out += pin(pin_name, "INPUT", "CLOCK" if pin_name == "CK" else "SIGNAL", rectangles)
        for pin_name, rectangles in outputs:
            out += pin(pin_name, "OUTPUT", "SIGNAL", rectangles)
        half = RAIL // 2
        out += pin("VDD", "INOUT", "POWER", [(0, HEIGHT - half, width, HEIGHT + half)])
        out += pin("VSS", "INOUT", "GROUND", [(0, -half, width, half)])
        if obstructions:
            out += ["  OBS", "    LAYER M1 ;"]
            out += [f"      RECT {microns(rectangle)} ;" for rectangle in obstructions]
            out.append("  END")
        out.append(f"END {name}")
    out.append("END LIBRARY")
    return out


class Design:
    def __init__(self, options):
        self.options = options
        self.numbers = Numbers(options.seed)
        self.place()
        self.connect()

    def place(self):
        """Cells in rows: kinds[i], row_of[i], site_of[i] for each cell."""
        options, numbers = self.options, self.numbers
        count = max(options.nets + 1, -(-options.nets * options.cells.numerator // options.cells.denominator))
        self.kinds = [numbers.weighed(options.mix) for _ in range(count)]
        widths = [CELLS[kind][1] for kind in self.kinds]
        whole = sum(widths)
        needed = -(-whole * options.use.denominator // options.use.numerator)
        self.rows = max(2, isqrt(needed * PITCH // HEIGHT))
        rows = [[] for _ in range(self.rows)]
        before = 0
        for cell, width in enumerate(widths):
            rows[before * self.rows // whole].append(cell)
            before += width
        taken = [sum(widths[cell] for cell in row) for row in rows]
        self.sites = max(-(-needed // self.rows), max(taken))
        self.row_of, self.site_of = [0] * count, [0] * count
        for number, row in enumerate(rows):
            free = self.sites - taken[number]
            gaps = sorted(numbers.below(free + 1) for _ in row)
            before = 0
            for cell, gap in zip(row, gaps):
                self.row_of[cell], self.site_of[cell] = number, before + gap
                before += widths[cell]
        self.in_row = rows
        self.sites_in_row = [[self.site_of[cell] for cell in row] for row in rows]
        self.width, self.height = self.sites * PITCH, self.rows * HEIGHT

    def connect(self):
        """nets[i] has pairs of a cell and a pin, the driver first."""
        options, numbers = self.options, self.numbers
        self.free = [[pin for pin, _ in CELLS[kind][3]] for kind in self.kinds]
        drivers = numbers.draw(list(range(len(self.kinds))), options.nets)
        sizes = [1 + numbers.weighed(options.pins) for _ in drivers]
        inputs = sum(map(len, self.free))
        at = 0
        while sum(sizes) > inputs:
            sizes[at] = max(1, sizes[at] - 1)
            at = (at + 1) % len(sizes)
        self.nets = []
        for driver, size in zip(drivers, sizes):
            sinks = numbers.draw(self.near(driver, size), size)
            for cell, pin in sinks:
                self.free[cell].remove(pin)
            self.nets.append([(driver, CELLS[self.kinds[driver]][2][0][0])] + sinks)

    def near(self, driver, size):
        """Free inputs near a cell, `size` or more; the window grows until it has so many."""
        rows, sites = self.options.rows, self.options.sites
        while True:
            found = self.window(driver, rows, sites)
            is_whole = rows >= self.rows and sites >= self.sites
            if is_whole and len(found) < size:
                found += [(driver, pin) for pin in self.free[driver]]
            if len(found) >= size:
                return found
            rows, sites = rows + 1, sites + 10

    def window(self, driver, rows, sites):
        row, site = self.row_of[driver], self.site_of[driver]
        found = []
        for other in range(max(0, row - rows), min(self.rows, row + rows + 1)):
            places = self.sites_in_row[other]
            first, last = bisect_left(places, site - sites), bisect_right(places, site + sites)
            for cell in self.in_row[other][first:last]:
                if cell != driver:
                    found += [(cell, pin) for pin in self.free[cell]]
        return found

    def rectangles(self, cell, name):
        """The rectangles of a cell's pin, placed."""
        _, _, outputs, inputs, _ = CELLS[self.kinds[cell]]
        x, y = self.site_of[cell] * PITCH, self.row_of[cell] * HEIGHT
        found = next(rectangles for pin, rectangles in outputs + inputs if pin == name)
        if self.row_of[cell] % 2 == 0:
            return [(x + a, y + b, x + c, y + d) for a, b, c, d in found]
        return [(x + a, y + HEIGHT - d, x + c, y + HEIGHT - b) for a, b, c, d in found]

    def hull(self, net):
        all_of = [rectangle for cell, pin in net for rectangle in self.rectangles(cell, pin)]
        return (min(r[0] for r in all_of), min(r[1] for r in all_of),
                max(r[2] for r in all_of), max(r[3] for r in all_of))

    def tracks(self, level):
        return self.height // PITCH if is_horizontal(level) else self.width // PITCH

    def blockages(self):
        """Pairs of a layer and a rectangle, on M2 and M3 in turn."""
        numbers, out = self.numbers, []
        for index in range(self.options.blockages):
            level = 1 + index % 2 if self.options.layers > 2 else 1
            size = (1, 10) if level == 1 else (20, 3)
            columns, rows = min(size[0], self.tracks(1)), min(size[1], self.tracks(0))
            x = numbers.below(self.tracks(1) - columns + 1) * PITCH
            y = numbers.below(self.tracks(0) - rows + 1) * PITCH
            out.append((f"M{level + 1}", (x + 50, y + 50, x + columns * PITCH - 50, y + rows * PITCH - 50)))
        return out

    def rails(self, odd):
        """The wiring of a power net: a rail at each second edge of a row, VDD with the strap."""
        paths = [f"M1 {RAIL} + SHAPE FOLLOWPIN ( 0 {y} ) ( {self.width} * )"
                 for y in range(odd * HEIGHT, self.height + 1, 2 * HEIGHT)]
        if odd:
            layers = self.options.layers
            top = f"M{layers} {STRAP} + SHAPE STRIPE"
            stack = " ".join(f"V{level}{level + 1}" for level in range(1, layers))
            if is_horizontal(layers - 1):
                y = self.rows // 4 * 2 * HEIGHT + HEIGHT
                paths.append(f"{top} ( 0 {y} ) ( {self.width} * )")
                ends = [(x * PITCH, y) for x in (self.sites // 4, self.sites - self.sites // 4)]
            else:
                x = self.sites // 2 * PITCH
                paths.append(f"{top} ( {x} 0 ) ( * {self.height} )")
                ends = [(x, y) for y in range(HEIGHT, self.height + 1, 2 * HEIGHT)]
            paths += [f"M1 0 + SHAPE STRIPE ( {x} {y} ) {stack}" for x, y in ends]
        return "  + ROUTED " + "\n    NEW ".join(paths) + " ;"

    def def_lines(self):
        options = self.options
        horizontal = " ".join(f"M{level + 1}" for level in range(0, options.layers, 2))
        vertical = " ".join(f"M{level + 1}" for level in range(1, options.layers, 2))
        cell_side = options.gcell * PITCH
        out = ["VERSION 5.8 ;", 'DIVIDERCHAR "/" ;', 'BUSBITCHARS "[]" ;',
               f"DESIGN made_{options.nets}_{options.seed} ;", f"UNITS DISTANCE MICRONS {UNITS} ;",
               f"DIEAREA ( 0 0 ) ( {self.width} {self.height} ) ;"]
        for row in range(self.rows):
            out.append(f"ROW row_{row} core 0 {row * HEIGHT} {self.orientation(row)} "
                       f"DO {self.sites} BY 1 STEP {PITCH} 0 ;")
        out += [f"TRACKS Y {PITCH // 2} DO {self.tracks(0)} STEP {PITCH} LAYER {horizontal} ;",
                f"TRACKS X {PITCH // 2} DO {self.tracks(1)} STEP {PITCH} LAYER {vertical} ;",
                f"GCELLGRID X 0 DO {self.width // cell_side + 1} STEP {cell_side} ;",
                f"GCELLGRID Y 0 DO {self.height // cell_side + 1} STEP {cell_side} ;",
                f"COMPONENTS {len(self.kinds)} ;"]
        for cell, kind in enumerate(self.kinds):
            out.append(f"- u{cell} {CELLS[kind][0]} + PLACED ( {self.site_of[cell] * PITCH} "
                       f"{self.row_of[cell] * HEIGHT} ) {self.orientation(self.row_of[cell])} ;")
        out.append("END COMPONENTS")
        blockages = self.blockages()
        if blockages:
            out.append(f"BLOCKAGES {len(blockages)} ;")
            out += [f"- LAYER {layer} RECT ( {a} {b} ) ( {c} {d} ) ;" for layer, (a, b, c, d) in blockages]
            out.append("END BLOCKAGES")
        out += ["SPECIALNETS 2 ;", "- VDD ( * VDD ) + USE POWER", self.rails(1),
                "- VSS ( * VSS ) + USE GROUND", self.rails(0), "END SPECIALNETS",
                f"NETS {len(self.nets)} ;"]
        for number, net in enumerate(self.nets):
            out.append(f"- n{number} " + " ".join(f"( u{cell} {pin} )" for cell, pin in net) + " ;")
        return out + ["END NETS", "END DESIGN"]

    def orientation(self, row):
        return "N" if row % 2 == 0 else "FS"

    def guide_lines(self):
        options, out = self.options, []
        side, margin = options.gcell * PITCH, options.margin * PITCH
        for number, net in enumerate(self.nets):
            a, b, c, d = self.hull(net)
            a, b = max(0, a - margin) // side, max(0, b - margin) // side
            c, d = -(-min(self.width, c + margin) // side), -(-min(self.height, d + margin) // side)
            out += [f"n{number}", "("]
            for level in range(options.layers):
                if options.boxes == "squares":
                    boxes = [(x, y, x + 1, y + 1) for y in range(b, d) for x in range(a, c)]
                elif is_horizontal(level):
                    boxes = [(a, y, c, y + 1) for y in range(b, d)]
                else:
                    boxes = [(x, b, x + 1, d) for x in range(a, c)]
                for x, y, right, up in boxes:
                    out.append(f"{x * side} {y * side} {min(right * side, self.width)} "
                               f"{min(up * side, self.height)} M{level + 1}")
            out.append(")")
        return out

    def said(self):
        hulls = list(map(self.hull, self.nets))
        wire = sum(c - a + d - b for a, b, c, d in hulls)
        tracks = sum(self.tracks(level) * (self.width if is_horizontal(level) else self.height)
                     for level in range(1, self.options.layers))
        return (f"nets {len(self.nets)} cells {len(self.kinds)} pins {sum(map(len, self.nets))} "
                f"rows {self.rows} sites {self.sites} die {self.width} {self.height} "
                f"wire {wire} demand {100 * wire // tracks}")


def number(least, most):
    def read(word):
        value = int(word)
        if not least <= value <= most:
            raise ValueError
        return value
    read.__name__ = f"number from {least} to {most}"
    return read


def share(least, most):
    def read(word):
        value = Fraction(word)
        if not Fraction(least) <= value <= Fraction(most):
            raise ValueError
        return value
    read.__name__ = f"number from {least} to {most}"
    return read


def weights(count):
    def read(word):
        values = [int(part) for part in word.split(",")]
        if len(values) != count or min(values) < 0 or sum(values) == 0:
            raise ValueError
        return values
    read.__name__ = f"list of {count} weights"
    return read


def options():
    parser = argparse.ArgumentParser(
        description="Makes a placed design of cells in rows: DIR/made.lef, DIR/made.def and, with local "
        "guides, DIR/made.guide. The same words give the same bytes.")
    add = parser.add_argument
    add("nets", metavar="NETS", type=number(1, 1000000), help="number of nets")
    add("seed", metavar="SEED", type=number(0, 2**64 - 1), help="number of the design")
    add("dir", metavar="DIR", help="folder of the texts; made where it isn't there")
    add("--guide", choices=("local", "none"), default="local",
        help="guides round each net's pins, or no text of guides (default local)")
    add("--layers", type=number(2, 9), default=4, metavar="N", help="routing layers (default 4)")
    add("--use", type=share("0.1", "1"), default=Fraction("0.7"), metavar="SHARE",
        help="share of the rows' sites that cells take (default 0.7)")
    add("--cells", type=share("1", "100"), default=Fraction("1.5"), metavar="N",
        help="cells for each net (default 1.5)")
    add("--mix", type=weights(len(CELLS)), default=[32, 30, 26, 12], metavar="W,..",
        help="weights of " + ", ".join(cell[0] for cell in CELLS) + " among the cells (default 32,30,26,12)")
    add("--pins", type=weights(9), default=[50, 22, 12, 6, 4, 2, 2, 1, 1], metavar="W,..",
        help="weights of nets of 2, 3, .. 10 pins (default 50,22,12,6,4,2,2,1,1)")
    add("--rows", type=number(0, 10000), default=5, metavar="N",
        help="a net's cells are at most so many rows from its driver; more where free inputs are few (default 5)")
    add("--sites", type=number(1, 100000), default=60, metavar="N",
        help="a net's cells are at most so many sites from its driver, likewise (default 60)")
    add("--margin", type=number(0, 1000), default=10, metavar="N",
        help="tracks by which a guide is wider than the hull of the net's pins, on each side (default 10)")
    add("--gcell", type=number(1, 1000), default=15, metavar="N",
        help="guides are made of squares of so many tracks (default 15)")
    add("--boxes", choices=("strips", "squares"), default="strips",
        help="the squares of a guide are joined along the layer's direction, or each is a box (default strips)")
    add("--blockages", type=number(0, 1000), default=2, metavar="N", help="blockages, on M2 and M3 in turn (default 2)")
    return parser.parse_args()


def main():
    chosen = options()
    design = Design(chosen)
    os.makedirs(chosen.dir, exist_ok=True)

    def write(name, lines):
        with open(os.path.join(chosen.dir, name), "w", encoding="ascii", newline="\n") as file:
            file.write("\n".join(lines) + "\n")

    write("made.lef", lef(chosen.layers))
    write("made.def", design.def_lines())
    if chosen.guide == "local":
        write("made.guide", design.guide_lines())
    print(design.said())


if __name__ == "__main__":
    main()
