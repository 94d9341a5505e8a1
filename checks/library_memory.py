"""How much memory calls of the library take beyond the caller's arrays, and how often they ask for some: counted by
checks/counted_calls.c, and held against what may be.

A call by strips takes what one strip needs, and no more on a picture four times as high; one of rows where they stand a few lines, and a
filter of levels one more strip, between its two steps. Filters of sets, and by elements of very many rows, take a plane besides, at one
go, and all others a few, however many levels there are. A call that asks more often does something anew for each row or strip that it
could have kept. All ask before they write the first sample, and answer 50 where they get nothing.
"""
import sys

MIB = 1 << 20
ASKS = 1.15
# Of each call: the bytes for each pixel and those besides that it may hold at once; how many times it asked when this was written,
# which it may exceed by the factor ASKS; and how many bytes it held then.
STRIP = 2 * MIB
BETWEEN = 3 * MIB
MOST = {
    "erosion_u8_box_15": (0, MIB / 8, 8, 25808),
    "erosion_u8_box_15_again": (0, MIB / 8, 8, 25808),
    "erosion_u8_disc_31": (0, MIB, 22, 782328),
    "dilation_u8_disc_255": (0, STRIP, 36, 1959880),
    "dilation_u16_disc_255": (0, STRIP, 36, 2013128),
    "erosion_set_box_255": (0, 2.25 * MIB, 99, 2228352),
    "gradient_u16_box_3": (0, MIB / 8, 8, 65704),
    "rank_u8_box_5": (0, MIB / 8, 51, 54416),
    "rank_u16_disc_31": (0, STRIP, 169, 1969296),
    "rank_set_box_15": (0, STRIP, 249, 1967232),
    "rank_u8_box_101": (0, STRIP, 66, 2007808),
    "rank_u16_box_101": (0, STRIP, 102, 2007808),
    "rows_u8_box_15": (0, MIB / 8, 8, 25808),
    "threshold_u16": (0, STRIP, 449, 1966088),
    "opening_u8_box_15": (0, MIB / 2, 12, 347888),
    "opening_u8_box_255": (0, BETWEEN, 14, 3053160),
    "opening_u8_disc_5": (0, MIB / 2, 588, 427568),
    "gradient_u16_disc_5": (0, 5 * MIB / 8, 1161, 558616),
    "opening_u8_disc_31": (0, STRIP, 240, 1822280),
    "opening_u16_disc_15": (0, STRIP, 412, 1741400),
    "closing_u16_disc_63": (0, BETWEEN, 388, 2782312),
    "opening_u8_disc_127": (0, BETWEEN, 304, 2976904),
    "closing_u16_disc_127": (0, BETWEEN, 879, 2874360),
    "opening_u8_disc_255": (0, BETWEEN, 841, 3122664),
    # 286 rows of 8 KiB of the first step, two elements, and lists of chords over as many rows
    "opening_u16_disc_255": (0, 4.75 * MIB, 1453, 4722152),
    "gradient_u16_disc_255": (0, BETWEEN, 382, 3082280),
    "opening_u16_diagonal_81": (0, 2.25 * MIB, 408, 2115856),
    "white_top_hat_u8_disc_31": (0, STRIP, 240, 1822312),
    "white_top_hat_u16_disc_31": (0, STRIP, 240, 1859352),
    "black_top_hat_u16_disc_15": (0, STRIP, 412, 1741432),
    # the plane has a bit a pixel
    "closing_set_disc_15": (1 / 8, STRIP, 165, 3016376),
    "hit_or_miss_u8_box_1": (4, MIB / 8, 48, 16778288),
    # these keep sets of a bit a pixel beside planes of a byte: one set more that is kept, and they are over what they may
    "skeleton_2_levels": (2.75, 0, 75, 11011664),
    "skeleton_254_levels": (2.75, 0, 4148, 11066848),
    "restore_254_levels": (1.5, 0, 4214, 5840280),
    "spectrum_u8_32_levels": (4, MIB / 2, 20846, 4372040),
    # of what grains are measured by 6 bytes are wanted, and 8 of area operators on levels; beside them stand 4 bytes for each level. Under
    # four neighbours each pixel of the chessboard is a component
    "reconstruction_u8": (6, MIB / 2, 10, 25219680),
    "reconstruction_u16": (6, MIB / 2, 10, 25493608),
    "reconstruction_set": (4.375, MIB / 2, 16, 36708480),
    "fill_u8": (6, MIB / 2, 10, 25216104),
    "fill_u16": (6, MIB / 2, 10, 25493624),
    "clear_border_set": (4.25, MIB / 2, 13, 35659880),
    "h_minima_u8": (6, MIB / 2, 10, 25215960),
    "regional_minima_u16": (6, MIB / 2, 12, 25493608),
    "label_four": (4.25, MIB / 2, 10, 34676848),
    "label_eight": (4.25, MIB / 2, 10, 34676864),
    "regions_four": (4.25, MIB / 2, 10, 34676848),
    "regions_eight": (4.25, MIB / 2, 10, 34676864),
    "components_four": (4.25, MIB / 2, 10, 34676848),
    "components_eight": (4.25, MIB / 2, 10, 34676864),
    "area_opening_u8": (8, MIB / 2, 7, 8389736),
    "area_closing_u16": (8, MIB / 2, 7, 8650840),
    "area_set": (6, MIB / 2, 11, 50339912),
    "distance_city_block": (4.25, MIB / 2, 3, 34623488),
    "distance_chessboard": (4.25, MIB / 2, 3, 34623488),
    "distance_squared_euclid": (4.25, MIB / 2, 5, 34656272),
}


def faults(name, pixels, held, asked, before, refused):
    """What a call does otherwise than it may."""
    each, besides, asks, _ = MOST[name]
    if held > each * pixels + besides:
        yield "holds %.2f MiB at once, and may hold %.2f" % (held / MIB, (each * pixels + besides) / MIB)
    if asked > ASKS * asks:
        yield "asks %d times, and did %d times" % (asked, asks)
    if before == 0:
        yield "asks for nothing before the first sample is written"
    if refused != 50:
        yield "answers %d where it gets no memory" % refused


def check(text):
    """Compares what the program in C printed with what may be; what was looked at."""
    rows = [line.split() for line in text.splitlines()]
    if [row[0] for row in rows] != list(MOST) or any(len(row) != 6 for row in rows):
        sys.exit("memory of calls: " + text)
    found = ["%s %s" % (row[0], what) for row in rows for what in faults(row[0], *map(int, row[1:]))]
    if found:
        sys.exit("\n".join(found))
    return "%d calls hold and ask for no more memory than they may" % len(rows)
