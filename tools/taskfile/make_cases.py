"""Write the test cases (stdin) and the expected answers (stdout).

The answers of the hand-made cases stand beside the cases; reference.py must
agree with each. The answers of the generated cases come from reference.py.
"""

import random
import re
from collections import Counter
from pathlib import Path

from reference import Point, Task, read, write

HERE = Path(__file__).parent.parent.parent / "crates" / "filecases"

# ---- pieces of files, with their sizes in bytes ----

H = "01 0006 02 01 0000000a "          # 9: header
P = "02 0001 00 "                      # 4: point without access, no successor
E = "03 0004 00000006 "                # 7: evicting block 6
Z = "04 0000 "                         # 3: end

# 32: header and three points, at 0, 9, 18, 28
SOME = H + "02 0006 01 00000004 01 " + "02 0007 01 00000005 00 02 " + P
# 39: the same with one evicting block, at 32
MORE = SOME + E


def points(blocks):
    """8 each: points with an access and no successor."""
    return "".join(f"02 0005 01 {b:08x} " for b in blocks)


def evicting(blocks):
    """7 each: evicting blocks."""
    return "".join(f"03 0004 {b:08x} " for b in blocks)


# ---- hand-made cases: name, file, answer ----
# "accepted" means: accepted, and given back as the same bytes.

HAND_MADE = [
    # Accepted shapes
    ("smallest", H + P + Z, "accepted"),
    ("sample",
     "01 0006 02 01 0000000a 02 0006 01 00000004 01 02 0007 01 00000005 00 02"
     " 02 0001 00 03 0004 00000006 04 0000", "accepted"),
    ("self-loop", H + "02 0002 00 00" + Z, "accepted"),
    ("no-exit", H + "02 0002 00 01" + "02 0002 00 00" + Z, "accepted"),
    ("unreachable-point", H + P + P + Z, "accepted"),
    ("several-exits", H + "02 0003 00 01 02" + P + P + Z, "accepted"),
    ("evicting-same-as-access", H + points([6]) + E + Z, "accepted"),
    ("largest",
     "01 0006 40 08 000f4240"
     + "".join(f"02 0009 01 {0xffffff - i % 64:08x} 7c 7d 7e 7f" for i in range(128))
     + evicting(range(0xffffc0, 0x1000000)) + Z, "accepted"),

    # 1, first position
    ("empty", "", "refused fields 1 at 0"),
    ("cut-in-head-one-byte", "01", "refused fields 1 at 0"),
    ("cut-in-head-two-bytes", "01 00", "refused fields 1 at 0"),
    ("cut-after-head", "01 0006", "refused fields 1 at 0"),
    ("cut-in-body-one-byte", "01 0006 02", "refused fields 1 at 0"),
    ("cut-in-body-last-byte-missing", "01 0006 02 01 000000", "refused fields 1 at 0"),
    # 1, later
    ("cut-after-header", H, "refused fields 1 at 9"),
    ("cut-in-head-of-point-one-byte", H + "02", "refused fields 1 at 9"),
    ("cut-in-head-of-point-two-bytes", H + "02 00", "refused fields 1 at 9"),
    ("cut-after-head-of-point", H + "02 0001", "refused fields 1 at 9"),
    ("no-end-after-point", H + P, "refused fields 1 at 13"),
    ("no-end-after-points", SOME, "refused fields 1 at 32"),
    ("no-end-after-evicting", MORE, "refused fields 1 at 39"),
    ("cut-in-head-late", SOME + "03", "refused fields 1 at 32"),
    ("cut-in-head-late-two-bytes", SOME + "03 00", "refused fields 1 at 32"),
    ("cut-in-body-of-point-late", SOME + "02 0006 01 00000004", "refused fields 1 at 32"),
    ("cut-in-body-of-evicting-late", MORE + "03 0004 000000", "refused fields 1 at 39"),
    ("cut-after-head-of-evicting-late", MORE + "03 0004", "refused fields 1 at 39"),
    ("cut-in-end-one-byte", MORE + "04", "refused fields 1 at 39"),
    ("cut-in-end-two-bytes", MORE + "04 00", "refused fields 1 at 39"),

    # 2
    ("tag-0-first", "00 0000", "refused fields 2 at 0"),
    ("tag-5-first", "05 0000", "refused fields 2 at 0"),
    ("tag-255-first", "ff 0000", "refused fields 2 at 0"),
    ("tag-0-like-header", "00 0006 02 01 0000000a" + P + Z, "refused fields 2 at 0"),
    ("tag-129-like-header", "81 0006 02 01 0000000a" + P + Z, "refused fields 2 at 0"),
    ("tag-0-after-header", H + "00 0001 00" + Z, "refused fields 2 at 9"),
    ("tag-130-like-point", H + "82 0001 00" + Z, "refused fields 2 at 9"),
    ("tag-0-late", MORE + "00 0000" + Z, "refused fields 2 at 39"),
    ("tag-5-late", MORE + "05 0000" + Z, "refused fields 2 at 39"),
    ("tag-255-late", MORE + "ff 0000" + Z, "refused fields 2 at 39"),
    ("tag-132-like-end", MORE + "84 0000", "refused fields 2 at 39"),

    # 4, first position of each tag
    ("header-length-0", "01 0000" + P + Z, "refused fields 4 at 0"),
    ("header-length-5", "01 0005 02 01 000000" + P + Z, "refused fields 4 at 0"),
    ("header-length-7", "01 0007 02 01 0000000a 00" + P + Z, "refused fields 4 at 0"),
    ("header-length-262", "01 0106 02 01 0000000a" + P + Z, "refused fields 4 at 0"),
    ("header-length-262-whole", "01 0106 02 01 0000000a" + "00" * 256 + P + Z,
     "refused fields 4 at 0"),
    ("header-length-bytes-swapped", "01 0600 02 01 0000000a" + P + Z,
     "refused fields 4 at 0"),
    ("point-length-0", H + "02 0000" + Z, "refused fields 4 at 9"),
    ("point-length-10-five-successors",
     H + "02 000a 01 00000004 00 01 02 03 04" + P * 4 + Z, "refused fields 4 at 9"),
    ("point-length-10-no-access", H + "02 000a 00 00 01 02 03 04 05 06 07 08" + P * 8 + Z,
     "refused fields 4 at 9"),
    ("point-length-257", H + "02 0101 00" + Z, "refused fields 4 at 9"),
    ("point-length-256", H + "02 0100 00" + Z, "refused fields 4 at 9"),
    ("evicting-length-3", H + P + "03 0003 000006" + Z, "refused fields 4 at 13"),
    ("evicting-length-5", H + P + "03 0005 0000000600" + Z, "refused fields 4 at 13"),
    ("evicting-length-0", H + P + "03 0000" + Z, "refused fields 4 at 13"),
    ("evicting-length-260", H + P + "03 0104 00000006" + Z, "refused fields 4 at 13"),
    ("end-length-1", H + P + "04 0001 00", "refused fields 4 at 13"),
    ("end-length-256", H + P + "04 0100", "refused fields 4 at 13"),
    ("end-length-65535", H + P + "04 ffff", "refused fields 4 at 13"),
    # 4, late
    ("header-length-5-late", MORE + "01 0005 02 01 000000" + Z, "refused fields 4 at 39"),
    ("header-length-7-late", MORE + "01 0007 02 01 0000000a 00" + Z,
     "refused fields 4 at 39"),
    ("point-length-0-late", SOME + "02 0000" + Z, "refused fields 4 at 32"),
    ("point-length-10-late", SOME + "02 000a 01 00000004 00 01 02 03 04" + P + Z,
     "refused fields 4 at 32"),
    ("point-length-262-late", SOME + "02 0106 01 00000004 01" + Z,
     "refused fields 4 at 32"),
    ("evicting-length-3-late", MORE + "03 0003 000007" + Z, "refused fields 4 at 39"),
    ("evicting-length-5-late", MORE + "03 0005 0000000700" + Z, "refused fields 4 at 39"),
    ("evicting-length-260-late", MORE + "03 0104 00000007" + Z, "refused fields 4 at 39"),
    ("end-length-1-late", MORE + "04 0001 00", "refused fields 4 at 39"),
    ("end-length-256-late", MORE + "04 0100", "refused fields 4 at 39"),

    # 3
    ("lone-end", "04 0000", "refused task 3 at 0"),
    ("point-first", P + H + Z, "refused task 3 at 0"),
    ("evicting-first", E + H + P + Z, "refused task 3 at 0"),
    ("end-first", Z + H + P + Z, "refused task 3 at 0"),
    ("second-header-at-once", H + H + P + Z, "refused task 3 at 9"),
    ("evicting-directly-after-header", H + E + Z, "refused task 3 at 9"),
    ("evicting-before-points", H + E + P + Z, "refused task 3 at 9"),
    ("end-directly-after-header", H + Z, "refused task 3 at 9"),
    ("second-header-after-point", H + P + H + P + Z, "refused task 3 at 13"),
    ("second-header-after-points", SOME + H + Z, "refused task 3 at 32"),
    ("point-after-evicting", H + P + E + P + Z, "refused task 3 at 20"),
    ("point-after-evicting-late", MORE + evicting([7, 8]) + P + Z, "refused task 3 at 53"),
    ("header-after-evicting", H + P + E + H + Z, "refused task 3 at 20"),
    ("header-after-evicting-late", MORE + evicting([7, 8]) + H + Z, "refused task 3 at 53"),

    # 5, header
    ("sets-0", "01 0006 00 01 0000000a" + P + Z, "refused task 5 at 0"),
    ("sets-1", "01 0006 01 01 0000000a" + P + Z, "accepted"),
    ("sets-3", "01 0006 03 01 0000000a" + P + Z, "accepted"),
    ("sets-64", "01 0006 40 01 0000000a" + P + Z, "accepted"),
    ("sets-65", "01 0006 41 01 0000000a" + P + Z, "refused task 5 at 0"),
    ("sets-255", "01 0006 ff 01 0000000a" + P + Z, "refused task 5 at 0"),
    ("ways-0", "01 0006 02 00 0000000a" + P + Z, "refused task 5 at 0"),
    ("ways-8", "01 0006 02 08 0000000a" + P + Z, "accepted"),
    ("ways-9", "01 0006 02 09 0000000a" + P + Z, "refused task 5 at 0"),
    ("ways-255", "01 0006 02 ff 0000000a" + P + Z, "refused task 5 at 0"),
    ("reload-0", "01 0006 02 01 00000000" + P + Z, "accepted"),
    ("reload-1000000", "01 0006 02 01 000f4240" + P + Z, "accepted"),
    ("reload-1000001", "01 0006 02 01 000f4241" + P + Z, "refused task 5 at 0"),
    ("reload-16777216", "01 0006 02 01 01000000" + P + Z, "refused task 5 at 0"),
    ("reload-2147483648", "01 0006 02 01 80000000" + P + Z, "refused task 5 at 0"),
    ("reload-4294967295", "01 0006 02 01 ffffffff" + P + Z, "refused task 5 at 0"),
    # 5, mark and length of a point
    ("mark-2", H + "02 0001 02" + Z, "refused task 5 at 9"),
    ("mark-2-with-block", H + "02 0005 02 00000004" + Z, "refused task 5 at 9"),
    ("mark-128", H + "02 0001 80" + Z, "refused task 5 at 9"),
    ("mark-255", H + "02 0001 ff" + Z, "refused task 5 at 9"),
    ("mark-255-with-block", H + "02 0005 ff 00000004" + Z, "refused task 5 at 9"),
    ("mark-1-no-byte-of-block", H + "02 0001 01" + Z, "refused task 5 at 9"),
    ("mark-1-one-byte-of-block", H + "02 0002 01 00" + Z, "refused task 5 at 9"),
    ("mark-1-two-bytes-of-block", H + "02 0003 01 0000" + Z, "refused task 5 at 9"),
    ("mark-1-three-bytes-of-block", H + "02 0004 01 000000" + Z, "refused task 5 at 9"),
    ("mark-1-block-only", H + "02 0005 01 00000000" + Z, "accepted"),
    ("mark-1-four-successors", H + "02 0009 01 00000004 00 01 02 03" + P * 3 + Z,
     "accepted"),
    ("mark-0-four-successors", H + "02 0005 00 00 01 02 03" + P * 3 + Z, "accepted"),
    ("mark-0-five-successors", H + "02 0006 00 00 01 02 03 04" + P * 4 + Z,
     "refused task 5 at 9"),
    ("mark-0-eight-successors", H + "02 0009 00 00 01 02 03 04 05 06 07" + P * 7 + Z,
     "refused task 5 at 9"),
    ("mark-2-late", SOME + "02 0001 02" + Z, "refused task 5 at 32"),
    ("mark-255-late", SOME + "02 0001 ff" + Z, "refused task 5 at 32"),
    ("mark-1-no-byte-of-block-late", SOME + "02 0001 01" + Z, "refused task 5 at 32"),
    ("mark-1-three-bytes-of-block-late", SOME + "02 0004 01 000000" + Z,
     "refused task 5 at 32"),
    ("mark-0-five-successors-late", SOME + "02 0006 00 00 01 02 03 04" + P + Z,
     "refused task 5 at 32"),
    # 5, block of a point
    ("block-16777215", H + "02 0005 01 00ffffff" + Z, "accepted"),
    ("block-16777216", H + "02 0005 01 01000000" + Z, "refused task 5 at 9"),
    ("block-2147483648", H + "02 0005 01 80000000" + Z, "refused task 5 at 9"),
    ("block-4294967295", H + "02 0005 01 ffffffff" + Z, "refused task 5 at 9"),
    ("block-16777215-late", SOME + "02 0005 01 00ffffff" + Z, "accepted"),
    ("block-16777216-late", SOME + "02 0005 01 01000000" + Z, "refused task 5 at 32"),
    ("blocks-need-not-rise", H + points([9, 3, 9]) + Z, "accepted"),
    # 5, successors
    ("successors-equal", H + "02 0003 00 01 01" + P + Z, "refused task 5 at 9"),
    ("successors-equal-0", H + "02 0003 00 00 00" + P + Z, "refused task 5 at 9"),
    ("successors-falling", H + "02 0003 00 01 00" + P + Z, "refused task 5 at 9"),
    ("successors-equal-with-block", H + "02 0007 01 00000004 01 01" + P + Z,
     "refused task 5 at 9"),
    ("successors-falling-with-block", H + "02 0007 01 00000004 01 00" + P + Z,
     "refused task 5 at 9"),
    ("successors-last-equal", H + "02 0005 00 00 01 02 02" + P * 2 + Z,
     "refused task 5 at 9"),
    ("successors-last-falling", H + "02 0009 01 00000004 00 02 03 01" + P * 3 + Z,
     "refused task 5 at 9"),
    ("successors-below-block-bytes", H + "02 0006 01 000000ff 00" + Z, "accepted"),
    ("successors-equal-late", SOME + "02 0003 00 02 02" + Z, "refused task 5 at 32"),
    ("successors-falling-late", SOME + "02 0007 01 00000004 02 01" + Z,
     "refused task 5 at 32"),
    # 5, evicting blocks
    ("evicting-0", H + P + evicting([0]) + Z, "accepted"),
    ("evicting-16777215", H + P + "03 0004 00ffffff" + Z, "accepted"),
    ("evicting-16777216", H + P + "03 0004 01000000" + Z, "refused task 5 at 13"),
    ("evicting-4294967295", H + P + "03 0004 ffffffff" + Z, "refused task 5 at 13"),
    ("evicting-16777215-late", MORE + "03 0004 00ffffff" + Z, "accepted"),
    ("evicting-16777216-late", MORE + "03 0004 01000000" + Z, "refused task 5 at 39"),
    ("evicting-rising-over-bytes",
     H + P + evicting([0xfe, 0xff, 0x100, 0x1ff, 0x200, 0x10000]) + Z, "accepted"),
    ("evicting-equal", H + P + evicting([6, 6]) + Z, "refused task 5 at 20"),
    ("evicting-equal-0", H + P + evicting([0, 0]) + Z, "refused task 5 at 20"),
    ("evicting-falling", H + P + evicting([6, 5]) + Z, "refused task 5 at 20"),
    ("evicting-falling-to-0", H + P + evicting([1, 0]) + Z, "refused task 5 at 20"),
    ("evicting-falling-over-bytes", H + P + evicting([0x100, 0xff]) + Z,
     "refused task 5 at 20"),
    ("evicting-equal-late", MORE + evicting([7, 8, 8]) + Z, "refused task 5 at 53"),
    ("evicting-falling-late", MORE + evicting([7, 9, 8]) + Z, "refused task 5 at 53"),

    # 6
    ("points-128", H + P * 128 + Z, "accepted"),
    ("points-129", H + P * 129 + Z, "refused task 6 at 521"),
    ("points-129-large-fields", H + "02 0009 01 00000007 00 01 02 03" * 129 + Z,
     "refused task 6 at 1545"),
    ("evicting-64", H + P + evicting(range(64)) + Z, "accepted"),
    ("evicting-65", H + P + evicting(range(65)) + Z, "refused task 6 at 461"),
    ("evicting-65-late", H + P * 128 + evicting(range(65)) + Z, "refused task 6 at 969"),
    ("distinct-64", H + points(range(64)) + Z, "accepted"),
    ("distinct-65", H + points(range(65)) + Z, "refused task 6 at 521"),
    ("distinct-65-block-0", H + points(range(1, 65)) + points([0]) + Z,
     "refused task 6 at 521"),
    ("distinct-64-then-repeats", H + points(range(64)) + points([63, 0, 31, 0]) + Z,
     "accepted"),
    ("distinct-64-then-no-access", H + points(range(1, 65)) + P * 3 + Z, "accepted"),
    ("distinct-64-in-128-points", H + points(range(64)) + points(range(63, -1, -1)) + Z,
     "accepted"),
    ("distinct-65-after-repeats", H + points(range(64)) + points([63, 0]) + points([64]) + Z,
     "refused task 6 at 537"),
    ("distinct-65-at-last-point", H + points(range(64)) + P * 63 + points([64]) + Z,
     "refused task 6 at 773"),
    ("distinct-64-and-64-evicting", H + points(range(64)) + evicting(range(64, 128)) + Z,
     "accepted"),

    # 7
    ("missing-successor-first", H + "02 0002 00 01" + Z, "refused task 7 at 9"),
    ("missing-successor-255-first", H + "02 0002 00 ff" + Z, "refused task 7 at 9"),
    ("missing-successor-128-first", H + "02 0002 00 80" + Z, "refused task 7 at 9"),
    ("missing-successor-with-block", H + "02 0006 01 00000004 01" + Z,
     "refused task 7 at 9"),
    ("missing-successor-fourth-of-four", H + "02 0005 00 00 01 02 03" + P * 2 + Z,
     "refused task 7 at 9"),
    ("missing-successor-late", SOME + "02 0002 00 04" + E + Z, "refused task 7 at 32"),
    ("missing-successor-255-late", SOME + "02 0002 00 ff" + E + Z, "refused task 7 at 32"),
    ("last-successor-there", SOME + "02 0002 00 03" + E + Z, "accepted"),
    ("missing-successor-middle", H + P + "02 0003 00 00 03" + P + Z,
     "refused task 7 at 13"),
    ("missing-successor-two-points", H + P + "02 0002 00 04" + P + "02 0002 00 ff" + Z,
     "refused task 7 at 13"),
    ("missing-successor-two-points-larger-first",
     H + P + "02 0002 00 ff" + "02 0002 00 04" + P + Z, "refused task 7 at 13"),
    ("missing-successor-all-points", H + "02 0002 00 03" * 3 + Z, "refused task 7 at 9"),
    ("successor-127-of-128", H + "02 0002 00 7f" + P * 127 + Z, "accepted"),
    ("successor-128-of-128", H + "02 0002 00 80" + P * 127 + Z, "refused task 7 at 9"),
    ("successor-128-of-128-late", H + P * 127 + "02 0002 00 80" + Z,
     "refused task 7 at 517"),

    # 8
    ("one-byte-after-end", H + P + Z + "00", "refused task 8 at 16"),
    ("one-byte-255-after-end", H + P + Z + "ff", "refused task 8 at 16"),
    ("one-byte-after-end-late", MORE + Z + "00", "refused task 8 at 42"),
    ("end-twice", H + P + Z + Z, "refused task 8 at 16"),
    ("two-files", H + P + Z + H + P + Z, "refused task 8 at 16"),
    ("evicting-after-end", MORE + Z + evicting([7]) + Z, "refused task 8 at 42"),
    ("bad-tag-after-end", MORE + Z + "05 0000", "refused task 8 at 42"),
    ("many-bytes-after-end", H + P + Z + "00" * 100, "refused task 8 at 16"),
    ("many-bytes-after-end-late", MORE + Z + "a5" * 100, "refused task 8 at 42"),

    # Two causes in one field: the one tested first wins
    ("head-cut-before-tag", "05", "refused fields 1 at 0"),
    ("head-cut-before-tag-two-bytes", "ff ff", "refused fields 1 at 0"),
    ("head-cut-before-tag-late", MORE + "00 00", "refused fields 1 at 39"),
    ("head-cut-before-length", "01 01", "refused fields 1 at 0"),
    ("head-cut-before-order", H + "04 00", "refused fields 1 at 9"),
    ("tag-before-length", "05 ffff", "refused fields 2 at 0"),
    ("tag-before-length-late", MORE + "00 0106", "refused fields 2 at 39"),
    ("tag-before-body-cut", "05 0006 02", "refused fields 2 at 0"),
    ("tag-before-body-cut-late", MORE + "ff 0004 00", "refused fields 2 at 39"),
    ("length-before-body-cut", "01 0007 02", "refused fields 4 at 0"),
    ("length-before-body-cut-late", MORE + "03 0005 000000", "refused fields 4 at 39"),
    ("length-before-body-cut-end", MORE + "04 0001", "refused fields 4 at 39"),
    ("length-before-order", "03 0005 0000000600", "refused fields 4 at 0"),
    ("length-before-order-late", MORE + "02 0000" + Z, "refused fields 4 at 39"),
    ("length-before-order-lone-end", "04 0001 00", "refused fields 4 at 0"),
    ("length-before-value", "01 0007 00 00 ffffffff 00", "refused fields 4 at 0"),
    ("length-before-number", H + P + evicting(range(64)) + "03 0003 000040" + Z,
     "refused fields 4 at 461"),
    ("body-cut-before-order", "03 0004 00", "refused fields 1 at 0"),
    ("body-cut-before-order-point", "02 0001", "refused fields 1 at 0"),
    ("body-cut-before-order-late", MORE + "01 0006 02 01", "refused fields 1 at 39"),
    ("body-cut-before-value", "01 0006 00", "refused fields 1 at 0"),
    ("body-cut-before-value-late", SOME + "02 0005 02", "refused fields 1 at 32"),
    ("body-cut-before-number", H + P + evicting(range(64)) + "03 0004 000000",
     "refused fields 1 at 461"),
    ("order-before-value", "03 0004 ffffffff" + H + P + Z, "refused task 3 at 0"),
    ("order-before-value-point", "02 0001 02" + H + P + Z, "refused task 3 at 0"),
    ("order-before-value-header", H + "01 0006 00 00 ffffffff" + P + Z,
     "refused task 3 at 9"),
    ("order-before-value-late", MORE + "02 0001 02" + Z, "refused task 3 at 39"),
    ("order-before-number-point", H + P * 128 + E + P + Z, "refused task 3 at 528"),
    ("order-before-number-distinct", H + points(range(64)) + E + points([64]) + Z,
     "refused task 3 at 528"),
    ("value-before-number-point", H + P * 128 + "02 0001 02" + Z,
     "refused task 5 at 521"),
    ("value-before-number-point-successors", H + P * 128 + "02 0003 00 01 01" + Z,
     "refused task 5 at 521"),
    ("value-before-number-distinct", H + points(range(64)) + "02 0007 01 00000040 01 00" + Z,
     "refused task 5 at 521"),
    ("value-before-number-evicting-equal", H + P + evicting(range(64)) + evicting([63]) + Z,
     "refused task 5 at 461"),
    ("value-before-number-evicting-falling", H + P + evicting(range(64)) + evicting([5]) + Z,
     "refused task 5 at 461"),
    ("value-before-number-evicting-range",
     H + P + evicting(range(64)) + "03 0004 01000000" + Z, "refused task 5 at 461"),
    ("order-before-end-trailing", H + Z + "00", "refused task 3 at 9"),
    ("trailing-before-missing-successor", H + "02 0002 00 01" + Z + "00",
     "refused task 8 at 17"),
    ("trailing-before-missing-successor-late", SOME + "02 0002 00 ff" + E + Z + Z,
     "refused task 8 at 47"),

    # Two causes in two fields: the earlier field wins
    ("value-then-tag", "01 0006 00 01 0000000a" + "05 0000", "refused task 5 at 0"),
    ("value-then-cut", "01 0006 02 09 0000000a", "refused task 5 at 0"),
    ("value-then-length", H + "02 0001 02" + "04 0001", "refused task 5 at 9"),
    ("order-then-tag", Z + "00 0000", "refused task 3 at 0"),
    ("order-then-cut", H + E + "02", "refused task 3 at 9"),
    ("length-then-tag", H + "02 0000" + "05 0000", "refused fields 4 at 9"),
    ("tag-then-length", H + "05 0000" + "02 0000", "refused fields 2 at 9"),
    ("number-then-tag", H + P + evicting(range(65)) + "05 0000", "refused task 6 at 461"),
    ("number-then-tag-point", H + P * 129 + "05 0000", "refused task 6 at 521"),
    ("number-then-tag-distinct", H + points(range(65)) + "00 0000",
     "refused task 6 at 521"),
    ("number-then-cut", H + P + evicting(range(65)), "refused task 6 at 461"),
    ("number-then-value", H + P + evicting(range(65)) + evicting([0]) + Z,
     "refused task 6 at 461"),
    # A missing successor is hidden by any other cause, wherever it is
    ("missing-successor-then-value", H + "02 0002 00 09" + "02 0001 02" + Z,
     "refused task 5 at 14"),
    ("missing-successor-then-value-evicting", H + "02 0002 00 09" + E + E + Z,
     "refused task 5 at 21"),
    ("missing-successor-then-cut", H + "02 0002 00 09", "refused fields 1 at 14"),
    ("missing-successor-then-tag", H + "02 0002 00 09" + "05 0000",
     "refused fields 2 at 14"),
    ("missing-successor-then-length", H + "02 0002 00 09" + "04 0001 00",
     "refused fields 4 at 14"),
    ("missing-successor-then-order", H + "02 0002 00 09" + H + Z, "refused task 3 at 14"),
    ("missing-successor-then-number", H + "02 0002 00 ff" + evicting(range(65)) + Z,
     "refused task 6 at 462"),
    ("missing-successor-and-falling-in-one-point", H + "02 0003 00 ff 00" + Z,
     "refused task 5 at 9"),
]


# ---- generated cases ----

def random_task(rng, max_points, max_evicting, max_block):
    count = rng.randint(1, max_points)
    pool = [rng.randint(0, max_block) for _ in range(rng.randint(1, 64))]

    def random_point():
        block = rng.choice(pool) if rng.random() < 0.7 else None
        how_many = rng.randint(0, min(4, count))
        return Point(block, tuple(sorted(rng.sample(range(count), how_many))))

    evicting_blocks = {rng.randint(0, max_block) for _ in range(rng.randint(0, max_evicting))}
    return Task(rng.randint(1, 64), rng.randint(1, 8), rng.randint(0, 1_000_000),
                tuple(random_point() for _ in range(count)),
                tuple(sorted(evicting_blocks)))


def small(rng):
    return write(random_task(rng, 6, 4, rng.choice([15, 300, 16_777_215])))


def large(rng):
    while True:
        data = write(random_task(rng, 128, 64, rng.choice([255, 16_777_215])))
        if len(data) > 500:
            return data


def changed(rng, data):
    at = rng.randrange(len(data))
    old = data[at]
    new = rng.choice([old ^ 1 << rng.randrange(8), (old + 1) % 256, (old - 1) % 256,
                      rng.randrange(256)])
    return data[:at] + bytes([new]) + data[at + 1:]


def cut(rng, data):
    return data[:rng.randrange(len(data))]


def inserted(rng, data):
    at = rng.randrange(len(data) + 1)
    more = bytes(rng.choice([0, 1, 2, 3, 4, rng.randrange(256)])
                 for _ in range(rng.randint(1, 4)))
    return data[:at] + more + data[at:]


def fields(data):
    """The fields of a legal file."""
    out = []
    while data:
        size = 3 + int.from_bytes(data[1:3], "big")
        out.append(data[:size])
        data = data[size:]
    return out


def dropped(rng, data):
    parts = fields(data)
    del parts[rng.randrange(len(parts))]
    return b"".join(parts)


def doubled(rng, data):
    parts = fields(data)
    at = rng.randrange(len(parts))
    return b"".join(parts[:at + 1] + parts[at:])


def swapped(rng, data):
    parts = fields(data)
    a, b = rng.sample(range(len(parts)), 2)
    parts[a], parts[b] = parts[b], parts[a]
    return b"".join(parts)


# name, how many, how to make one
GENERATED = [
    ("random-small", 28, small),
    ("random-large", 4, large),
    ("changed-small", 44, lambda rng: changed(rng, small(rng))),
    ("changed-large", 1, lambda rng: changed(rng, large(rng))),
    ("cut-small", 20, lambda rng: cut(rng, small(rng))),
    ("cut-large", 1, lambda rng: cut(rng, large(rng))),
    ("inserted-small", 26, lambda rng: inserted(rng, small(rng))),
    ("inserted-large", 1, lambda rng: inserted(rng, large(rng))),
    ("field-dropped", 9, lambda rng: dropped(rng, small(rng))),
    ("field-doubled", 8, lambda rng: doubled(rng, small(rng))),
    ("fields-swapped", 8, lambda rng: swapped(rng, small(rng))),
]


def generated(seen):
    rng = random.Random(1)
    for name, how_many, make in GENERATED:
        for i in range(1, how_many + 1):
            data = make(rng)
            while data in seen:
                data = make(rng)
            seen.add(data)
            yield f"{name}-{i:02}", data


# ---- putting it together ----

def answer_of(data):
    answer = read(data)
    if answer[0] == "accepted":
        return "accepted " + write(answer[1]).hex()
    _, layer, cause, place = answer
    return f"refused {layer} {cause} at {place}"


def kind(answer):
    return re.sub(r" at .*|(?<=accepted) .*", "", answer)


def main():
    cases = []
    wrong = 0
    for name, text, expected in HAND_MADE:
        data = bytes.fromhex(text)
        if expected == "accepted":
            expected += " " + data.hex()
        if answer_of(data) != expected:
            wrong += 1
            print(f"{name}: expected {expected}, reference.py says {answer_of(data)}")
        cases.append((name, data, expected))
    assert wrong == 0, f"{wrong} hand-made expectations differ from reference.py"
    hand_made = len(cases)

    for name, data in generated({data for _, data, _ in cases}):
        cases.append((name, data, answer_of(data)))

    names = [name for name, _, _ in cases]
    assert all(re.fullmatch("[a-z0-9]+(-[a-z0-9]+)*", name) for name in names)
    assert len(set(names)) == len(names), "a name occurs twice"
    twice = [name for name, data, _ in cases
             if sum(data == other for _, other, _ in cases) > 1]
    assert not twice, f"the same file under two names: {twice}"

    stdin = "".join(f"{name} {data.hex() or '-'}\n" for name, data, _ in cases)
    stdout = "".join(f"{name} {answer}\n" for name, _, answer in cases)
    many = sum(len(data) > 500 for _, data, _ in cases)
    assert many <= 40, f"{many} files over 500 bytes"
    assert len(stdin) < 150_000, f"stdin has {len(stdin)} bytes"
    (HERE / "stdin").write_bytes(stdin.encode("ascii"))
    (HERE / "stdout").write_bytes(stdout.encode("ascii"))

    by_hand = Counter(kind(answer) for _, _, answer in cases[:hand_made])
    by_seed = Counter(kind(answer) for _, _, answer in cases[hand_made:])
    print(f"all {hand_made} hand-made expectations agree with reference.py")
    print(f"{'answer':18}{'hand-made':>10}{'generated':>10}{'total':>7}")
    for k in sorted(by_hand | by_seed):
        print(f"{k:18}{by_hand[k]:10}{by_seed[k]:10}{by_hand[k] + by_seed[k]:7}")
    print(f"{'all':18}{hand_made:10}{len(cases) - hand_made:10}{len(cases):7}")
    print(f"stdin {len(stdin)} bytes, stdout {len(stdout)} bytes, "
          f"{many} files over 500 bytes")


if __name__ == "__main__":
    main()
