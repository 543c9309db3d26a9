// The characters that are folded by a table: web/build makes this of embed/python/src/coniks/_folding.py.

export const FOLDED = [["\u0131", "\u0131", "\u0131"], ["\u1e9e", "\u1e9e", "ss"], ["\u13a0", "\u13f5", "\u13a0"], ["\u13f8", "\u13fd", "\u13f0"], ["\uab70", "\uabbf", "\u13a0"]];
