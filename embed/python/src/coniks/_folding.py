"""The characters that Unicode folds otherwise than to the lower case of their upper case (CaseFolding.txt).

`web/build` makes web/src/folding.js of this, so that a service and a browser have one table.
"""

# In rows: the first and the last character, and what the first one becomes. Those after it follow what that ends with.
FOLDED = [
    ("\u0131", "\u0131", "\u0131"),
    ("\u1e9e", "\u1e9e", "ss"),
    ("\u13a0", "\u13f5", "\u13a0"),
    ("\u13f8", "\u13fd", "\u13f0"),
    ("\uab70", "\uabbf", "\u13a0"),
]
