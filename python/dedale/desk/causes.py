"""The causes of refusals, and what helps, in the words of the manual (`docs/language.md`)."""

CAUSES = {
    1: "more than 65,536 bytes stand before its `;`",
    2: "the script ends in a statement that no `;` ends, and that isn't blank",
    3: "it is no command",
    4: "a name has more than 64 bytes",
    5: "a number is above 9223372036854775807, or a constraint in normal form has one",
    6: "parentheses, `not`, quantifiers and what stands behind an `implies` stand in more than 64 others",
    7: "a heading has more than 16 columns, or together with the quantifiers of the formula more than 64",
    8: "a heading names a column twice",
    9: "no relation or view has the name, or that of which a closure or an interior is asked",
    10: "a relation or view that is to be defined has the name of another one",
    11: "`insert`, `delete`, `show`, `box`, `disjoint` or `verify` names a view, or `keep` names a relation",
    12: "an atom has more or fewer arguments than its relation or view has columns, "
    "or two relations to be compared have not as many columns",
    13: "a variable is in no quantifier around it and is no column",
    14: "a text stands where a number has to, or a number where a text has to, also in the columns of two relations to be "
    "compared; or `!=` stands between numbers in an `insert`",
    15: "the name to be dropped stands in the formula of a view",
    16: "no tuple has the number to be deleted",
    17: "the relation holds as many tuples as `--limit` allows, 100,000 where it isn't given",
    18: "the relation has given 4,294,967,295 numbers",
    19: "a view would stand on more than 15 others, one on the other",
    20: "a number may get longer than 127 binary digits",
    21: "there was no memory for it",
}
"""What the manual says where a statement is refused with this number."""

HELP = {
    5: ("count in greater units, or divide the constraint by a common divisor",),
    7: ("split the relation in two that share a column",),
    8: ("give each column a name of its own",),
    9: ("define the relation or view first; in a script that begins with `dedale 2;`, `dump` tells which there are",),
    10: ("take another name, or `drop` the old one",),
    11: ("ask a view with `query`; insert into the relations that it speaks of",),
    12: ("give as many arguments as there are columns",),
    13: ("name the variable in the heading, or in a quantifier: `exists y (Area(x, y))`",),
    14: (
        "quantify texts with `text`: `exists n text (Land(n, 1, 1))`",
        "insert two tuples, one with `<` and one with `>`",
    ),
    15: ("`drop` first the views that speak of it",),
    16: ("`show` tells the numbers",),
}
"""What the manual says of what helps then, where it names something."""
