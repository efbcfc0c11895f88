"""Turns ordinary C into a text of the subset of `tcrest` with the same meaning, or says at which line it can't.

The way of a text: `source` reads it, `declarations`, `expressions` and `statements` make a tree with types of it
(`tree`), `regions` finds out which objects one pointer may reach, `intervals` what values a variable may have,
`values` and `control` write the text of the subset (`subset`), `exits`, `limits`, `folding` and `declaring` bring it
into the form that the program takes, and `printing` writes it. `lowering` calls them one after another.
"""
