"""The language of cga_city in plain Python: what each script is replied to, derived from nothing for each line.

Whoever trusts no prover reads this beside docs/STATEMENT.md, and runs it beside the program. It was written from the
definitions alone, and shares no code with the program. A function has the name of its definition in crates/*/specs.
A script is bytes; they are read as Latin-1, so that a character is a byte. A name is a string, a number a Fraction, a
path a tuple of indices, a point a tuple of three numbers. A definition that answers a fault raises it.

In the order of the statement:

    output      bytes, lines, replies one after the other
    state       what a script has come to
    replies     what one line does
    told        what a line or a block tells
    apply       what an edit makes of the sources
    history     former sources
    derivation  one plain list of members, of which at each step the waiting one of least rank is expanded
    asked       what a shape is answered
    expand      which rule and which alternative, and what each item does
    values      values and conditions
    run         the steps in order, their text, and what a block of them is judged to be
    touched     which shapes an edit touches
    jobs        jobs that derive lots round their own, and whether they are the town
    reports     instances, faults, counts and their texts

and below them the leaves: sources, rule, check, fraction, frame, split, comp, solid, word, lexer, form, parser, command,
syntax, asset, bill, town, fault. judge and reason are for tools/judge, and clock tells how far it and tools/define are.
"""
