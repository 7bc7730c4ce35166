"""Why a shape is as it is: `tools/explain` works a lot again by the definition, with the answers that the program's trace tells.

    town      the sources at a script's end, and the steps of its derivation
    tree      the shapes of lots, with the rule that each took
    said      values, tests, scopes and boxes as texts
    reasons   why a rule was taken, and why each earlier one wasn't
    answers   which shapes decided the answer to a question
    page      the lines that are printed
"""
