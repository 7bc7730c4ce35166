"""What docs/STATEMENT.md shows: how to read it, its sections with their definitions by file and name, and its last table."""
CONTRACT = "run_city"
# before the path of a file of the toolchain
TOOLCHAIN = "toolchain:"

INTRODUCTION = """# The statement

This page is made by `.ci/statement.py` from the files that it names, and the gate compares it with them. It begins with the
contract of `run_city`, and goes down to the derivation of a town from nothing. To know the claim on replies, read nothing
else but the leaves that you doubt. [The guided hour](GUIDED_HOUR.md) walks over it.

Each name in the contract is on this page or is a leaf. The leaves are {number} definitions of {lines} lines, in the folders
`specs/` of {crates} crates, which [the last table](#the-leaves) counts. A name of the standard library is in the table below,
or its definition is taken from the toolchain. A type such as `Status` is that of the source, in `src/`.

| To read | Means |
|---|---|
| `name : A → B → C`, and lines `name a b = ..` below it | a function of an A and a B that gives a C, by cases, the first that fits |
| `x ∷ xs`, `[]`, `xs ++ ys` | a list with the head x, the empty list, one list after the other |
| `Ok x`, `Err e`; `Some x`, `None` | what went well or was refused; what is there or isn't |
| `and_then r f` | f of what r gives where that is Ok, and r otherwise |
| `err_if test fault r` | `Err fault` where the test holds, and r otherwise |
| `record s { a = b }` | s with another a |
| `λ x. e` | the function that gives e of an x |
| `A × B`, `A ⊎ B`, `⊤`, `⊥`, `a ≡ b`, `a ≢ b`, `A ↔ B` | both, one of them, always, never, equal, not equal, each if the other |
| `(x : A) × B`, `(x : A) → B` | B for some x, B for each x |
| `codes "text"`, `string_bytes text`, `decimal n` | the bytes of a text, and of a number in decimal digits |
| `fault_of app words`, `Text` | the kinds of fault that `clap` finds in words for a command, none where it takes them; the bytes of a word |
| `Bool`, `true`, `false`, `IsTrue b`, `IsFalse b` | a test's answer, and that b is one of them |
| `zero`, `suc n`, `min a b`, `2 ^ n` | 0, n + 1, the smaller one, a power of 2 |
| `List ℕ`, `Option A`, `Result A F`, `Unit` | lists of numbers, what may be there, what went well or was refused, what always holds |
| `nat_eq`, `nat_lt`, `bytes_eq`, `pointwise eq`, `starts_with eq xs ys` | tests: of numbers, of texts, of lists element by element, and that ys begins xs |
| `not`, `&&`, `||`; `is_some`, `is_none`, `is_err`, `is_lt` | tests of tests; of what is there, was refused, or is less |
| `Ordering`, `nat_cmp`, `slice_cmp cmp`, `on f cmp`, `then_cmp a b` | orders: of numbers, of lists, of what f gives, by a and then by b |
| `length`, `map f`, `flat_map f`, `filter test`, `list_any test`, `list_all test` | of a list: its length, f of each, all that f gives, those that pass, some pass, all pass |
| `take n xs`, `drop n xs` | the first n elements; all others |
| `slice_get xs i`, `slice_set xs i x`, `insert xs i x`, `remove xs i` | the element at place i, from 0; the list with x in its place, with x before it, without it |
| `position test xs` | the place of the first element that passes |
| `unwrap_or o x`, `option_map_or f o x`, `MatchOption o x f` | what is there, or x; f of what is there, or x |
| `derivation`, in section 8 | the one that the definitions there are about; section 9 says which it is for sources |
| `old`, `new`, `before`, `after`, in section 11 | the sources before and after an edit, and the members of both derivations |
| `Type 0` at the end of a type | what is defined is a statement, and not a value |
"""

# each section: its title, what it says, and the definitions by file and names
SECTIONS = [
    (
        "The contract",
        "Where the status is Done, what the sink holds is what it held, and then `output_of` the bytes that the source gave.",
        [
            (CONTRACT, ""),
            ("cga_words/specs/Plain.antt", "IsPlain plain_words pair_words"),
            ("cga_top/specs/Runs.antt", "IsScript script_of RunMeans GivenMeans IsUnread HoldsFewOr"),
            ("cga_top/specs/Statuses.antt", "StatusMeans HoldsFew WritesAll WritesReplies WritesPrefix Spent"),
            ("cga_top/specs/Prefixes.antt", "AppendsSome"),
            ("cga_top/specs/Outside.antt", "Outside outside_of Gave IsCalm"),
            ("cga_top/specs/Reads.antt", "limit read_limit"),
            ("cga_outside/specs/Causes.antt", "Rose"),
            (TOOLCHAIN + "std/specs/Io/KnownBytes.antt", "Appends Consumes IsAtEnd"),
            (TOOLCHAIN + "core/specs/Option.antt", "IfSome"),
        ],
    ),
    (
        "From bytes to lines",
        "The output is the replies to the lines, one after the other, and to the end.",
        [
            (
                "cga_top/specs/Output.antt",
                "output_of replies_of effect_of_script effect_of_lines last_effect last_line effect_of_all",
            ),
            ("cga_script/specs/Lines.antt", "lines_of clipped without_cr Cut cut before_first"),
        ],
    ),
    (
        "What a script has come to",
        "Sources, and no shapes: nothing of an earlier derivation is in it.",
        [
            ("cga_top/specs/State.antt", "State Block start"),
            ("cga_city/specs/City.antt", "empty_sources empty_in"),
            ("cga_top/specs/Effect.antt", "Effect says silent followed_by Work Tried Judging"),
        ],
    ),
    (
        "What a line does",
        "A line of a block is kept until `end`; any other is asked at once.",
        [
            (
                "cga_top/specs/Replies.antt",
                "effect effect_by outside second asked begun is_blank done_by opened in_block with_line ended "
                "closed at_end open_reply",
            ),
            ("cga_script/specs/Ends.antt", "is_version_line are_version is_two is_end_line are_end"),
            (
                "cga_top/specs/Told.antt",
                "command_of grammar_told sources_told rules_of city_of line_told told_of read_of block_told "
                "lines_found at_line line_found found_of",
            ),
        ],
    ),
    (
        "Edits",
        "An accepted edit takes the new sources; a refused one leaves the state as it is.",
        [
            (
                "cga_top/specs/Replies.antt",
                "edited applied noted_by changed touched_by stepped budget_of ok_reply refuses",
            ),
            ("cga_undo/specs/History.antt", "Kept nothing noted latest Step undone back_to redone turned turned_step"),
        ],
    ),
    (
        "Reports",
        "Of the current sources, derived from nothing.",
        [
            (
                "cga_top/specs/Replies.antt",
                "derived drawn_by printed text_of counts_of shown model_of modelled dumped clothed stripped given",
            ),
            ("cga_top/specs/Stats.antt", "stats_text_of counted"),
        ],
    ),
    (
        "What an edit makes of the sources",
        "The new sources, or the first refusal; the budget is the last.",
        [
            (
                "cga_city/specs/Apply.antt",
                "apply within Changed changed checked by_check with_grammar with_checked ruled valued repriced",
            ),
            ("cga_city/specs/Lots.antt", "names_of lot_place is_bad with_lot finds_no_room rooted accepted"),
            (
                "cga_city/specs/Grammars.antt",
                "has_rule has_parameters is_plain rule_place new_place with_rule with_rules ranked "
                "attribute_place with_priority prioritized",
            ),
            ("cga_city/specs/Derived.antt", "members is_within derived"),
        ],
    ),
    (
        "What a derivation is",
        "One plain list: at each step the waiting member of least rank is taken, answered and expanded.",
        [
            (
                "cga_derivation/specs/Derivation.antt",
                "Derivation derive reached start step step_by next_of is_next first_of rank_of outcome asked told "
                "become same_place",
            ),
            ("cga_order/specs/Rank.antt", "Rank rank_cmp by_priority by_depth by_place"),
            ("cga_order/specs/World.antt", "is_waiting shapes_where"),
        ],
    ),
    (
        "What shapes of sources are to a derivation",
        "Roots from lots, priorities from symbols, answers and children from the grammar.",
        [
            ("cga_expand/specs/Derivation.antt", "derivation_of priority_of roots_of made children_of"),
            ("cga_shape/specs/Root.antt", "root_of root_in root_scope"),
            ("cga_expand/specs/Asked.antt", "answers_of answer_if asks_for group_asks boxes_beside on_path sees"),
            ("cga_index/specs/Occlusion.antt", "answer_of graded"),
            ("cga_expand/specs/Children.antt", "Member placed_by placed_from placed_at"),
            ("cga_expand/specs/Expand.antt", "expand_of rules_by_id"),
        ],
    ),
    (
        "A trace, and what it is judged to be",
        "The run of the current sources, and where a block of lines differs from its text.",
        [
            ("cga_top/specs/Replies.antt", "run_of judged_by"),
            ("cga_expand/specs/Run.antt", "run_to step_of traced outcome_of"),
            ("cga_trace/specs/Judged.antt", "judged differs_at is_line judged_text"),
            ("cga_trace/specs/Text.antt", "trace_text_of trace_lines header step_text told_text"),
        ],
    ),
    (
        "How many shapes are expanded",
        "Each shape that an accepted edit touches, once, and each step of an accepted trace.",
        [
            ("cga_top/specs/Effect.antt", "HasSpent SpentOn SpentBy most_of SpentJudging"),
            ("cga_update/specs/Updates.antt", "CountsTouched"),
            ("cga_expand/specs/Touched.antt", "Touched Kept PathKept NonInstance SameInputs Answered"),
            ("cga_agenda/specs/Work.antt", "AreSoMany"),
            ("cga_order/specs/Once.antt", "Once"),
            ("cga_order/specs/World.antt", "Among Has is_instance"),
        ],
    ),
]

LEAVES = """
## The leaves

What the headline reaches beyond this page: how lines are read, what one expansion does, and what texts look like. Each stands
in a folder `crates/NAME/specs/`. Lines are counted without comments and empty ones. The guided hour says of each crate where
to look first.

| Crate | Definitions | Lines |
|---|---|---|
"""
