"""A language server for scripts: `tools/language_server` talks to an editor by the Language Server Protocol.

    messages     requests and notifications over a pair of streams
    text         a script as an editor has it, and its places in both ways of counting
    names        where symbols, attributes, parameters, lots and assets stand
    words        what each word of the language is, in a sentence
    completion   what can stand at a place
    hover        what stands at a place: a word, a rule, an attribute, a lot
    fates        which rule each shape of the town took
    findings     what the linter finds, as an editor lists it
    edits        changes of a script: another name, another layout, other numbers
    server       which request gets which answer
"""
