"""CityEngine's CGA as a script: `tools/port` reads a file of rules and writes what it means here.

    tokens        words, numbers, texts and signs of a file, with their lines, and its comments
    tree          what a file says: attributes, functions, rules, and the items of a successor
    values_read   values and conditions, read from tokens
    reader        declarations and successors, read from tokens
    imports       the files that a file imports
    names         a name of a script for each name of a file
    values        values and conditions as a script writes them, and what is known of them before any run
    look          the colours and textures that shapes have where their rules set them
    forms         the form that a shape is drawn as, and the items that draw it
    sizes         sizes and lengths of splits
    splits        splits, repeats and numbers of parts
    narrow        what a rule makes of shapes that are too narrow for it
    components    faces and edges of a scope
    steps         an operation each: moves, sizes, turns, extrusions, borders
    reports       reports as columns of a table
    roofs         roofs by their angles
    walk          a successor, item by item
    handlers      which item is done by what
    traits        what shapes read of the shape that they come from
    context       a rule as one symbol of the script
    rules         the rules of a symbol: cases, percentages, numbers
    starts        how lots begin
    linted        what the linter says of the script
    meshes        the OBJ files that rules insert, as assets
    lost          what has no counterpart, and what was written nearly so
    script        the script as a text
"""
