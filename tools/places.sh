#!/usr/bin/env bash
# Lists the lines of src/ at a commit among which the places of the design pass are sought, a heading and a count for each
# search: tools/places.sh COMMIT (the whole list), tools/places.sh COMMIT counts (the counts alone). docs/DESIGN-PASS.md says
# which of these lines are places.
set -euo pipefail
commit=${1:?a commit}
only=${2:-lines}
sources='crates/*/src/*.rt'

look() { # a name, then an extended regular expression
    local found
    found=$(git grep -nE -e "$2" "$commit" -- "$sources" | sed "s/^[^:]*://" || true)
    echo "$1: $(printf '%s' "$found" | grep -c '' || true)"
    if [ "$only" = lines ]; then printf '%s\n' "$found" | sed 's/^/    /'; fi
}

repeated() { # a name, then how often a clause has to stand in src/ to be listed
    local found
    found=$(git grep -hoE -e '(requires|ensures) ?[a-z_0-9]* \{.*\}' "$commit" -- "$sources" | sed -E 's/^(requires|ensures) ?[a-z_0-9]* //' |
        sort | uniq -c | awk -v least="$2" '$1 >= least' || true)
    echo "$1: $(printf '%s' "$found" | grep -c '' || true)"
    if [ "$only" = lines ]; then printf '%s\n' "$found" | cut -c1-160 | sed 's/^/    /'; fi
}

look '1a own enums with a payload of any type' '^(pub )?enum [A-Za-z]+<[A-Z]'
look '1b a count or a flag beside a value, a bare number as an error' '-> (io::Result<bool>|\((usize|bool),|Result<.*, (usize|u32)>$)'
look '1c numbers for kinds' 'fn (from_number|number|detail)\b'
repeated '2 clauses that stand in two functions or more' 2
look '3 loops, but for those over a collection itself' '^ *(while |loop )|^ *for .* in .*(\.\.|enumerate)'
look '3 searches and tests of all by a loop' '^ *for .* in '
look '4 equality, order and conversion by hand' 'fn (asks|all_are|is_(writer|reader|free|newline|empty|for_another)|has_ticket|lower|other_writer|granted|from_number|number|answer_to|request_of|letter_of)\b'
look '4 printing by hand' 'fn (put|write)_[a-z]+'
repeated '5 facts that stand in three functions or more' 3
look '5 parameters that travel together' 'fn .*(at: usize|row: usize, (ticket|job|cell|group))|^        (row: usize|rows: &\[Option<Job>\]),$'
look '6 fixed arrays' '(\[(u8|bool|Decision|Request<i32>|Class); [0-9]+\]|: \[0; [0-9]+\])'
look '6 rows by index' 'Vec<Option<|Option<usize>'
look '7 a kind as a parameter that says what to do' '(how: Closing|kind: Kind|task: Task|letter: Letter|range: Range)'
