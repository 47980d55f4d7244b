#!/bin/sh
# Runs the commands on the examples, shows input and answer, and compares the answer with what is expected.
# usage: examples/demo.sh PROGRAM, at the top of the repository
# Where the program isn't there, or is older than the sources, they are compiled without a proof and run with checks.
program=$1
# (where the gate compares its print too)
schema=crates/ocsf_run_rows/data/schema
made=$(mktemp -d) || exit 1
trap 'rm -rf "$made"' EXIT

# The first and the last bytes of a long print.
ends() {
    echo "$(printf '%s' "$1" | cut -c1-300) .. $(printf '%s' "$1" | tail -c 40)"
}

# Whether the program is there, and no source is newer.
is_built() {
    [ -x "$program" ] && [ -z "$(find crates -name out -prune -o -name '*.rt' -newer "$program" -print)" ]
}

# Runs the command unproved over these files; what it writes and its status go where those of a run go.
try() {
    name=$1
    shift
    (cd crates/ocsf && rt try --seconds 60 "$@" > "$made/$name" 2> "$made/$name.notes")
    echo $? > "$made/$name.status"
}

# Runs the commands, at the same time where they have to be compiled.
run_all() {
    if is_built; then
        "$program" compile "$schema" > "$made/compile"
        echo $? > "$made/compile.status"
        "$program" validate "$schema" < examples/events.jsonl > "$made/validate"
        echo $? > "$made/validate.status"
        "$program" edits < examples/story.edits > "$made/edits"
        echo $? > "$made/edits.status"
        return
    fi
    echo "No proved program is at $program: \`make\` proves and builds it (docs/GATE.md says how long that takes)."
    echo "Here the sources are compiled without a proof, and run with a check at each step, which takes some minutes."
    echo
    files=$(cd "${schema%/*}" && find schema -name '*.json' | sed "s|.*|--data &=../../${schema%/*}/&|")
    # (the names of the example have no blanks)
    try compile $files -- compile schema < /dev/null &
    try validate $files -- validate schema < examples/events.jsonl &
    try edits -- edits < examples/story.edits
    wait
}

# Stops unless the command ended with this status and wrote what this file holds.
compare() {
    status=$(cat "$made/$1.status")
    if [ "$status" -ne "$2" ]; then
        echo "** ended with status $status, and not $2"
        cat "$made/$1.notes" 2> /dev/null
        exit 1
    fi
    if ! cmp "$made/$1" "$3"; then
        echo "** not as expected"
        exit 1
    fi
    echo "   (status $status, $(wc -c < "$made/$1" | tr -d ' ') bytes, as in $3)"
}

run_all

echo "== ocsf compile $schema"
find "$schema" -name '*.json' | LC_ALL=C sort | sed 's/^/   /'
echo "-- answer"
ends "$(cat "$made/compile")"
compare compile 0 examples/schema.expected

echo
echo "== ocsf validate $schema < examples/events.jsonl"
exec 3< "$made/validate"
while IFS= read -r event; do
    IFS= read -r reply <&3
    if [ "${#event}" -gt 400 ]; then
        event=$(ends "$event")
    fi
    echo "-- $event"
    echo "   $reply"
done < examples/events.jsonl
# Most of the events aren't allowed, so the status is 1.
compare validate 1 examples/events.expected

echo
echo "== ocsf edits < examples/story.edits"
exec 3< "$made/edits"
while IFS= read -r edit; do
    IFS= read -r reply <&3
    if [ "${#edit}" -gt 400 ]; then
        edit=$(ends "$edit")
    fi
    echo "-- $edit"
    echo "   $reply"
done < examples/story.edits
IFS= read -r schema <&3
echo "-- the schema at the end"
ends "$schema"
# A line of the story is refused, so the status is 1.
compare edits 1 examples/story.expected
