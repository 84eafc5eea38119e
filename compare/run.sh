#!/bin/sh
# Compares the proved programs with the independent marker: compare/run.sh [COUNT] [SEED]
# The proved programs are built in their crates, or taken from the folder that PROGRAMS names; SECONDS_LIMIT bounds the time (1500).
set -eu
count=${1:-20000}
seed=${2:-1}
limit=${SECONDS_LIMIT:-1500}
here=$(cd "$(dirname "$0")" && pwd)
names="paper_levels sheet_levels print_paper_key print_sheet_key sit"

# The file of a program. `rt run` proves, builds and runs it, here on nothing, so that its own status says nothing.
built() {
    if [ -n "${PROGRAMS:-}" ]; then
        echo "$PROGRAMS/$1"
    else
        (cd "$here/../crates/$1" && rm -f "out/$1" && rt run </dev/null >/dev/null 2>&1) || true
        echo "$here/../crates/$1/out/$1"
    fi
}

work=$(mktemp -d)
trap 'rm -rf "$work"' EXIT
# The programs are copied, so that a build meanwhile does not change what is compared.
mkdir "$work/programs" "$work/keep"
for program in $names; do
    file=$(built "$program")
    if [ ! -x "$file" ]; then
        echo "compare: $file is missing; \`rt run\` in crates/$program says why" >&2
        exit 2
    fi
    cp "$file" "$work/programs/"
done
rustc --edition 2021 -O "$here/marker.rs" -o "$work/marker"
rustc --edition 2021 -O "$here/compare.rs" -o "$work/compare"

# The driver starts no input after the limit; `timeout` ends it if a program hangs.
status=0
timeout $((limit + 120)) "$work/compare" "$count" "$seed" "$limit" "$work/marker" "$work/programs" "$work/keep" || status=$?
if [ "$status" -ne 0 ]; then
    trap - EXIT
    rm -rf "$work/programs"
    echo "compare: status $status; work files are kept in $work" >&2
fi
exit "$status"
