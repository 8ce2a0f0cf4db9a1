#!/bin/sh
# Builds a program of the files of tools/plane and the harness of tools/endings, in a copy of the repository, and runs it
# with checks over these words: bind|connect|accept|shake ports|names|waits|one|wait MADE UNDONE first|last|late. It makes so many
# binds, connects or sessions of one socket, each with its deliveries, and undoes so many of them, and tells how many
# objects and pairs there are, and how many calls were refused and commands taken. What calls of the desk require is not
# shown there: it is run, and not proved.
# Usage: tools/plane.sh WORDS

cd "$(dirname "$0")/.." || exit 2
work=$(mktemp -d) || exit 2
trap 'rm -rf "$work"' EXIT
tar --exclude=out -cf - crates crates.txt HANDLES | tar -xf - -C "$work" || exit 2
mkdir -p "$work/crates/plane/src"
for file in context plan sessions work; do
    cp "tools/endings/$file.rt.txt" "$work/crates/plane/src/$file.rt"
done
for file in tools/plane/*.txt; do
    cp "$file" "$work/crates/plane/src/$(basename "$file" .txt)"
done
echo "plane: zq_base msg_pipe any_sock spec_control desk plain_desk end_table closed_ends sock_core sock_calls line_socket" >> "$work/crates.txt"
cd "$work/crates/plane" && rt try --seconds 900 -- "$@"
