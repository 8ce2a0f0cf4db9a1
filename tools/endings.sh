#!/bin/sh
# Ends contexts of sockets over the desk, in a copy of the repository with a crate of the files of tools/endings: two
# sockets and their pair in each order of their lines, the asking of the context and the commands that wait, the same
# with a listener and sessions of an I/O worker, and many sockets in orders drawn by seeds. Each run has to end with the
# root ended and no object left, within as many commands and requests since the asking as docs/CLAIMS.md says.
# Usage: tools/endings.sh. What calls of the desk require is not shown there: it is run, compiled with checks, and not
# proved, so it stands outside the gate. It takes some minutes.

cd "$(dirname "$0")/.." || exit 2
work=$(mktemp -d) || exit 2
trap 'rm -rf "$work"' EXIT
tar --exclude=out -cf - crates crates.txt HANDLES | tar -xf - -C "$work" || exit 2
mkdir -p "$work/crates/endings/src"
for file in tools/endings/*.txt; do
    cp "$file" "$work/crates/endings/src/$(basename "$file" .txt)"
done
echo "endings: zq_base msg_pipe any_sock spec_control desk plain_desk end_table closed_ends sock_core sock_calls line_socket" >> "$work/crates.txt"
cd "$work/crates/endings" && rt try --test --seconds 900
