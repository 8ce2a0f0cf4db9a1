#!/bin/sh
# Refuses memory to zbus, at each allocation of the stored row, of each example and of cases of zq_cases in turn. With
# that one and all behind it refused, zbus has to end with 6 and write nothing. With that one alone refused it has to do the same, or to
# do without and end as with all its memory: with the same code and the whole text. Another text or status never comes.
# Usage: tools/refuse_memory.sh, after `rt run` in crates/zbus, which makes crates/zbus/out/zbus, the program that is tried.
# It takes gcc, glibc and Python, and a few milliseconds a try. It stands outside the gate.

cd "$(dirname "$0")/.." || exit 2
program=$PWD/crates/zbus/out/zbus
[ -x "$program" ] || { echo "no $program: rt run in crates/zbus makes it"; exit 2; }
work=$(mktemp -d) || exit 2
trap 'rm -rf "$work"' EXIT

# It stands before the C library, whose own functions do what isn't refused, and tells the number of calls at the end.
gcc -O2 -Wall -shared -fPIC -o "$work/refuse.so" -x c - <<'PRELOAD' || exit 2
#include <stdio.h>
#include <stdlib.h>

extern void *__libc_malloc(size_t);
extern void *__libc_calloc(size_t, size_t);
extern void *__libc_realloc(void *, size_t);

static unsigned long first, last, calls;

__attribute__((constructor)) static void read_plan(void) {
    const char *plan = getenv("REFUSE");
    if (plan) sscanf(plan, "%lu-%lu", &first, &last);
    calls = 0;
}

__attribute__((destructor)) static void tell(void) {
    const char *path = getenv("CALLS");
    unsigned long made = calls;
    first = last = 0;
    FILE *file = path ? fopen(path, "w") : NULL;
    if (file) fprintf(file, "%lu\n", made), fclose(file);
}

static int refused(void) {
    calls++;
    return first <= calls && calls <= last;
}

void *malloc(size_t size) { return refused() ? NULL : __libc_malloc(size); }
void *calloc(size_t count, size_t size) { return refused() ? NULL : __libc_calloc(count, size); }
void *realloc(void *old, size_t size) { return refused() ? NULL : __libc_realloc(old, size); }
PRELOAD

# try PLAN: runs zbus with the allocations of PLAN refused; its code, text, messages and number of calls are in $work.
try() {
    # shellcheck disable=SC2086
    REFUSE=$1 CALLS=$work/calls LD_PRELOAD=$work/refuse.so "$program" $words < "$input" > "$work/text" 2> "$work/messages"
    code=$?
    if [ "$code" = "$due" ] && cmp -s "$work/text" "$text" && [ ! -s "$work/messages" ]; then
        end=whole
    elif [ "$code" = 6 ] && [ ! -s "$work/text" ] && [ ! -s "$work/messages" ]; then
        end=refused
    else
        echo "${input##*/}, allocations $1 refused: exit code $code, $(wc -c < "$work/text") octets written, and these messages:"
        cat "$work/messages"
        exit 1
    fi
}

# row WORDS INPUT TEXT: all tries of one run of the program.
row() {
    words=$1 input=$2 text=$3 due=0
    [ "$(tail -n 1 "$text")" != unfinished ] || due=8
    try 0-0
    [ "$end" = whole ] || { echo "$input: memory is wanting though none is refused"; exit 1; }
    made=$(cat "$work/calls")
    number=1 did_without=0
    while [ "$number" -le "$made" ]; do
        try "$number-18446744073709551615"
        [ "$end" = refused ] || { echo "$input: it ends with $due though no allocation from $number on is given"; exit 1; }
        try "$number-$number"
        [ "$end" = refused ] || did_without=$((did_without + 1))
        number=$((number + 1))
    done
    try "$number-$number"
    [ "$end" = whole ] || { echo "$input: it asks for more memory than it does unrefused"; exit 1; }
    echo "${input##*/}: $made allocations; alone refused, $((made - did_without)) end it with 6, and it does without $did_without"
    total=$((total + made)) without=$((without + did_without)) rows=$((rows + 1))
}

total=0 without=0 rows=0
row "$(tr '\n' ' ' < crates/zbus/args)" crates/zbus/stdin crates/zbus/stdout
for text in examples/*.journal examples/*.heard; do
    name=${text%.*}
    asked=run
    [ -e "$name.words" ] && asked=$(cat "$name.words")
    octets=$name.zbus
    [ -e "$octets" ] || octets=$name.octets
    row "$asked" "$octets" "$text"
done
mkdir "$work/rows" && tools/rows "$work/rows" || exit 2
for words in "$work"/rows/*.words; do
    name=${words%.words}
    row "$(cat "$words")" "$name.input" "$name.text"
done
echo "$rows rows, $total allocations. With all behind it refused, each ends with 6 and nothing written; alone, $((total - without)) do,"
echo "and the program does without the other $without: the same exit code and text"
