# What the benchmarks share: inputs, and a line for each command that is measured. They are run with the program as their first
# argument, or take bin/heapsuite at the top of the repository. All times are processor seconds, so that other work on the machine
# counts little.
heapsuite=$(realpath "${1:-$(dirname "$0")/../bin/heapsuite}") || exit 1
inputs=$(dirname "$0")/inputs
folder=$(mktemp -d) || exit 1
trap 'rm -r "$folder"' EXIT

# Writes a large trace of the generator: 10 million events over 4,000 stacks, about 60 MB.
large_trace() {
    "$heapsuite" gen --seed=1 --events=10000000 --stacks=4000 > "$1"
}

# Records a program that allocates and frees at 8,191 nodes, 5.4 million events, and leaves the raw trace alone. It needs heaptrack
# and a C compiler.
recorded_trace() {
    program=$folder/churn
    cat > "$program.c" << 'SOURCE'
#include <stdlib.h>

enum { SLOTS = 10007, CALLS = 2700000, DEPTH = 12 };

static void *slots[SLOTS];
static unsigned long long state = 1;

static unsigned draw(void) {
    state = state * 6364136223846793005ull + 1442695040888963407ull;
    return state >> 33;
}

void *right(unsigned path, unsigned depth, unsigned size);

void *left(unsigned path, unsigned depth, unsigned size) {
    if (depth == 0) return malloc(size);
    return path & 1 ? right(path >> 1, depth - 1, size) : left(path >> 1, depth - 1, size);
}

void *right(unsigned path, unsigned depth, unsigned size) {
    if (depth == 0) return malloc(size);
    return path & 1 ? right(path >> 1, depth - 1, size) : left(path >> 1, depth - 1, size);
}

int main(void) {
    for (unsigned k = 0; k < CALLS; k++) {
        unsigned slot = draw() % SLOTS;
        unsigned path = draw() % (1 << DEPTH);
        free(slots[slot]);
        slots[slot] = left(path, DEPTH, 16 + path % 1000);
    }
    return 0;
}
SOURCE
    command -v heaptrack > /dev/null && command -v cc > /dev/null || return
    cc -O1 -fno-optimize-sibling-calls -fno-inline -o "$program" "$program.c" || return
    heaptrack --raw -o "$program" "$program" > /dev/null 2>&1 || return
    if [ -e "$program.raw.zst" ]; then
        zstd -q -dc "$program.raw.zst"
    else
        gzip -dc "$program.raw.gz"
    fi
    rm -f "$program" "$program".*
}

# Says what is measured on a file of input.
measure_on() {
    megabytes=$(($(wc -c < "$1") / 1000000))
    base=
    echo "input: $megabytes MB, $(wc -l < "$1") lines"
}

# Runs a command without its output, up to `limit` processor seconds. It leaves the milliseconds that the processor took for it and
# its peak memory in kilobytes. The messages of one that fails are shown.
limit=60
run() {
    (ulimit -t "$limit"; LC_ALL=C exec bash -c 'TIMEFORMAT="%3U %3S"; time "$@" > /dev/null 2> "$0"' "$folder/messages" \
        /usr/bin/time -q -o "$folder/memory" -f %M "$@") 2> "$folder/taken"
    status=$?
    if [ "$status" -gt 0 ] && [ "$status" -le 128 ]; then
        cat "$folder/messages" >&2
    fi
    milliseconds=$(awk '{ printf "%d", 1000 * ($1 + $2) + 0.5 }' "$folder/taken")
    kilobytes=$(cat "$folder/memory")
}

# Prints a name and what a command took; the time of the first one is what the others are compared with.
measure() {
    name=$1
    shift
    run "$@"
    if [ "$status" -gt 128 ]; then
        echo "$name" | awk -v limit="$limit" '{ printf "%-16s cut after %d s\n", $1, limit }'
        return
    fi
    base=${base:-$milliseconds}
    echo "$name $milliseconds $kilobytes $megabytes $base" | awk '{
        printf "%-16s %6.2f s %6.0f MB/s %6.1f MB peak memory %6.2f times\n",
            $1, $2 / 1000, $4 / ($2 / 1000 + 0.001), $3 / 1000, $2 / ($5 + 0.1)
    }'
}

# The same, where the command is installed.
measure_installed() {
    if command -v "$1" > /dev/null; then
        measure "$1" "$@"
    fi
}
