#!/bin/sh
# Runs `heapsuite summary`, `print`, `flame`, `massif` and `dhat` on each trace of this folder, `heapsuite interpret` on each raw
# one, `heapsuite ms_print` on the files of `massif`, `heapsuite dhat_view` on the profiles of `dhat`, and `heapsuite convert` on
# both, and compares what they print with the files beside them. The numbers of the folded lines have to sum to the totals that
# Valgrind told. The summary of what `interpret` writes has to be that of the trace which heaptrack
# interpreted. And a trace of two million events is generated, whose summary is `generated.summary`. The program is the first
# argument, or bin/heapsuite at the top of the repository.
cd "$(dirname "$0")" || exit 1
heapsuite=${1:-../bin/heapsuite}
work=$(mktemp -d) || exit 1
trap 'rm -r "$work"' EXIT
failed=0

# Compares what a command prints of a trace with the file of an ending.
compare() {
    trace=$1
    ending=$2
    shift 2
    if "$heapsuite" "$@" "$trace" | cmp -s - "${trace%.trace}.$ending"; then
        echo "$trace, $ending: as expected"
    else
        echo "$trace, $ending: differs"
        failed=1
    fi
}

for trace in *.trace; do
    compare "$trace" summary summary
    compare "$trace" print print
    compare "$trace" flame flame
    compare "$trace" peak-flame flame --flamegraph-cost-type=peak
    compare "$trace" massif massif
    compare "$trace" dhat dhat
done
for raw in *.raw; do
    name=${raw%.raw}
    for expected in interpreted summary; do
        case $expected in
            interpreted) "$heapsuite" interpret --symbols="$name.symbols" "$raw" ;;
            summary) "$heapsuite" interpret --symbols="$name.symbols" "$raw" | "$heapsuite" summary - ;;
        esac | if cmp -s - "$name.$expected"; then
            echo "$raw, $expected: as expected"
        else
            echo "$raw, $expected: differs"
            exit 1
        fi || failed=1
    done
done

# Compares what a command prints of a profile with the file of an ending.
compare_profile() {
    profile=$1
    ending=$2
    shift 2
    if "$heapsuite" "$@" "$profile" | cmp -s - "${profile%.*}.$ending"; then
        echo "$profile, $ending: as expected"
    else
        echo "$profile, $ending: differs"
        failed=1
    fi
}

# Compares folded lines in the same way, and the sum of their numbers with a total.
compare_folded() {
    total=$1
    shift
    compare_profile "$@"
    if [ "$(awk '{ sum += $NF } END { print sum }' "${1%.*}.$2")" != "$total" ]; then
        echo "$1, $2: doesn't sum to $total"
        failed=1
    fi
}

for profile in massif/*.out; do
    compare_profile "$profile" page ms_print
    peak=$(grep -B 4 heap_tree=peak "$profile" | sed -n 's/mem_heap_B=//p')
    compare_folded "$peak" "$profile" folded convert --from=massif
done
compare_profile dhat/pages.heap.json view dhat_view
compare_profile dhat/pages.heap.json peak-view dhat_view --sort=gb
compare_profile dhat/pages.copy.json view dhat_view
compare_folded 157696 dhat/pages.heap.json folded convert
compare_folded 147968 dhat/pages.heap.json peak-folded convert --key=gb
compare_folded 32768 dhat/pages.heap.json end-folded convert --key=eb
compare_folded 285 dhat/pages.copy.json folded convert
compare_profile dhat/pages.heap.json massif convert --to=massif
compare pages.trace suppressed-print print --merge-backtraces=0 --suppressions=pages.suppressions

# Compares what comes in with the summary of the generated trace.
compare_generated() {
    if cmp -s - generated.summary; then
        echo "generated trace, $1: as expected"
    else
        echo "generated trace, $1: differs"
        failed=1
    fi
}

"$heapsuite" gen --run --seed=1 --events=2000000 --stacks=1000 > "$work/read"
"$heapsuite" gen --seed=1 --events=2000000 --stacks=1000 | "$heapsuite" summary - > "$work/written"
compare_generated "read while it is made" < "$work/read"
compare_generated "written and read" < "$work/written"
exit "$failed"
