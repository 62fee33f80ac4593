#!/bin/sh
# Makes a dozen sets of scripts, records each by `heaprec --summary`, and compares the figures that it tells with those of
# `heapsuite summary` of the trace's interpretation. Then it checks the recording, and changes of it that are none. The first
# argument is a folder with both programs, or bin at the top of the repository.
cd "$(dirname "$0")" || exit 1
programs=$(realpath "${1:-../bin}") || exit 1
work=$(mktemp -d) || exit 1
trap 'rm -r "$work"' EXIT
cd "$work" || exit 1
failed=0

# Writes the scripts of a set: so many threads with about so many events each. A thread holds at most 50 blocks; each fifth turn
# of a block that is held is a reallocation, and the others are frees.
make_scripts() {
    rm -f script.*
    awk -v set="$1" -v threads="$2" -v events="$3" 'BEGIN {
        srand(set)
        for (thread = 0; thread < threads; thread++) {
            script = sprintf("script.%02d", thread)
            split("", held)
            for (done = 0; done < events; done++) {
                id = int(rand() * 50)
                if (!(id in held)) {
                    kind = "a"
                    held[id] = 1
                } else if (rand() < 0.2) {
                    kind = "r"
                } else {
                    printf "f %x\n", id > script
                    delete held[id]
                    continue
                }
                line = sprintf("%s %x %x", kind, id, int(rand() * 3000))
                for (depth = int(rand() * 8); depth >= 0; depth--) {
                    line = line sprintf(" %x", 1024 + 16 * int(rand() * 6) + depth)
                }
                print line > script
            }
            close(script)
        }
    }'
}

# The figures that both tell: of the recorder its comments, of the summary all but the temporary ones and the moment of the peak.
recorded_figures() {
    sed -n 's/^# \(events: .*\|calls: .*\|allocated: .*\|leaked: .*\|peak: [0-9]*\).*/\1/p' trace | sed 's/ from .*//' | sort
}
summary_figures() {
    "$programs/heapsuite" interpret trace | "$programs/heapsuite" summary - | sed '/^temporary/d; s/ at event .*//' | sort
}

# Changes one line of a recording: it is dropped or doubled, exchanged with the next one, or has another last digit.
changed() {
    awk -v kind="$1" -v at="$2" '
        NR == at && kind == "drop" { next }
        NR == at && kind == "double" { print }
        NR == at && kind == "exchange" { held = $0; next }
        NR == at && kind == "digit" { sub(/.$/, /0$/ ? "1" : "0") }
        { print }
        NR == at + 1 && kind == "exchange" { print held }' recording > changed
}

# That a trace is refused at a line from the second argument on.
refused_from() {
    message=$("$programs/heaprec" --check="$1" script.* 2>&1) && return 1
    line=$(echo "$message" | sed -n "s/^heaprec: $1:\([0-9]*\): not a recording$/\1/p")
    [ "${line:-0}" -ge "$2" ]
}

# Checks the recording that stands before the summary, the trace with the summary, and changes at some lines behind the head.
check_recording() {
    sed '/^# threads: /,$d' trace > recording
    lines=$(wc -l < recording)
    events=$(sed -n 's/^# events: //p' trace)
    [ "$("$programs/heaprec" --check=recording script.*)" = "a recording of $events events" ] || return
    refused_from trace $((lines + 1)) || return
    for place in 1 2 3 4 5; do
        at=$((3 + (set * 7919 + place * 104729) % (lines - 3)))
        for kind in drop double exchange digit; do
            changed "$kind" "$at"
            refused_from changed "$at" || return
        done
    done
}

for set in 1 2 3 4 5 6 7 8 9 10 11 12; do
    threads=$((set * set % 61 + 1))
    make_scripts "$set" "$threads" $((4000 / threads + 10))
    "$programs/heaprec" --summary script.* > trace || failed=1
    recorded_figures > recorded
    summary_figures > summed
    if [ "$(wc -l < recorded)" -eq 5 ] && cmp -s recorded summed && check_recording; then
        echo "set $set, $threads threads: as expected"
    else
        echo "set $set, $threads threads: differs"
        failed=1
    fi
done
exit "$failed"
