#!/bin/sh
# Refuses each growth of the heap in turn where a journal is opened: by `inspect`, by a node that takes no turn, and by `unsafe-bootstrap`, over five
# folders. The program must end with status 4 and a prefix of what it writes with ample memory, or, where it can do without that growth, as with
# ample memory. Then the folder must show the journal that it showed before, or, where `unsafe-bootstrap` came so far, the one that this makes. The
# growths before the folder is opened are the same for all, and are refused once.
# Usage: bench/opening_growths.sh [PROGRAM]; PROGRAM is what `rt run` leaves in crates/zen/out/zen. Where there is no C compiler it does nothing, and
# says so. It begins no further run after 60 seconds.
set -eu
top=$(cd "$(dirname "$0")/.." && pwd)
zen=${1:-$top/crates/zen/out/zen}
work=$(mktemp -d "${TMPDIR:-/tmp}/opening_growths.XXXXXX")
trap 'rm -rf "$work"' EXIT

fail() { echo "bench/opening_growths.sh: $*" >&2; exit 1; }

if ! cc -shared -fPIC -O1 -o "$work/refuse.so" "$top/bench/refuse_growth.c" -ldl 2> /dev/null; then
    echo "bench/opening_growths.sh: no C compiler, so no growth was refused"
    exit 0
fi
end=$(($(date +%s) + 60))

# A new folder: with no file, with a file of nine bytes that is given its header, with a journal of version 1, with one of two generations, and with
# one that has accepted a state.
one='\000\000\000\000\000\000\000\001'
term="ZENJRNL1\\001\\000\\000\\000\\011\\001$one"
fill() { # FOLDER KIND
    rm -rf "$1"
    mkdir "$1"
    case $2 in
        nothing) ;;
        nine) printf 'ABCDEFGHI' > "$1/journal.0" ;;
        old) printf "$term"'\000' > "$1/journal.0" ;;
        two)
            printf "$term"'\000' > "$1/journal.0"
            { printf 'ZENJRNL1\001\000\000\000\051\004\000\000\000\000\000\000\000\001\000\000\000\000\000\000\000\002'
                head -c 25 /dev/zero; } > "$1/journal.1" ;;
        state) printf "$term"'\001\000\000\000\042\002'"$one$one"'\001\001a\001\001a\000\000\000\000\001\000\001v\000\001x\000' > "$1/journal.0" ;;
    esac
}

# Runs a command of the program on a folder with this growth refused, 0 for none. What it writes is in $work/wrote.
run() { # GROWTH COMMAND FOLDER
    growth=$1 command=$2
    set -- --dir "$3"
    [ "$command" = inspect ] || set -- --id a "$@"
    [ "$command" != node ] || set -- "$@" --listen 127.0.0.1:0 --peers _ --initial _ --turns 0
    status=0
    REFUSE=$growth COUNT="$work/count" LD_PRELOAD="$work/refuse.so" "$zen" "$command" "$@" > "$work/wrote" || status=$?
}

show() { "$zen" inspect --dir "$1"; } # FOLDER

folder=$work/folder
for kind in state two old nine nothing; do
    fill "$folder" "$kind"
    show "$folder" > "$work/before" || fail "$kind: no journal"
    for command in inspect node unsafe-bootstrap; do
        # A path that leads through a file can't be opened.
        run 0 "$command" "$work/refuse.so/folder"
        early=$(cat "$work/count")
        fill "$folder" "$kind"
        run 0 "$command" "$folder"
        ample=$status growths=$(cat "$work/count") runs=0 refused=0
        mv "$work/wrote" "$work/whole"
        show "$folder" > "$work/after"
        [ "$growths" -gt "$early" ] || fail "$command, $kind: no growth was counted"
        number=$early
        [ "$kind" != state ] || number=0
        while [ "$number" -lt "$growths" ] && [ "$(date +%s)" -lt "$end" ]; do
            number=$((number + 1)) runs=$((runs + 1))
            fill "$folder" "$kind"
            run "$number" "$command" "$folder"
            what="$command, $kind, growth $number"
            show "$folder" > "$work/left" || fail "$what: no journal is left"
            case $status in
                "$ample")
                    cmp -s "$work/wrote" "$work/whole" || fail "$what: status $status and another text"
                    cmp -s "$work/left" "$work/after" || fail "$what: another journal is left" ;;
                4)
                    refused=$((refused + 1))
                    cmp -s -n "$(wc -c < "$work/wrote")" "$work/wrote" "$work/whole" || fail "$what: no prefix"
                    cmp -s "$work/left" "$work/before" || cmp -s "$work/left" "$work/after" || fail "$what: another journal is left" ;;
                *) fail "$what: status $status" ;;
            esac
        done
        echo "$command, $kind: $runs of $growths growths refused in turn: $refused runs ended with status 4"
    done
done
