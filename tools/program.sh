# What tools/curve, tools/cycles, tools/floor, tools/trace and tools/listing share; sourced by them. A command sets `usage` first, what `--help` prints.

# the program's own arguments, which a command may set
words=()

# where a core is chosen, the set count, the revision and the start (1 for a used cache): they stand before each text then
chosen=

# what the options that choose a core mean
options="Another core than document 01's is chosen before the files: --sets N for 1, 2, 4, 8 or 16 sets; --revision 2 for the one that fills an empty way of the set first;
--warm for a cache that was used before the first access. Without them it has one set, is of the first revision and starts empty."

# ARGUMENTS: takes these options from their front; `rest` are the others
take_options() {
    local sets=1 revision=1 used=0
    while :; do
        case ${1-} in
        --sets | --revision)
            case ${2-} in '' | *[!0-9]*) echo "$usage" >&2; exit 2 ;; esac
            if [ "$1" = --sets ]; then sets=$2; else revision=$2; fi
            shift
            ;;
        --warm) used=1 ;;
        *) break ;;
        esac
        shift
        chosen="$sets $revision $used"
    done
    rest=("$@")
}

# NAME: the program of that name on standard input, with what is chosen before it
run_chosen() {
    if [ -n "$chosen" ]; then { echo "$chosen"; cat; } | start "$1" ${words[@]+"${words[@]}"}; else start "$1" ${words[@]+"${words[@]}"}; fi
}

# NUMBER: the rule of that number in words, as document 01, section 5, and document 02 have them
rule() {
    case $1 in
    1) echo 'ways outside 1..16' ;;
    2) echo 'state limit outside 1..64' ;;
    3) echo 'more than 16 tracked blocks, or one listed twice' ;;
    4) echo 'more than 4,096 accesses' ;;
    5) echo 'nodes outside 1..64, run lengths that do not sum to the accesses, or an edge rule broken: an edge goes backwards or to no node, edges are' \
        'not listed rising by to and then by from, a node but the first has no edge in, or one but the last no edge out' ;;
    9) echo 'malformed text: something else than numbers between spaces and newlines, a number too large, too many of them, one missing or one left over' ;;
    10) echo 'sets other than 1, 2, 4, 8 or 16' ;;
    11) echo 'a revision other than 1 or 2' ;;
    12) echo 'a trace that is no multiple of 512 bytes' ;;
    13) echo 'a damaged block at that place: its check, its zeros, its count or its number is wrong' ;;
    14) echo 'no listing: a token that belongs nowhere, one missing or left over, a count outside 1..64, or branches and loops more than 8 deep in each other' ;;
    15) echo 'a listing whose graph has more than 64 nodes or 4,096 accesses' ;;
    17) echo 'an accessed block that is not tracked' ;;
    21) echo 'more than 1,024 blocks' ;;
    esac
}

# NAME FILE: the program on standard input; what it writes goes on to standard output, and a refusal to standard error as well, in words
answer() {
    run_chosen "$1" >"$written"
    cat "$written"
    local word number place
    read -r word number place <"$written"
    [ "$word" = refused ] || return 0
    echo "${2:+$2: }refused $number${place:+ $place}: $(rule "$number")" >&2
    refused=1
}

# NAME ARGUMENTS: the program on each file, or on standard input where there is none; the exit status is 1 where one was refused
answer_all() {
    local name=$1 file
    shift
    for file in "$@"; do
        case $file in
        --help | -h) echo "$usage"; exit ;;
        -) ;;
        -*) echo "$usage" >&2; exit 2 ;;
        *) [ -r "$file" ] && [ ! -d "$file" ] || { echo "no file that can be read: $file" >&2; exit 2; } ;;
        esac
    done
    . "$(dirname "${BASH_SOURCE[0]}")/kit.sh"
    build_program "$name"
    written=$(mktemp) refused=0
    trap 'rm -f "$written"' EXIT
    [ $# -gt 0 ] || set -- -
    for file in "$@"; do
        if [ "$file" = - ]; then answer "$name" ''; else answer "$name" "$file" <"$file"; fi
    done
    exit "$refused"
}
