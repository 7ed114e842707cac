#!/bin/sh
# check.sh [--swi] [--known FILE] FILE..: for CI. Prints a line for each call of a predicate that
# nothing defines, and for each import cycle of the files:
#
#   a.pl:3:8: undefined a:q/1
#   a.pl:2:1: import cycle a b
#
# The line of a cycle is that of a load which is part of it. Status 0 if there is none, 1 if there
# is one, 2 for wrong arguments; else that of the program that couldn't read the files.
#
# --known FILE  passes over what FILE lists, a line each: `q/1`, `a:q/1`, `import cycle a b`
# --swi         reads by the bridge to SWI-Prolog; its status 8 stays if there is nothing to print
#
# Needs `groups`, `calls`, `jq` and `awk`. If there is `swipl`, a predicate that SWI-Prolog or a
# library which the files load defines is not undefined, and goals of its library are followed.
here=$(dirname -- "$(readlink -f -- "$0")")
swi=$here/../bridges/swi
groups=${GROUPS_PROGRAM:-$here/../groups}
calls=${CALLS:-$here/../calls}
known=/dev/null by_bridge=
usage() {
    echo "usage: check.sh [--swi] [--known FILE] FILE.." >&2
    exit 2
}
while :; do
    case ${1-} in
    --known)
        [ $# -gt 1 ] || usage
        known=$2
        shift 2
        ;;
    --swi) shift && by_bridge=yes groups=${GROUPS_SWI:-$swi/groups-swi} calls=${CALLS_SWI:-$swi/calls-swi} ;;
    -- | -*) usage ;;
    *) break ;;
    esac
done
[ $# != 0 ] || usage
[ -r "$known" ] || {
    echo "check.sh: $known can't be read" >&2
    exit 2
}
room=$(mktemp -d) || exit 7
trap 'rm -rf "$room"' EXIT
trap 'exit 130' INT TERM HUP

# What reads the files says why it can't. A status of 8 is kept: something was left out.
left_out=0
reads() {
    "$@"
    status=$?
    case $status in
    0) ;;
    8) left_out=8 ;;
    *) exit "$status" ;;
    esac
}
# As it is for what was read before: what it says is shown only if it fails.
reads_again() {
    "$@" 2>"$room/said"
    status=$?
    case $status in
    0 | 8) ;;
    *) cat "$room/said" >&2 && exit "$status" ;;
    esac
}

# library-goals says which predicates of SWI-Prolog's library take goals. What calls-swi --undefined
# prints is what neither SWI-Prolog nor a library defines.
asks=$by_bridge
[ -n "$asks" ] || ! command -v swipl >/dev/null 2>&1 || [ ! -x "$swi/library-goals" ] || asks=yes
reads "$groups" "$@" >"$room/report"
[ -z "$asks" ] || reads_again "${CALLS_SWI:-$swi/calls-swi}" --unreached --undefined "$@" >"$room/unknown"
if [ -n "$asks" ] && [ -z "$by_bridge" ]; then
    reads_again "$swi/library-goals" "$@" >"$room/goals.pl"
    [ ! -s "$room/goals.pl" ] || set -- "$@" "$room/goals.pl"
fi
reads_again "$calls" --unreached "$@" >"$room/lines"
[ -n "$asks" ] || cp "$room/lines" "$room/unknown" || exit

# Each line, and after tabs the two names by which it may be known. A log shows no control character
# of a name.
jq -r --slurpfile unknown "$room/unknown" '
    ($unknown | map(select(.is == "call") | {key: ([.module, .name, .arity] | tojson), value: true}) | from_entries) as $unknown
    | select(.is == "call" and .callee == null and $unknown[[.module, .name, .arity] | tojson])
    | ("\(.name)/\(.arity)" | gsub("[\\p{Cc}\\p{Cf}]"; "?")) as $name
    | "\(.file):\(.line):\(.column): undefined \(.module):\($name)\t\(.module):\($name)\t\($name)"
    ' "$room/lines" >"$room/found" || exit

# The loads of the files, for the positions of import cycles.
jq -r 'select(.is == "clause").file' "$room/lines" | uniq | sort -u | grep -Fvx "$room/goals.pl" >"$room/files"
LC_ALL=C awk -v first="$1" '
    function base(path) { sub(/.*\//, "", path); sub(/\.pl$/, "", path); return path }
    FILENAME ~ /\/report$/ { if ($1 == "import-loop") loops[++count] = substr($0, 13); next }
    {
        file = $0; module = "user"; at = 0
        while ((getline line <file) > 0) {
            at++
            if (match(line, /:-[ \t]*module\([ \t]*('"'"'[^'"'"']*'"'"'|[a-zA-Z0-9_]+)/)) {
                module = substr(line, RSTART, RLENGTH); start = RSTART
                sub(/^:-[ \t]*module\([ \t]*/, "", module); home[module] = file ":" at ":" start
            } else if (match(line, /:-[ \t]*(use_module|autoload|reexport|ensure_loaded|load_files|consult|\[)/))
                loads[module, ++load[module]] = file ":" at ":" RSTART "\t" substr(line, RSTART + 2)
        }
        close(file)
        names[module, ++files[module]] = base(file)
    }
    END {
        for (n = 1; n <= count; n++) {
            rest = loops[n]; members = 0; place = ""
            while (match(rest, /([^ '"'"']|'"'"'([^'"'"'\\]|\\x[0-9a-f][0-9a-f]\\|\\[^x])*'"'"')+/)) {
                member[++members] = substr(rest, RSTART, RLENGTH); rest = substr(rest, RSTART + RLENGTH)
                for (k = 1; k <= files[member[members]]; k++) in_loop[names[member[members], k]] = n
            }
            for (m = 1; m <= members && place == ""; m++)
                for (k = 1; k <= load[member[m]] && place == ""; k++) {
                    split(loads[member[m], k], it, "\t")
                    words = split(it[2], word, /[^a-zA-Z0-9_]+/)
                    for (w = 1; w <= words; w++) if (in_loop[word[w]] == n) place = it[1]
                }
            for (m = 1; m <= members && place == ""; m++) place = home[member[m]]
            if (place == "") place = first ":1:1"
            print place ": import cycle " loops[n] "\timport cycle " loops[n]
        }
    }
' "$room/report" "$room/files" >>"$room/found" || exit
LC_ALL=C awk -F '\t' '
    FILENAME == ARGV[1] { known[$0] = 1; next }
    !($2 in known) && !($3 in known) { print $1; found = 1 }
    END { exit found }
' "$known" "$room/found" || exit 1
exit "$left_out"
