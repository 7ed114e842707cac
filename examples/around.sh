#!/bin/sh
# around.sh [--swi] MODULE:NAME/ARITY STEPS FILE..: a predicate among its neighbours, as SVG on
# standard output: what it reaches by at most so many calls (0 to 99), and what reaches it so. --swi
# reads by the bridge to SWI-Prolog. Needs `calls`, `jq` and the command `dot` of Graphviz. Ends with 2 if
# there is no such predicate, else with the status of what failed; with 8, after the graph, if the
# bridge left something out.
here=$(dirname -- "$(readlink -f -- "$0")")
calls=${CALLS:-$here/../calls}
[ "${1-}" != --swi ] || { shift && calls=${CALLS_SWI:-$here/../bridges/swi/calls-swi}; }
wanted=${1-}
steps=${2-}
case $#:$steps in
[012]:* | *:*[!0-9]* | *: | *:???*)
    echo "usage: around.sh [--swi] MODULE:NAME/ARITY STEPS FILE.. > around.svg" >&2
    exit 2
    ;;
esac
shift 2
lines=$("$calls" --unreached "$@")
status=$?
[ "$status" = 0 ] || [ "$status" = 8 ] || exit "$status"
# `reach` goes on until a step finds nothing new. A box is recursive, and the one asked for is filled.
graph=$(printf '%s\n' "$lines" | jq -rs --arg wanted "$wanted" --argjson steps "$steps" '
    def text: .[:200] | gsub("&"; "&amp;") | tojson;
    def reach($next; $steps):
        [., ., 0] | until((.[1] | length) == 0 or .[2] >= $steps;
            .[0] as $seen
            | ([.[1] | keys[] | $next[.] // [] | .[]] | map({key: ., value: true}) | from_entries
                | with_entries(select($seen[.key] | not))) as $new
            | [$seen + $new, $new, .[2] + 1]) | .[0];
    def rows($from; $to): group_by(.[$from]) | map({key: .[0][$from], value: map(.[$to])}) | from_entries;
    map(select(.is == "predicate")) as $predicates
    | (map(select(.is == "call" and .caller != null and .callee != null) | ["\(.caller)", "\(.callee)"]) | unique) as $calls
    | ($predicates | map(select("\(.module):\(.name)/\(.arity)" == $wanted) | {key: "\(.id)", value: true})
        | from_entries) as $start
    | if $start == {} then "around.sh: no predicate \($wanted)\n" | halt_error(2) else . end
    | (($start | reach($calls | rows(0; 1); $steps)) + ($start | reach($calls | rows(1; 0); $steps))) as $near
    | "digraph around {", "node [shape=plaintext];",
      ($predicates[] | select($near["\(.id)"])
        | "n\(.id) [label=\("\(.module):\(.name)/\(.arity)" | text)"
          + (if .recursive then ", shape=box" else "" end)
          + (if $start["\(.id)"] then ", style=filled, fillcolor=lightyellow" else "" end) + "];"),
      ($calls[] | select($near[.[0]] and $near[.[1]]) | "n\(.[0]) -> n\(.[1]);"),
      "}"') || exit
printf '%s\n' "$graph" | dot -Tsvg || exit
exit "$status"
