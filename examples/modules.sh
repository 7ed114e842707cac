#!/bin/sh
# modules.sh [--swi] FILE..: the graph of modules as SVG on standard output. A module has the number
# of its predicates, and an arrow the number of calls. --swi reads by the bridge to SWI-Prolog.
# Needs `calls`, `jq` and the command `dot` of Graphviz. Ends with the status of what failed; with
# 8, after the graph, if the bridge left something out.
here=$(dirname -- "$(readlink -f -- "$0")")
case ${1---help} in
--help | -h)
    echo "usage: modules.sh [--swi] FILE.. > modules.svg" >&2
    exit 2
    ;;
esac
calls=${CALLS:-$here/../calls}
[ "${1-}" != --swi ] || { shift && calls=${CALLS_SWI:-$here/../bridges/swi/calls-swi}; }
lines=$("$calls" --unreached "$@")
status=$?
[ "$status" = 0 ] || [ "$status" = 8 ] || exit "$status"
graph=$(printf '%s\n' "$lines" | jq -rs '
    def text: .[:200] | gsub("&"; "&amp;") | tojson;
    map(select(.is == "predicate")) as $predicates
    | ($predicates | map({key: "\(.id)", value: .module}) | from_entries) as $module_of
    | ($predicates | group_by(.module) | to_entries) as $modules
    | ($modules | map({key: .value[0].module, value: .key}) | from_entries) as $number
    | map(select(.is == "call" and .caller != null and .callee != null) | [$number[$module_of["\(.caller)"]], $number[$module_of["\(.callee)"]]])
    | "digraph modules {", "node [shape=box];",
      ($modules[] | "m\(.key) [label=\("\(.value[0].module[:200]) (\(.value | length))" | text)];"),
      (map(select(.[0] != .[1])) | group_by(.)[] | "m\(.[0][0]) -> m\(.[0][1]) [label=\(length)];"),
      "}"') || exit
printf '%s\n' "$graph" | dot -Tsvg || exit
exit "$status"
