#!/bin/sh
# graph.sh [--condensed] FILE..: the graph of the predicates, or of their components, as SVG on
# standard output. Needs `calls` and the command `dot` of Graphviz. Ends with the status of the one
# that failed.
here=$(dirname -- "$(readlink -f -- "$0")")
case ${1---help} in
--help | -h)
    echo "usage: graph.sh [--condensed] FILE.. > graph.svg" >&2
    exit 2
    ;;
esac
graph=$("${CALLS:-$here/../calls}" --dot "$@") || exit
printf '%s\n' "$graph" | dot -Tsvg
