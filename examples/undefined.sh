#!/bin/sh
# undefined.sh FILE..: names that are called and not defined, as `FILE:LINE:COLUMN: TEXT`, for the
# error list of an editor. Needs `calls` and `jq`. Ends with the status of the one that failed.
#
# Names that SWI-Prolog has built in are printed too. To pass over them, write them into a file,
# one NAME/ARITY a line, and give it as KNOWN=FILE in the environment.
here=$(dirname -- "$(readlink -f -- "$0")")
case ${1---help} in
--help | -h)
    echo "usage: undefined.sh FILE.." >&2
    exit 2
    ;;
esac
calls=$("${CALLS:-$here/../calls}" --unreached --undefined "$@") || exit
[ -z "$calls" ] || printf '%s\n' "$calls" |
    jq -r --rawfile known "${KNOWN:-/dev/null}" '
        ($known | split("\n")) as $known
        | select("\(.name)/\(.arity)" as $name | $known | index([$name]) | not)
        | "\(.file):\(.line):\(.column): undefined \(.module):\(.name)/\(.arity)"'
