#!/bin/sh
# make.sh [WORD..]: the targets of a makefile with what each needs, a line for a target, as
# `components` reads them. The arguments go to make, as `-C FOLDER` or `-f FILE`:
#
#   examples/edges/make.sh -C src | components
#
# A line `recursive` of the report is a circular dependency, which make itself drops. With the one
# argument `-` the output of `make -pn` is read from standard input.
#
# Built-in rules, pattern rules and special targets such as .PHONY are left out. No recipe is run.
# Ends with 2 if make finds no makefile, and with 127 if there is no make.
set -u
if [ "$*" != - ] && ! command -v make >/dev/null 2>&1; then
    echo "make.sh: the command make isn't found" >&2
    exit 127
fi
database() {
    if [ "$*" = - ]; then
        cat
    else
        # This goal has no rule, so that no target is considered, and no dependency dropped. Then
        # make prints what it knows, and ends with status 2.
        LC_ALL=C make -pnrR "$@" .DEFAULT 2>/dev/null
    fi
}
[ "$*" = - ] && stored=1 || stored=0
database "$@" | LC_ALL=C awk -v stored="$stored" '
    /^MAKEFILE_LIST :=[ \t]*[^ \t]/ { found = 1 }
    /^# Files$/ { inside = 1; if (stored) found = 1 }
    /^# (files hash-table stats|VPATH Search Paths)/ { inside = 0 }
    /^# Not a target:/ { getline; next }
    !inside || /^[#\t]/ || !/:/ { next }
    /^[^:]*:[^:=]*[:+?]?=/ { next }
    /^\.[A-Z_]+:/ || /^[^:]*%/ { next }
    {
        colon = index($0, ":")
        needs = substr($0, colon + 1)
        sub(/^:/, "", needs)
        gsub(/(^|[ \t])\|([ \t]|$)/, " ", needs)
        line = substr($0, 1, colon - 1) " " needs
        gsub(/[ \t]+/, " ", line)
        sub(/ $/, "", line)
        print line
    }
    END {
        if (!found) {
            print "make.sh: make reads no makefile here" >"/dev/stderr"
            exit 2
        }
    }'
