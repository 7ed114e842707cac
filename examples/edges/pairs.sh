#!/bin/sh
# pairs.sh [FILE..]: what tsort reads, as `components` reads it. tsort takes words in pairs, however
# they are broken into lines; a pair of equal words is a node alone:
#
#   examples/edges/pairs.sh order.txt | components
#
# A line `recursive` of the report is a cycle, at which tsort fails. The first word of a pair comes
# first in the output of tsort; `components` prints callees first, so it comes last there.
exec awk '
    {
        for (at = 1; at <= NF; at++) {
            if (count++ % 2 == 0) first = $at
            else print ($at "" == first "" ? first : first " " $at)
        }
    }
    END {
        if (count % 2) {
            print "pairs.sh: an odd number of words" >"/dev/stderr"
            exit 1
        }
    }' "$@"
