#!/bin/sh
# go.sh [PACKAGE..]: the packages that these need, each with what it imports, a line for a package,
# as `components` reads them:
#
#   examples/edges/go.sh ./... | components
#
# Packages of one height import nothing from each other, so they can be compiled at once. The
# arguments go to `go list`; see `go help list`.
exec go list -deps -f '{{.ImportPath}}{{range .Imports}} {{.}}{{end}}' "$@"
