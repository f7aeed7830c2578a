#!/usr/bin/env bash
# The fixed whole runs that crates/test_whole runs.
#   bash oracle/runs.sh           writes crates/test_whole/stdin and crates/test_whole/stdout
#   bash oracle/runs.sh --check   makes them anew and compares
exec bash "$(dirname "${BASH_SOURCE[0]}")/fixed.sh" test_whole 'whole runs' runs "$@"
