#!/usr/bin/env bash
# The fixed list of calls that crates/test_replay runs.
#   bash oracle/list.sh           writes crates/test_replay/stdin and crates/test_replay/stdout
#   bash oracle/list.sh --check   makes them anew and compares
exec bash "$(dirname "${BASH_SOURCE[0]}")/fixed.sh" test_replay calls '' "$@"
