#!/usr/bin/env bash
# The long whole run that crates/lookup is run on.
#   bash oracle/long.sh           writes crates/lookup/stdin and crates/lookup/stdout
#   bash oracle/long.sh --check   makes them anew and compares
exec bash "$(dirname "${BASH_SOURCE[0]}")/fixed.sh" lookup lines long "$@"
