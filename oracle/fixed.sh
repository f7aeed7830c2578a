#!/usr/bin/env bash
# For list.sh, runs.sh and long.sh: builds the oracle and makes the input that a program of crates/ is run on, and its answers.
#   bash oracle/fixed.sh CRATE WHAT WORD [--check]
# Writes crates/CRATE/stdin and stdout, or compares with them. WORD, if any, stands before the oracle's own words.
set -eu

crate=$1 what=$2 mode=${4-}
word=()
[ -z "$3" ] || word=("$3")
case $mode in
'' | --check) ;;
*)
    echo "the one word that may follow is --check" >&2
    exit 2
    ;;
esac

oracle=$(cd "$(dirname "${BASH_SOURCE[0]}")" && pwd)
committed=$oracle/../crates/$crate
bash "$oracle/build.sh"
command=$oracle/target/release/oracle
"$command" check

folder=$(mktemp -d)
trap 'rm -rf "$folder"' EXIT
"$command" "${word[@]}" make >"$folder/stdin"
"$command" "${word[@]}" answer <"$folder/stdin" >"$folder/stdout"
count=$("$command" "${word[@]}" count <"$folder/stdin" | tail -n 1 | awk '{print $1}')

if [ "$mode" = --check ]; then
    cmp "$folder/stdin" "$committed/stdin"
    cmp "$folder/stdout" "$committed/stdout"
    echo "as committed: $count $what"
else
    mkdir -p "$committed"
    cp "$folder/stdin" "$folder/stdout" "$committed/"
    echo "written: $count $what"
fi
