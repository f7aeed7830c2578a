#!/usr/bin/env bash
# Builds the oracle. Nothing is fetched.
#   bash oracle/build.sh         target/release/oracle, which stops where an index would wrap
#   bash oracle/build.sh fast    target/fast/oracle, for measurements
set -eu

profile=${1:-release}
manifest=$(dpkg -L librust-num-traits-dev 2>/dev/null | grep '/num-traits-[^/]*/Cargo\.toml$' | head -n 1)
if [ -z "$manifest" ]; then
    echo "librust-num-traits-dev is not installed" >&2
    exit 1
fi
registry=$(dirname "$(dirname "$manifest")")

# The lock file names the package's version, so it is made anew and not kept.
cd "$(dirname "${BASH_SOURCE[0]}")"
rm -f Cargo.lock
cargo --config 'source.crates-io.replace-with="debian"' \
    --config "source.debian.directory=\"$registry\"" \
    build --quiet --profile "$profile" --offline --target-dir target
