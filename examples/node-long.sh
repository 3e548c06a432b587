#!/usr/bin/env bash
# Runs a node on a longer input than the gate does: lines that are no events, numbers that are too big, a line of any
# length, and a last one without its line feed. What it answers must be what is stored. Build it first: `rt run` in
# crates/node.
set -euo pipefail
cd "$(dirname "$0")/.."
node=crates/node/out/node
[ -x "$node" ] || { echo "build the node first: (cd crates/node && rt run -- 4 4 4 4 0 </dev/null)" >&2; exit 1; }
mapfile -t args <crates/node/args
"$node" "${args[@]}" <examples/node-long.stdin | cmp - examples/node-long.stdout
echo "the node answered as stored"
