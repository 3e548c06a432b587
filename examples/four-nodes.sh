#!/usr/bin/env bash
# Joins four nodes on this machine by named pipes: what one says as a `vote` line, the others read. Value 5 is offered to
# all with its block, time is up once, and they agree. Build them first: `rt run` in crates/node.
set -euo pipefail
cd "$(dirname "$0")/.."
node=crates/node/out/node
[ -x "$node" ] || { echo "build the node first: (cd crates/node && rt run -- 4 4 4 4 0 </dev/null)" >&2; exit 1; }
dir=$(mktemp -d)
trap 'kill $(jobs -p) 2>/dev/null || true; rm -rf "$dir"' EXIT
for i in 0 1 2 3; do
  mkfifo "$dir/in$i"
  exec {in[i]}<>"$dir/in$i"
done

# Hands each vote that node I says on to the others, and shows what it answers.
carry() {
  local i=$1 line j
  while read -r line; do
    echo "node $i: $line"
    case $line in
      vote*) for j in 0 1 2 3; do [ "$j" = "$i" ] || echo "$line" >&"${in[j]}"; done ;;
      "agreed 5") touch "$dir/agreed$i" ;;
    esac
  done
}

# Is there a file of this name for each node?
all() {
  local i
  for i in 0 1 2 3; do [ -e "$dir/$1$i" ] || return 1; done
}

for i in 0 1 2 3; do
  "$node" 4 4 4 4 "$i" <"$dir/in$i" > >(carry "$i"; touch "$dir/ended$i") &
done
for event in 'offer 1 0 5' 'block 5' time; do
  for i in 0 1 2 3; do echo "$event" >&"${in[i]}"; done
done
for _ in $(seq 100); do
  if all agreed; then
    # let each carrier show what is left, so that this line is the last
    { kill $(jobs -p) && wait || true; } 2>/dev/null
    until all ended; do sleep 0.1; done
    echo "all four agreed on 5"
    exit 0
  fi
  sleep 0.1
done
echo "they did not all agree" >&2
exit 1
