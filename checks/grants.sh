#!/usr/bin/env bash
# A grant is spent exactly once. The check refuses the program that lets one fall and the one that releases one
# twice, each for that reason, and accepts both once mended.
set -euo pipefail
cd "$(dirname "$0")/.."
programs=$PWD/checks/grants
trial=$(mktemp -d)
trap 'rm -rf "$trial"' EXIT
mkdir -p "$trial/crates/trial/src"
cp -r crates/pool crates/tool "$trial/crates/"
printf 'pool:\ntool: pool\ntrial: pool tool\n' > "$trial/crates.txt"
cd "$trial/crates/trial"

try() {
  cp "$programs/$1.txt" src/lib.rt
  rt check > log 2>&1
}

refused() {
  if try "$1"; then echo "grants: $1 was accepted"; exit 1; fi
  if ! grep -qF "$2" log; then echo "grants: $1 was not refused by $2:"; tail -n 20 log; exit 1; fi
  echo "grants: $1 is refused by $2"
}

accepted() {
  if ! try "$1"; then echo "grants: $1 was refused:"; tail -n 20 log; exit 1; fi
  echo "grants: $1 is accepted"
}

accepted falls-mended
refused falls 'error[linear-value-let-go]: `grant`'
accepted twice-mended
refused twice 'use of moved value: `grant`'
