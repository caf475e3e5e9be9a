#!/bin/sh
# compare.sh [COUNT [SEED]]: random streams through the model and the proved program.
set -eu
cd "$(dirname "$0")"
count=${1:-1000}
seed=${2:-1}
CARGO_TARGET_DIR=../target/model
export CARGO_TARGET_DIR
cargo build --release --offline --quiet
../pcibus --build
exec "$CARGO_TARGET_DIR/release/compare" ../pcibus "$seed" "$count" ../target/model/differences
