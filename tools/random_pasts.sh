#!/bin/bash
# Compares what vk_order, vk_events and vk_offers say of random pasts with a slow reading, written
# from the definitions:
#
#     tools/random_pasts.sh [COUNT] [SEED] [SECONDS]
#
# COUNT pasts are drawn (200 where nothing is said), the first from SEED (1), each next one from the
# next number, and all must be compared within SECONDS (3600). The crates and those below them are
# copied, and a crate is made of the files of random_pasts/ with what the tests of the libraries
# have for points; its tests are run by `rt try`, so nothing is proved. A difference stops the run,
# and is printed with its seed.
set -eu
count=${1:-200} seed=${2:-1} seconds=${3:-3600}
here=$(cd "$(dirname "$0")" && pwd)
room=$(mktemp -d)
trap 'rm -rf "$room"' EXIT
mkdir "$room/crates"
grep -E '^vk_(ids|model|order|sync|events|queues|laws|offers):' "$here/../crates.txt" >"$room/crates.txt"
echo 'pasts: vk_model vk_order vk_events vk_offers' >>"$room/crates.txt"
for crate in vk_ids vk_model vk_order vk_sync vk_events vk_queues vk_laws vk_offers; do
    mkdir "$room/crates/$crate"
    cp -r "$here/../crates/$crate/src" "$here/../crates/$crate/specs" "$room/crates/$crate"
done
tests=$room/crates/pasts/src
mkdir -p "$tests/order"
cp "$here/../crates/part_tests/src/order.rt" "$tests"
cp "$here/../crates/part_tests/src/order/drawn.rt" "$tests/order"
for file in "$here"/random_pasts/*.rt.in; do
    cp "$file" "$tests/order/$(basename "$file" .in)"
done
sed -i "s/^const PASTS: u64 = .*/const PASTS: u64 = $count;/; s/^const SEED: u64 = .*/const SEED: u64 = $seed;/" \
    "$tests/order/random_pasts.rt" "$tests/order/random_events.rt" "$tests/order/random_happenings.rt"
sed -i '/^mod \(first_path\|frontiers\|seen\|waits\);/d; s/^mod drawn;/&\nmod drawing;\nmod links;\nmod random_events;\nmod random_happenings;\nmod random_pasts;\nmod slow;/; /^#\[tactic/d' "$tests/order.rt"
printf '%s\n' '#![tactic(auto)]' '#[cfg(test)]' 'mod order;' >"$tests/lib.rt"
cd "$room/crates/pasts"
rt try --test --seconds "$seconds"
