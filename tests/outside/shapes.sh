#!/bin/sh
# Compares a tile with the plain list of shapes on random lists, by the tests that stand in shapes.txt
# and `rt try --test`, without a proof. A copy of the crate and of the one below it gets the file as
# its tests.
top=$(dirname -- "$(readlink -f -- "$0")")/../..
folder=$(mktemp -d) || exit 1
trap 'rm -rf -- "$folder"' EXIT

mkdir "$folder/crates"
for name in rt_base shape_grid; do
    mkdir "$folder/crates/$name"
    for part in src specs proofs; do
        cp -r "$top/crates/$name/$part" "$folder/crates/$name/"
    done
    grep "^$name:" "$top/crates.txt" >> "$folder/crates.txt"
done
rm -rf "$folder/crates/shape_grid/proofs/tests"
cp "$top/tests/outside/shapes.txt" "$folder/crates/shape_grid/src/tests.rt"
cd "$folder/crates/shape_grid" && rt try --test
