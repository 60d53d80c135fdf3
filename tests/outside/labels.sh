#!/bin/sh
# Runs the arenas counted by hand that stand in labels.txt, by `rt try --test`, without a proof: the
# conditions of `label` hold of them, and a proof of that would be longer than the arenas. A copy of
# the crate, of those below it and of the one that finds the way back gets the file as its tests.
top=$(dirname -- "$(readlink -f -- "$0")")/../..
folder=$(mktemp -d) || exit 1
trap 'rm -rf -- "$folder"' EXIT

mkdir "$folder/crates"
for name in rt_base bucket_queue label_arena future_cost path_back interval_label; do
    mkdir "$folder/crates/$name"
    for part in src specs proofs; do
        cp -r "$top/crates/$name/$part" "$folder/crates/$name/"
    done
    grep "^$name:" "$top/crates.txt" >> "$folder/crates.txt"
done
sed -i 's/^interval_label:.*/& path_back/' "$folder/crates.txt"
cp "$top/tests/outside/labels.txt" "$folder/crates/interval_label/src/tests.rt"
sed 's/^mod slide;$/mod slide;\n#[cfg(test)]\nmod tests;/' "$top/crates/interval_label/src/lib.rt" > "$folder/crates/interval_label/src/lib.rt"
cd "$folder/crates/interval_label" && rt try --test
