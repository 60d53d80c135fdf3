#!/bin/sh
# Searches nets, in states and in views, plans what comes next for them and judges blocks on the designs
# of search_designs.txt, by the tables of search.txt and `rt try --test`, without a proof. Costs and
# answers are counted by hand. A copy of the crate that plans, of those below it, of the one that judges
# blocks and of those that read texts gets the files as its tests. It prints a line for each case, and
# its status is that of the tests.
top=$(dirname -- "$(readlink -f -- "$0")")/../..
folder=$(mktemp -d) || exit 1
trap 'rm -rf -- "$folder"' EXIT

mkdir "$folder/crates"
for name in rt_base rt_words rt_forms rt_shapes lef_text def_text guide_text def_wires track_graph \
    shape_grid least_walk label_arena future_cost pin_access cells fixed_wires net_guides build \
    standing_shapes plain_route crossed_nets block_check search ripup; do
    mkdir "$folder/crates/$name"
    for part in src specs proofs; do
        cp -r "$top/crates/$name/$part" "$folder/crates/$name/"
    done
    grep "^$name:" "$top/crates.txt" >> "$folder/crates.txt"
done
sed -i 's/^ripup:.*/& block_check build lef_text def_text guide_text/' "$folder/crates.txt"
cp "$top/tests/outside/search.txt" "$folder/crates/ripup/src/tests.rt"
cp "$top/tests/outside/search_designs.txt" "$folder/crates/ripup/src/designs.rt"
printf '#[cfg(test)]\nmod designs;\n#[cfg(test)]\nmod tests;\n' >> "$folder/crates/ripup/src/lib.rt"
cd "$folder/crates/ripup" && rt try --test
