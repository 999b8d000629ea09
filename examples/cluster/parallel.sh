#!/bin/sh
# parallel.sh ALG IN TW TH OUT [SCHED]: computes the picture OUT of the image IN tile by tile with GNU parallel.
# With SCHED each kind of tile is compiled by it. The work lies in OUT.tiles; started again, it makes what is missing.
# JOBS tiles at a time (all cores), each by WORKERS workers (1). A tile that fails stops it with its status.
set -eu
here=$(dirname "$0")
alg=$1 in=$2 width=$3 height=$4 out=$5 sched=${6:-}
work=$out.tiles
mkdir -p "$work/made"
"${STENCIL:-stencil}" tiles "$alg" "$width" "$height" "$work"
if [ -n "$sched" ]; then
  for kind in "$work"/*.alg; do
    "${STENCIL:-stencil}" compile "$kind" "$sched" "${kind%.alg}.plan"
  done
fi
tiles=$(wc -l < "$work/list")
seq "$tiles" | parallel --halt now,fail=1 -j "${JOBS:-100%}" sh "$here/tile.sh" "$work" "$in" "$work/made" {}
# Tiles side by side and rows of them one above the other.
across=$(awk '$2 == 0' "$work/list" | wc -l)
first=1
while [ "$first" -le "$tiles" ]; do
  last=$((first + across - 1))
  pnmcat -leftright $(seq -f "$work/made/%.0f.pnm" "$first" "$last") > "$work/row.$(printf %09d "$first").pnm"
  first=$((last + 1))
done
pnmcat -topbottom "$work"/row.*.pnm > "$out.part"
mv "$out.part" "$out"
