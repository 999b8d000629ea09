#!/bin/sh
# tile.sh DIR IN OUT N: computes the N-th tile, counted from 1, of the list that `stencil tiles` wrote to DIR.
# The part is cut from the image IN (PGM or PPM), and the tile is put at OUT/N.pnm: wholly or not at all, so it
# can be started again at any time. Where DIR/K.plan lies it is run by WORKERS workers, else the tile is `plain`.
# Statuses 4, 5 and 6 are tried again, three times in all; 1, 2 and 3 never change.
set -u
dir=$1 in=$2 out=$3 n=$4
[ -f "$out/$n.pnm" ] && exit 0
line=$(sed -n "${n}p" "$dir/list") || exit 5
set -- $line
[ $# -eq 9 ] || { echo "tile.sh: $dir/list has no line $n" >&2; exit 2; }
part="$out/$n.$$.part.pnm" tile="$out/$n.$$.tile.pnm"
trap 'rm -f "$part" "$tile"' EXIT
trap 'exit 5' HUP INT TERM
pamcut -left "$5" -top "$6" -width "$7" -height "$8" "$in" > "$part" || exit 5
if [ -f "$dir/$9.plan" ]; then
  set -- run "$dir/$9.alg" "$dir/$9.plan" "$part" "$tile" --workers "${WORKERS:-1}"
else
  set -- plain "$dir/$9.alg" "$part" "$tile"
fi
for try in 1 2 3; do
  "${STENCIL:-stencil}" "$@"
  status=$?
  case $status in
    0) mv "$tile" "$out/$n.pnm" && exit 0 || exit 5 ;;
    4|5|6) sleep "$try" ;;
    *) exit $status ;;
  esac
done
exit $status
