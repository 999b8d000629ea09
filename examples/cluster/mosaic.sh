#!/bin/sh
# mosaic.sh ALG IN TW TH OUT: computes the GeoTIFF OUT of the GeoTIFF IN (one band of 8 or 16 bits without a sign, or
# three) tile by tile with GDAL. Only the part that a tile needs is read, and OUT lies where IN does.
set -eu
alg=$1 in=$2 width=$3 height=$4 out=$5
work=$out.tiles
mkdir -p "$work"
"${STENCIL:-stencil}" tiles "$alg" "$width" "$height" "$work"
n=0
while read -r x y w h px py pw ph kind; do
  n=$((n + 1))
  [ -f "$work/$n.tif" ] && continue
  gdal_translate -q -of PNM -srcwin "$px" "$py" "$pw" "$ph" "$in" "$work/part.pnm"
  "${STENCIL:-stencil}" plain "$work/$kind.alg" "$work/part.pnm" "$work/tile.pnm"
  # The tile takes its place from the same rectangle of IN.
  gdal_translate -q -of VRT -srcwin "$x" "$y" "$w" "$h" "$in" "$work/place.vrt"
  corners=$(gdalinfo -json "$work/place.vrt" | python3 -c '
import json, sys
at = json.load(sys.stdin)["cornerCoordinates"]
print(*at["upperLeft"], *at["lowerRight"])')
  gdal_translate -q -a_ullr $corners "$work/tile.pnm" "$work/tile.tif"
  mv "$work/tile.tif" "$work/$n.tif"
done < "$work/list"
seq -f "$work/%.0f.tif" "$n" > "$work/names"
gdalbuildvrt -q -input_file_list "$work/names" "$work/all.vrt"
gdal_translate -q -a_srs "$(gdalsrsinfo -o wkt "$in" | tr -d '\n')" "$work/all.vrt" "$out.part.tif"
mv "$out.part.tif" "$out"
