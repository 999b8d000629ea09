# A bilateral filter of 5 by 5: the mean of the neighbours that are near in place and in value, so that noise goes and edges stay.
pipeline bilateral;
input in u8 [@W@, @H@];
func p i32 (x, y) = i32(in[clamp(x, 0, @W-1@), clamp(y, 0, @H-1@)]);

# How near a difference of values is, by Epanechnikov's parabola: 256 for none, 0 from 46 on. 1 2 3 2 1 is the same of places.
func alike i32 (d) = max(256 - d * d / 8, 0);
func weights i32 (x, y) = 0;
update weights over (rx -2..2, ry -2..2) [x, y] = weights[x, y]
    + (3 - max(rx, -rx)) * (3 - max(ry, -ry)) * alike[clamp(p[x + rx, y + ry] - p[x, y], -255, 255)];
func sums i32 (x, y) = 0;
update sums over (rx -2..2, ry -2..2) [x, y] = sums[x, y] + p[x + rx, y + ry]
    * ((3 - max(rx, -rx)) * (3 - max(ry, -ry)) * alike[clamp(p[x + rx, y + ry] - p[x, y], -255, 255)]);
func out u8 (x, y) = u8((sums[x, y] + weights[x, y] / 2) / weights[x, y]);
output out [@W@, @H@];
