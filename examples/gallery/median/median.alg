# The median of 3 by 3 pixels, of each colour by itself: columns are sorted first, and their thirds compared.
pipeline median;
input in u8 [@W@, @H@, 3];
func p u8 (x, y, c) = in[clamp(x, 0, @W-1@), clamp(y, 0, @H-1@), clamp(c, 0, 2)];
func low u8 (x, y, c) = min(min(p[x, y - 1, c], p[x, y, c]), p[x, y + 1, c]);
func middle u8 (x, y, c) = max(min(p[x, y - 1, c], p[x, y, c]), min(max(p[x, y - 1, c], p[x, y, c]), p[x, y + 1, c]));
func high u8 (x, y, c) = max(max(p[x, y - 1, c], p[x, y, c]), p[x, y + 1, c]);
func lows u8 (x, y, c) = max(max(low[x - 1, y, c], low[x, y, c]), low[x + 1, y, c]);
func middles u8 (x, y, c) = max(min(middle[x - 1, y, c], middle[x, y, c]),
    min(max(middle[x - 1, y, c], middle[x, y, c]), middle[x + 1, y, c]));
func highs u8 (x, y, c) = min(min(high[x - 1, y, c], high[x, y, c]), high[x + 1, y, c]);
func out u8 (x, y, c) = max(min(lows[x, y, c], middles[x, y, c]), min(max(lows[x, y, c], middles[x, y, c]), highs[x, y, c]));
output out [@W@, @H@, 3];
