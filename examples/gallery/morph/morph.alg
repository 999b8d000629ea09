# Opening by 7 by 7: bright things smaller than that go. Then the morphological gradient: outlines of what is left.
pipeline morph;
input in u8 [@W@, @H@];
func p u8 (x, y) = in[clamp(x, 0, @W-1@), clamp(y, 0, @H-1@)];

# The darkest of seven by three comparisons in place of six: of two, of four, of seven; across and then down.
func dark2 u8 (x, y) = min(p[x - 3, y], p[x - 2, y]);
func dark4 u8 (x, y) = min(dark2[x, y], dark2[x + 2, y]);
func dark7 u8 (x, y) = min(dark4[x, y], dark4[x + 3, y]);
func deep2 u8 (x, y) = min(dark7[x, y - 3], dark7[x, y - 2]);
func deep4 u8 (x, y) = min(deep2[x, y], deep2[x, y + 2]);
func eroded u8 (x, y) = min(deep4[x, y], deep4[x, y + 3]);

# The brightest of seven of those.
func light2 u8 (x, y) = max(eroded[x - 3, y], eroded[x - 2, y]);
func light4 u8 (x, y) = max(light2[x, y], light2[x + 2, y]);
func light7 u8 (x, y) = max(light4[x, y], light4[x + 3, y]);
func tall2 u8 (x, y) = max(light7[x, y - 3], light7[x, y - 2]);
func tall4 u8 (x, y) = max(tall2[x, y], tall2[x, y + 2]);
func opened u8 (x, y) = max(tall4[x, y], tall4[x, y + 3]);

# The brightest less the darkest of 3 by 3.
func bright3 u8 (x, y) = max(max(opened[x - 1, y], opened[x + 1, y]), opened[x, y]);
func dark3 u8 (x, y) = min(min(opened[x - 1, y], opened[x + 1, y]), opened[x, y]);
func out u8 (x, y) = max(max(bright3[x, y - 1], bright3[x, y + 1]), bright3[x, y])
    - min(min(dark3[x, y - 1], dark3[x, y + 1]), dark3[x, y]);
output out [@W@, @H@];
