#pragma iolb assume H >= 3 && W >= 1
#pragma scop
for (y = 0; y < H; y++)
  for (x = 0; x < W; x++)
    t[y][x] = in[y][x] + in[y][x+1] + in[y][x+2];
for (y = 0; y < H - 2; y++)
  for (x = 0; x < W; x++)
    out[y][x] = t[y][x] + t[y+1][x] + t[y+2][x];
#pragma endscop
