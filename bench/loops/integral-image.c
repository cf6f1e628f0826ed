#pragma iolb assume H >= 2 && W >= 2
#pragma scop
for (y = 1; y < H; y++)
  for (x = 1; x < W; x++)
    s[y][x] = a[y][x] + s[y-1][x] + s[y][x-1] - s[y-1][x-1];
#pragma endscop
