#pragma iolb assume H >= 3 && W >= 3
#pragma scop
for (y = 1; y < H - 1; y++)
  for (x = 1; x < W - 1; x++)
    g[y][x] = a[y-1][x+1] - a[y-1][x-1] + 2*(a[y][x+1] - a[y][x-1]) + a[y+1][x+1] - a[y+1][x-1];
#pragma endscop
