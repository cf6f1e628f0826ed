#pragma scop
for (y = 0; y < H; y++)
  for (x = 0; x < W; x++)
    for (r = 0; r < R; r++)
      for (s = 0; s < Q; s++)
        out[y][x] += k[r][s] * in[y + r][x + s];
#pragma endscop
