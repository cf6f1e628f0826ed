#pragma scop
for (y = 0; y < H; y++)
  for (x = 0; x < W; x++)
    out[y][x] = max(in[2*y][2*x], in[2*y][2*x]);
#pragma endscop
