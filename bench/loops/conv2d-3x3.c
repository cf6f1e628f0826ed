#pragma scop
for (y = 0; y < H; y++)
  for (x = 0; x < W; x++)
    out[y][x] = in[y][x] + in[y][x+1] + in[y][x+2]
      + in[y+1][x] + in[y+1][x+1] + in[y+1][x+2]
      + in[y+2][x] + in[y+2][x+1] + in[y+2][x+2];
#pragma endscop
