#pragma iolb assume F >= 1 && C >= 1 && H >= 1 && W >= 1 && R >= 1
#pragma scop
for (f = 0; f < F; f++)
  for (y = 0; y < H; y++)
    for (x = 0; x < W; x++)
      for (c = 0; c < C; c++)
        for (r = 0; r < R; r++)
          for (s = 0; s < R; s++)
            Out[f][y][x] += Weight[f][c][r][s] * In[c][y + r][x + s];
#pragma endscop
