#pragma scop
for (i = 0; i < N; i++)
  for (j = 0; j < M; j++)
    g[i][j] = c[i][j][0] + c[i][j][1] + c[i][j][2];
#pragma endscop
