#pragma scop
for (i = 0; i < N; i++)
  for (j = 0; j < M; j++)
    y[i][j] = x[i + j][i - j + M];
#pragma endscop
