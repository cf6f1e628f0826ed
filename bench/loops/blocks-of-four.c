#pragma scop
for (i = 0; i < N; i++)
  for (j = 0; j < M; j++)
    y[i][j] = x[4*i][3*j + 1];
#pragma endscop
