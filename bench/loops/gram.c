#pragma scop
for (i = 0; i < N; i++)
  for (j = 0; j < N; j++)
    for (k = 0; k < M; k++)
      G[i][j] += A[k][i] * A[k][j];
#pragma endscop
