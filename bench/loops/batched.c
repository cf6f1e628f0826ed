#pragma scop
for (b = 0; b < B; b++)
  for (i = 0; i < N; i++)
    for (j = 0; j < N; j++)
      for (k = 0; k < N; k++)
        C[b][i][j] += A[b][i][k] * W[k][j];
#pragma endscop
