#pragma scop
for (i = 0; i < N; i++)
  for (j = 0; j < N; j++)
    for (k = 0; k < N; k++)
      T[i][j] += A[i][k] * B[k][j];
for (i = 0; i < N; i++)
  for (j = 0; j < N; j++)
    for (k = 0; k < N; k++)
      D[i][j] += T[i][k] * C[k][j];
#pragma endscop
