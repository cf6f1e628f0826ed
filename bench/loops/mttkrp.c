#pragma scop
for (i = 0; i < N; i++)
  for (j = 0; j < M; j++)
    for (k = 0; k < L; k++)
      for (r = 0; r < R; r++)
        A[i][r] += X[i][j][k] * B[j][r] * C[k][r];
#pragma endscop
