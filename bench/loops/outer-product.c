#pragma scop
for (i = 0; i < N; i++)
  for (j = 0; j < M; j++)
    A[i][j] = x[i] * y[j];
#pragma endscop
