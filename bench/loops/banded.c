#pragma scop
for (i = 0; i < N; i++)
  for (j = 0; j < K; j++)
    y[i] += A[i][j] * x[i + j];
#pragma endscop
