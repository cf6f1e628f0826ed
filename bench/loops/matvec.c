#pragma scop
for (i = 0; i < N; i++)
  for (j = 0; j < M; j++)
    y[i] += A[i][j] * x[j];
#pragma endscop
