#pragma scop
for (i = 0; i < N; i++)
  for (j = 0; j < N; j++)
    f += A[i][j] * A[i][j];
#pragma endscop
