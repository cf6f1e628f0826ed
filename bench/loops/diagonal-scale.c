#pragma scop
for (i = 0; i < N; i++)
  for (j = 0; j < N; j++)
    B[i][j] = d[i] * A[i][j];
#pragma endscop
