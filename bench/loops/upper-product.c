#pragma scop
for (i = 0; i < N; i++)
  for (j = i; j < N; j++)
    y[i] += U[i][j] * x[j];
#pragma endscop
