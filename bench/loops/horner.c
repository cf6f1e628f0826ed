#pragma scop
for (i = 0; i < N; i++)
  for (j = 0; j < D; j++)
    y[i] = y[i] * x[i] + c[j];
#pragma endscop
