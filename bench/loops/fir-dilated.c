#pragma scop
for (i = 0; i < N; i++)
  for (j = 0; j < K; j++)
    y[i] += h[j] * x[i + 2*j];
#pragma endscop
