#pragma scop
for (i = 0; i < N; i++)
  for (j = 0; j < K; j++)
    s[i] += x[i + j];
#pragma endscop
