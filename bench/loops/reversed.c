#pragma scop
for (i = 0; i < N; i++)
  y[i] = x[N - 1 - i];
#pragma endscop
