#pragma scop
for (i = 0; i < N; i++)
  y[i] = x[8*i + 3];
#pragma endscop
