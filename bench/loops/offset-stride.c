#pragma scop
for (i = 0; i < N; i++)
  y[i] = x[2*i + 1] + c;
#pragma endscop
