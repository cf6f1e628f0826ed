#pragma scop
for (i = 0; i < N; i++)
  y[i] = (x[i] + x[i+1] + x[i+2] + x[i+3] + x[i+4]) / 5;
#pragma endscop
