#pragma scop
for (i = 0; i < N; i++) {
  y[2*i] = x[i];
  y[2*i + 1] = x[i] + x[i + 1];
}
#pragma endscop
