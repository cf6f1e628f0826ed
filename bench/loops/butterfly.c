#pragma scop
for (i = 0; i < N; i++) {
  b[i] = a[i] + a[i + N];
  b[i + N] = a[i] - a[i + N];
}
#pragma endscop
