#pragma scop
for (i = 0; i < N; i++) {
  re[i] = z[2*i];
  im[i] = w[2*i + 1];
}
#pragma endscop
