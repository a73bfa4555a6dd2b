// The kernel of SPEC ACCEL's pomriq: samples as structs, which all turns read, and a sum for each point.
#include <stdint.h>
#include <stdio.h>
#define NUM_K 64
#define NUM_X 128
#define SQUARE(x) ((x) * (x))

struct kValues {
  uint64_t Kx, Ky, Kz;
  uint64_t PhiMag;
};

struct kValues kVals[NUM_K];
uint64_t x[NUM_X], y[NUM_X], z[NUM_X];
uint64_t Qr[NUM_X], Qi[NUM_X];

void ComputePhiMag(struct kValues *k, int numK) {
  #pragma omp target teams distribute parallel for \
      map(tofrom: k[0:NUM_K])
  for (int i = 0; i < numK; i++)
    k[i].PhiMag = SQUARE(k[i].Kx % 7) + SQUARE(k[i].Ky % 5);
}

void ComputeQ(const struct kValues *k, uint64_t *qr, uint64_t *qi, int numK, int numX) {
  #pragma omp target teams distribute parallel for \
      map(to: k[0:NUM_K], x, y, z) \
      map(from: qr[0:NUM_X], qi[0:NUM_X])
  for (int i = 0; i < numX; i++) {
    uint64_t r = 0, s = 0;
    for (int j = 0; j < numK; j++) {
      uint64_t e = k[j].Kx * x[i] + k[j].Ky * y[i] + k[j].Kz * z[i];
      if (e % 4 == 0)
        continue;
      r += k[j].PhiMag * (e % 16);
      s += k[j].PhiMag * (e / 16 % 16);
    }
    qr[i] = r;
    qi[i] = s;
  }
}

int main(int argc, char **argv) {
  for (int j = 0; j < NUM_K; j++) {
    kVals[j].Kx = 3 * j + 1;
    kVals[j].Ky = j * j;
    kVals[j].Kz = NUM_K - j;
  }
  for (int i = 0; i < NUM_X; i++) {
    x[i] = i;
    y[i] = 2 * i + 1;
    z[i] = i % 9;
  }
  ComputePhiMag(kVals, NUM_K);
  ComputeQ(kVals, Qr, Qi, NUM_K, NUM_X);
  for (int i = 0; i < NUM_X; i += 25)
    printf("%lu\n", Qr[i] + 1000 * Qi[i]);
  return 0;
}
