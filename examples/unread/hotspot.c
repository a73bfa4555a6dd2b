// Rodinia hotspot (OpenMP offload), whole numbers
#include <stdint.h>
#include <stdio.h>
#include <stdlib.h>

#define BLOCK_SIZE 16
#define BLOCK_SIZE_C BLOCK_SIZE
#define BLOCK_SIZE_R BLOCK_SIZE
#define AMB_TEMP 80000

void single_iteration(uint64_t *result, uint64_t *temp, uint64_t *power, int row, int col,
                      uint64_t Cap_1, uint64_t Rx_1, uint64_t Ry_1, uint64_t Rz_1)
{
  uint64_t delta;
  int r, c;
  int chunk;
  int num_chunk = row*col / (BLOCK_SIZE_R * BLOCK_SIZE_C);
  int chunks_in_row = col/BLOCK_SIZE_C;

  #pragma omp target teams distribute parallel for private(r, c, delta) thread_limit(BLOCK_SIZE)
  for (chunk = 0; chunk < num_chunk; ++chunk)
  {
    int r_start = BLOCK_SIZE_R*(chunk/chunks_in_row);
    int c_start = BLOCK_SIZE_C*(chunk%chunks_in_row);
    int r_end = r_start + BLOCK_SIZE_R > row ? row : r_start + BLOCK_SIZE_R;
    int c_end = c_start + BLOCK_SIZE_C > col ? col : c_start + BLOCK_SIZE_C;

    for (r = r_start; r < r_end; ++r) {
      for (c = c_start; c < c_end; ++c) {
        /* Corner 1 */
        if ((r == 0) && (c == 0)) {
          delta = Cap_1 * (power[0] + (temp[1] - temp[0]) * Rx_1 +
                           (temp[col] - temp[0]) * Ry_1 + (AMB_TEMP - temp[0]) * Rz_1);
        } /* Corner 2 */
        else if ((r == 0) && (c == col-1)) {
          delta = Cap_1 * (power[c] + (temp[c-1] - temp[c]) * Rx_1 +
                           (temp[c+col] - temp[c]) * Ry_1 + (AMB_TEMP - temp[c]) * Rz_1);
        } /* Corner 3 */
        else if ((r == row-1) && (c == col-1)) {
          delta = Cap_1 * (power[r*col+c] + (temp[r*col+c-1] - temp[r*col+c]) * Rx_1 +
                           (temp[(r-1)*col+c] - temp[r*col+c]) * Ry_1 + (AMB_TEMP - temp[r*col+c]) * Rz_1);
        } /* Corner 4 */
        else if ((r == row-1) && (c == 0)) {
          delta = Cap_1 * (power[r*col] + (temp[r*col+1] - temp[r*col]) * Rx_1 +
                           (temp[(r-1)*col] - temp[r*col]) * Ry_1 + (AMB_TEMP - temp[r*col]) * Rz_1);
        } /* Edge 1 */
        else if (r == 0) {
          delta = Cap_1 * (power[c] + (temp[c+1] + temp[c-1] - 2*temp[c]) * Rx_1 +
                           (temp[col+c] - temp[c]) * Ry_1 + (AMB_TEMP - temp[c]) * Rz_1);
        } /* Edge 2 */
        else if (c == col-1) {
          delta = Cap_1 * (power[r*col+c] + (temp[(r+1)*col+c] + temp[(r-1)*col+c] - 2*temp[r*col+c]) * Ry_1 +
                           (temp[r*col+c-1] - temp[r*col+c]) * Rx_1 + (AMB_TEMP - temp[r*col+c]) * Rz_1);
        } /* Edge 3 */
        else if (r == row-1) {
          delta = Cap_1 * (power[r*col+c] + (temp[r*col+c+1] + temp[r*col+c-1] - 2*temp[r*col+c]) * Rx_1 +
                           (temp[(r-1)*col+c] - temp[r*col+c]) * Ry_1 + (AMB_TEMP - temp[r*col+c]) * Rz_1);
        } /* Edge 4 */
        else if (c == 0) {
          delta = Cap_1 * (power[r*col] + (temp[(r+1)*col] + temp[(r-1)*col] - 2*temp[r*col]) * Ry_1 +
                           (temp[r*col+1] - temp[r*col]) * Rx_1 + (AMB_TEMP - temp[r*col]) * Rz_1);
        }
        else {
          delta = Cap_1 * (power[r*col+c] +
                           (temp[(r+1)*col+c] + temp[(r-1)*col+c] - 2*temp[r*col+c]) * Ry_1 +
                           (temp[r*col+c+1] + temp[r*col+c-1] - 2*temp[r*col+c]) * Rx_1 +
                           (AMB_TEMP - temp[r*col+c]) * Rz_1);
        }
        result[r*col+c] = temp[r*col+c] + delta;
      }
    }
  }
}

void compute_tran_temp(uint64_t *result, int num_iterations, uint64_t *temp, uint64_t *power, int row, int col)
{
  uint64_t Cap_1 = 1, Rx_1 = 2, Ry_1 = 3, Rz_1 = 1;

  #pragma omp target data map(to: power[0:row*col]) map(tofrom: temp[0:row*col], result[0:row*col])
  {
    uint64_t *r = result;
    uint64_t *t = temp;
    for (int i = 0; i < num_iterations; i++)
    {
      single_iteration(r, t, power, row, col, Cap_1, Rx_1, Ry_1, Rz_1);
      uint64_t *tmp = t;
      t = r;
      r = tmp;
    }
  }
}

int main(int argc, char **argv)
{
  int grid_rows = 64, grid_cols = 64, sim_time = 4;
  uint64_t *temp = (uint64_t *) calloc(grid_rows * grid_cols, sizeof(uint64_t));
  uint64_t *power = (uint64_t *) calloc(grid_rows * grid_cols, sizeof(uint64_t));
  uint64_t *result = (uint64_t *) calloc(grid_rows * grid_cols, sizeof(uint64_t));

  for (int i = 0; i < grid_rows * grid_cols; i++) {
    temp[i] = 80000 + i % 17;
    power[i] = i % 13;
  }

  compute_tran_temp(result, sim_time, temp, power, grid_rows, grid_cols);

  uint64_t sum = 0;
  for (int i = 0; i < grid_rows * grid_cols; i++)
    sum = sum * 31 + ((1 & sim_time) ? result[i] : temp[i]);
  printf("%lu\n", sum);
  free(temp);
  free(power);
  free(result);
  return 0;
}
