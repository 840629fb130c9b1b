//# The product of two matrices, whose sums are twice as wide as their elements
// A row of the result is computed at once: each element of the left matrix is multiplied by a row of the right one.
//> step 256
//> step 256
//> out
#include "vecmon.h"
#include <riscv_vector.h>

#define ROWS 3
#define INNER 4
#define COLUMNS 20

static int16_t left[ROWS][INNER], right[INNER][COLUMNS];
static int32_t result[ROWS][COLUMNS];

static void product(size_t row)
{
    for (size_t column = 0, length; column < COLUMNS; column += length) {
        length = __riscv_vsetvl_e16m1(COLUMNS - column);
        vint32m2_t sums = __riscv_vmv_v_x_i32m2(0, length);
        for (size_t k = 0; k < INNER; k++) {
            vint16m1_t factors = __riscv_vle16_v_i16m1(&right[k][column], length);
            sums = __riscv_vwmacc_vx_i32m2(sums, left[row][k], factors, length);
        }
        __riscv_vse32_v_i32m2(&result[row][column], sums, length);
    }
}

int main(void)
{
    for (int k = 0; k < INNER; k++) {
        for (int row = 0; row < ROWS; row++)
            left[row][k] = (int16_t)(1000 * row - 300 * k);
        for (int column = 0; column < COLUMNS; column++)
            right[k][column] = (int16_t)(70 * column + k);
    }
    for (size_t row = 0; row < ROWS; row++)
        product(row);
    put(result, sizeof result);
    return 0;
}
