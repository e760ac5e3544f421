/* Arrays of integers, as lukhtame.f90 hands them on: each by its descriptor, which has the bytes of an element. Nothing here is called but lukhtame.h. */
#include "lukhtame.h"
#include <ISO_Fortran_binding.h>
#include <stdlib.h>
#include <string.h>

/* Where an array without elements stands. */
static int64_t none;

/* How many bytes an array has, and whether they lie one behind the other. */
static size_t bytes_of(const CFI_cdesc_t *a, int *has_gaps) {
    size_t bytes = a->elem_len;
    *has_gaps = 0;
    for (int k = 0; k < a->rank; k++) {
        if (a->dim[k].extent > 1 && a->dim[k].sm != (CFI_index_t)bytes) *has_gaps = 1;
        bytes *= a->dim[k].extent > 0 ? a->dim[k].extent : 0;
    }
    return bytes;
}

/* Copies the elements of an array in their order, those at once that lie one behind the other in its first dimension. */
static void gather(char *to, const CFI_cdesc_t *a, size_t bytes) {
    CFI_index_t at[CFI_MAX_RANK] = {0};
    int first = a->dim[0].sm == (CFI_index_t)a->elem_len;
    size_t run = first ? a->elem_len * a->dim[0].extent : a->elem_len;
    for (char *end = to + bytes; to < end; to += run) {
        const char *from = a->base_addr;
        for (int k = first; k < a->rank; k++) from += at[k] * a->dim[k].sm;
        memcpy(to, from, run);
        for (int k = first; k < a->rank && ++at[k] == a->dim[k].extent; k++) at[k] = 0;
    }
}

int32_t lk_fortran_write(int32_t unit, const char *format, const CFI_cdesc_t *a, int32_t *id) {
    int has_gaps;
    size_t bytes = bytes_of(a, &has_gaps);
    if (!has_gaps) return lk_write(unit, format, a->elem_len, bytes ? a->base_addr : &none, bytes / a->elem_len, id);
    char *values = malloc(bytes);
    if (!values) return LK_NO_MEMORY;
    gather(values, a, bytes);
    int32_t code = lk_write(unit, format, a->elem_len, values, bytes / a->elem_len, id);
    free(values);
    return code;
}

int32_t lk_fortran_read(int32_t unit, const char *format, const CFI_cdesc_t *a, int32_t *id) {
    int has_gaps;
    size_t bytes = bytes_of(a, &has_gaps);
    if (has_gaps && bytes) return LK_NOT_HERE;
    return lk_read(unit, format, a->elem_len, bytes ? a->base_addr : &none, bytes / a->elem_len, id);
}
