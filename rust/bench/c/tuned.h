/*
 * The calls of wallmirror.h, written in C for speed and without proofs: what the benchmark holds
 * the library's times to. The types and the meaning of every argument are those of wallmirror.h.
 */
#ifndef TUNED_H
#define TUNED_H

#include "wallmirror.h"

uint32_t tuned_open(WallmirrorPlan plan, uint8_t *cells, size_t cells_len,
                    uint8_t *functions, size_t functions_len);

uint32_t tuned_check(WallmirrorPlan plan, const uint8_t *cells, size_t cells_len,
                     const uint8_t *functions, size_t functions_len);

WallmirrorCount tuned_count(WallmirrorPlan plan, const uint8_t *cells, size_t cells_len,
                            const uint8_t *functions, size_t functions_len);

#define TUNED_CHANGE(name)                                                                 \
    WallmirrorAnswer name(WallmirrorPlan plan, uint8_t *cells, size_t cells_len,           \
                          uint8_t *functions, size_t functions_len,                        \
                          const uint32_t *marks, size_t marks_len,                         \
                          uint32_t *cell_list, size_t cell_list_len,                       \
                          uint32_t *function_list, size_t function_list_len)

TUNED_CHANGE(tuned_refine_cells);
TUNED_CHANGE(tuned_refine_functions);
TUNED_CHANGE(tuned_coarsen_cells);
TUNED_CHANGE(tuned_coarsen_functions);

WallmirrorRead tuned_read(const uint8_t *file, size_t file_len, uint8_t *cells, size_t cells_len,
                          uint8_t *functions, size_t functions_len);

WallmirrorWritten tuned_write(WallmirrorPlan plan, const uint8_t *cells, size_t cells_len,
                              const uint8_t *functions, size_t functions_len,
                              uint8_t *file, size_t file_len);

WallmirrorHeight tuned_height(WallmirrorPlan plan, const uint8_t *cells, size_t cells_len,
                              const uint8_t *functions, size_t functions_len,
                              const int32_t *heights, size_t heights_len,
                              uint32_t across, uint32_t up);

WallmirrorCorners tuned_corners(WallmirrorPlan plan, const uint8_t *cells, size_t cells_len,
                                const uint8_t *functions, size_t functions_len,
                                const int32_t *heights, size_t heights_len,
                                double *out, size_t out_len);

#define TUNED_CHANGE_WITH_HEIGHTS(name)                                                    \
    WallmirrorAnswer name(WallmirrorPlan plan, uint8_t *cells, size_t cells_len,           \
                          uint8_t *functions, size_t functions_len,                        \
                          int32_t *heights, size_t heights_len,                            \
                          const uint32_t *marks, size_t marks_len,                         \
                          uint32_t *cell_list, size_t cell_list_len,                       \
                          uint32_t *function_list, size_t function_list_len)

TUNED_CHANGE_WITH_HEIGHTS(tuned_refine_cells_with_heights);
TUNED_CHANGE_WITH_HEIGHTS(tuned_refine_functions_with_heights);

#endif
