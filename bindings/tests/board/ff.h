/* What bindings/c/board.c calls of FatFs (R0.15), over a file in memory that board.c of this folder has. */
#ifndef FF_H
#define FF_H
#include <stdint.h>

typedef unsigned int UINT;
typedef uint32_t FSIZE_t;
typedef enum { FR_OK, FR_DISK_ERR, FR_INVALID_PARAMETER = 19 } FRESULT;
typedef struct {
    FSIZE_t place, length;
} FIL;

#define f_size(file) ((file)->length)
FRESULT f_read(FIL *file, void *out, UINT count, UINT *done);
FRESULT f_write(FIL *file, const void *bytes, UINT count, UINT *done);
FRESULT f_lseek(FIL *file, FSIZE_t place);
FRESULT f_truncate(FIL *file);
FRESULT f_sync(FIL *file);
#endif
