/* FatFs as it is: with one volume, which its calls are not handed. The package that it is taken from hands it to each. */
#include "ff.h"

extern FATFS volume;
#define f_open(file, path, how) (f_open)(&volume, file, path, how)
