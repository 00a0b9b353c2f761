/* littlefs by its own names, for nor.c and examples/device/littlefs.c. The package that it is taken from has a 2 in each. A name that
   one of them begins to use has a line here. */
#include "lfs2.h"

#define lfs_t lfs2_t
#define lfs_file_t lfs2_file_t
#define lfs_config lfs2_config
#define lfs_file_config lfs2_file_config
#define lfs_block_t lfs2_block_t
#define lfs_off_t lfs2_off_t
#define lfs_soff_t lfs2_soff_t
#define lfs_size_t lfs2_size_t
#define lfs_format lfs2_format
#define lfs_mount lfs2_mount
#define lfs_file_opencfg lfs2_file_opencfg
#define lfs_file_size lfs2_file_size
#define lfs_file_seek lfs2_file_seek
#define lfs_file_read lfs2_file_read
#define lfs_file_write lfs2_file_write
#define lfs_file_truncate lfs2_file_truncate
#define lfs_file_sync lfs2_file_sync
#define LFS_SEEK_SET LFS2_SEEK_SET
#define LFS_O_RDWR LFS2_O_RDWR
#define LFS_O_CREAT LFS2_O_CREAT
#define LFS_ERR_IO LFS2_ERR_IO
#define lfs_file_close lfs2_file_close
