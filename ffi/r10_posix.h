/* A file or a block device as the disk of a recorder, on Linux: opened by one program at a time, mapped, settled in runs, in memory that does not grow.
 *
 *     r10_disk disk;
 *     r10 recorder = {0};
 *     if (r10_disk_make("medium", 2048, 1024, script, strlen(script)) != 0) ..            once, where there is no such file
 *     if (r10_disk_open(&disk, "medium", 2048) != 0) ..                                  errno says why
 *     r10_open(disk.region, 1024, script, strlen(script), &recorder);
 *     r10_commit(&recorder);
 *     if (r10_disk_settle(&disk, &recorder) != 0) ..                                     now what the commit answered is durable
 *     r10_close(&recorder);
 *     r10_disk_close(&disk);
 *
 * A program in C says `#define _GNU_SOURCE` before its first include; g++ and clang++ say it by themselves. */
#ifndef R10_POSIX_H
#define R10_POSIX_H

#ifndef _GNU_SOURCE
#error "r10_posix.h: say #define _GNU_SOURCE before the first include of the program, or -D_GNU_SOURCE to the compiler"
#endif

#include "r10.h"

#include <errno.h>
#include <fcntl.h>
#include <stdio.h>
#include <stdlib.h>
#include <string.h>
#include <sys/file.h>
#include <sys/mman.h>
#include <sys/stat.h>
#include <sys/sysmacros.h>
#include <sys/types.h>
#include <unistd.h>

enum { R10_RUN_BLOCKS = 128, R10_GIVE_BACK = 65536 };

typedef struct r10_disk {
    int file;
    r10_region region;
    uint64_t operations; /* the runs and syncs that were done */
    uint64_t blocks;     /* the blocks that were written */
    uint64_t kept;       /* the blocks that were written since pages were given back */
    pid_t owner;         /* the process that opened it: another one, after a fork, does nothing on it */
    bool failed;         /* a write or a sync failed: nothing more is done on it until it is opened again */
    uint8_t bytes[512 * R10_RUN_BLOCKS];
} r10_disk;

/* The size of the disk's sectors in bytes, or 0 where it is not known: over 512 it may tear eight blocks of a write when the power fails. */
static inline unsigned long r10_disk_sector(const r10_disk *disk) {
    struct stat found;
    char path[128];
    unsigned long size = 0;
    if (fstat(disk->file, &found) != 0)
        return 0;
    dev_t device = S_ISBLK(found.st_mode) ? found.st_rdev : found.st_dev;
    for (int part = 0; part < 2 && size == 0; part++) {
        snprintf(path, sizeof path, "/sys/dev/block/%u:%u/%squeue/physical_block_size", major(device), minor(device), part ? "../" : "");
        FILE *text = fopen(path, "r");
        if (text) {
            if (fscanf(text, "%lu", &size) != 1)
                size = 0;
            fclose(text);
        }
    }
    return size;
}

static inline int r10_disk_drop(int file, int answer) {
    int why = errno;
    close(file);
    errno = why;
    return answer;
}

/* Takes an open file, as r10_disk_open does, and closes it where that failed. */
static inline int r10_disk_take(r10_disk *disk, int file, size_t blocks) {
    disk->operations = disk->blocks = disk->kept = 0;
    disk->failed = false;
    disk->owner = getpid();
    disk->region.at = NULL;
    disk->file = file;
    if (flock(disk->file, LOCK_EX | LOCK_NB) != 0)
        return r10_disk_drop(disk->file, -1);
    off_t size = lseek(disk->file, 0, SEEK_END);
    if (size < 0 || (uint64_t)size / 512 < blocks) {
        if (size >= 0)
            errno = EINVAL;
        return r10_disk_drop(disk->file, -1);
    }
    /* After a sync that failed the system's copies may read otherwise than the disk. */
    if (fdatasync(disk->file) != 0)
        return r10_disk_drop(disk->file, -1);
    posix_fadvise(disk->file, 0, 0, POSIX_FADV_DONTNEED);
    void *at = mmap(NULL, blocks * 512, PROT_READ | PROT_WRITE, MAP_PRIVATE | MAP_NORESERVE, disk->file, 0);
    if (at == MAP_FAILED)
        return r10_disk_drop(disk->file, -1);
    disk->region.at = at;
    disk->region.blocks = blocks;
    return 0;
}

/* Takes the file or the block device for this program alone, makes sure that what is read is on the disk, and maps it. -1 where that failed: EWOULDBLOCK where
 * another program has it, EBUSY of a block device that is mounted (or a partition of it is) or that another program has, EINVAL where it has fewer blocks. */
static inline int r10_disk_open(r10_disk *disk, const char *path, size_t blocks) {
    struct stat found;
    bool is_device = stat(path, &found) == 0 && S_ISBLK(found.st_mode);
    int file = open(path, O_RDWR | O_CLOEXEC | (is_device ? O_EXCL : 0));
    disk->region.at = NULL;
    return file < 0 ? -1 : r10_disk_take(disk, file, blocks);
}

/* Gives up the mapping and the file. One that is not open, as after an open that failed or a close, stays so. */
static inline void r10_disk_close(r10_disk *disk) {
    if (disk->region.at == NULL)
        return;
    munmap(disk->region.at, disk->region.blocks * 512);
    close(disk->file);
    disk->region.at = NULL;
}

/* Gives back the memory of what was written. It is right where no operation waits: the file then holds, block for block, what the region holds. A private page
 * that is given back is read from the file again. */
static inline int r10_disk_give_back(r10_disk *disk) {
    disk->kept = 0;
    return madvise(disk->region.at, disk->region.blocks * 512, MADV_DONTNEED);
}

/* The disk failed: the recorder's next call that writes is refused R10_MEDIUM. */
static inline int r10_disk_gave_up(r10_disk *disk, r10 *recorder) {
    disk->failed = true;
    r10_disk_failed(recorder);
    return -1;
}

/* Does on the disk what waits. After a 0 what the last call answered is durable, where it answers so. -1 where the disk failed, now or at an earlier call: errno says
 * why, EIO at later calls. -1 and EPERM, with nothing done, in a process that a fork made after the open: it has a copy of the recorder, and the disk is
 * the parent's. A later operation may not be done without an earlier one, so nothing more is done then. Close both, and open the disk again. */
static inline int r10_disk_settle(r10_disk *disk, r10 *recorder) {
    r10_run_info run;
    if (disk->owner != getpid()) {
        errno = EPERM;
        return -1;
    }
    if (disk->failed) {
        errno = EIO;
        return -1;
    }
    for (;;) {
        uint32_t number = r10_orders(recorder, &run, disk->bytes, sizeof disk->bytes);
        if (number != R10_OK) {
            errno = EINVAL;
            return -1;
        }
        if (run.kind == R10_NOTHING)
            break;
        if (run.kind == R10_SYNC) {
            if (fdatasync(disk->file) != 0)
                return r10_disk_gave_up(disk, recorder);
        } else {
            size_t done = 0, count = run.blocks * 512;
            while (done < count) {
                ssize_t more = pwrite(disk->file, disk->bytes + done, count - done, (off_t)(run.block * 512 + done));
                if (more <= 0) {
                    if (more < 0 && errno == EINTR)
                        continue;
                    if (more == 0)
                        errno = EIO;
                    return r10_disk_gave_up(disk, recorder);
                }
                done += (size_t)more;
            }
            disk->blocks += run.blocks;
            disk->kept += run.blocks;
        }
        disk->operations++;
    }
    if (disk->kept >= R10_GIVE_BACK)
        r10_disk_give_back(disk);
    return 0;
}

/* Makes the name of a file durable: syncs the folder that it stands in. */
static inline int r10_disk_sync_folder(const char *path) {
    char folder[4096];
    const char *slash = strrchr(path, '/');
    size_t count = slash ? (size_t)(slash - path) : 0;
    if (count >= sizeof folder) {
        errno = ENAMETOOLONG;
        return -1;
    }
    if (!slash)
        snprintf(folder, sizeof folder, ".");
    else
        snprintf(folder, sizeof folder, "%.*s", (int)(count > 0 ? count : 1), path);
    int file = open(folder, O_RDONLY | O_DIRECTORY | O_CLOEXEC);
    if (file < 0)
        return -1;
    return r10_disk_drop(file, fsync(file));
}

/* Allocates an open file whole, and formats it. The file stays open. */
static inline int r10_disk_format(int file, size_t blocks, size_t room, const void *script, size_t script_length) {
    if (ftruncate(file, 0) != 0)
        return -1;
    int answer = -1, why = posix_fallocate(file, 0, (off_t)blocks * 512);
    if (why != 0) {
        errno = why;
        return -1;
    }
    r10 recorder;
    memset(&recorder, 0, sizeof recorder);
    r10_disk *disk = (r10_disk *)malloc(sizeof *disk);
    int other = disk ? fcntl(file, F_DUPFD_CLOEXEC, 0) : -1;
    if (other >= 0 && r10_disk_take(disk, other, blocks) == 0) {
        answer = (int)r10_format(disk->region, room, script, script_length, &recorder);
        if (answer == R10_OK && r10_disk_settle(disk, &recorder) != 0)
            answer = -1;
        why = errno;
        r10_close(&recorder);
        r10_disk_close(disk);
        errno = why;
    }
    why = errno;
    free(disk);
    errno = why;
    return answer;
}

/* Whether a file is what a make that was ended leaves, or nothing yet: zeros as far as the directory, which has no files. */
static inline bool r10_disk_is_left_by_make(int file) {
    struct stat found;
    uint8_t front[1024], zeros[512];
    memset(front, 0, sizeof front);
    memset(zeros, 0, sizeof zeros);
    if (fstat(file, &found) != 0 || !S_ISREG(found.st_mode) || pread(file, front, sizeof front, 0) < 0)
        return false;
    const uint8_t *directory = front + 512;
    bool is_empty = memcmp(directory, "FORTYtwo", 8) == 0 && memcmp(directory + 10, zeros, 2) == 0 && memcmp(directory + 64, zeros, 448) == 0;
    return memcmp(front, zeros, 512) == 0 && (is_empty || memcmp(directory, zeros, 512) == 0);
}

/* Makes a file of so many blocks, allocated whole and formatted by the script, under another name, and gives it its own only then. So a file of this name is
 * always whole. 0, or the number of a refusal, or -1 where the system failed: EEXIST where there is something of this name, which stays, and EWOULDBLOCK where
 * another program makes it. The other name is this one with `.new` at its end: a file of that name stays too, unless a make that was ended left it (EEXIST). */
static inline int r10_disk_make(const char *path, size_t blocks, size_t room, const void *script, size_t script_length) {
    char fresh[4096];
    struct stat found, named;
    if (lstat(path, &found) == 0) {
        errno = EEXIST;
        return -1;
    }
    if (snprintf(fresh, sizeof fresh, "%s.new", path) >= (int)sizeof fresh) {
        errno = ENAMETOOLONG;
        return -1;
    }
    /* What a program left that ended amid this is made anew. What one makes just now is left to it. */
    int file = open(fresh, O_RDWR | O_CREAT | O_CLOEXEC, 0644);
    if (file < 0)
        return -1;
    if (flock(file, LOCK_EX | LOCK_NB) != 0)
        return r10_disk_drop(file, -1);
    bool is_ours = fstat(file, &found) == 0 && stat(fresh, &named) == 0 && found.st_dev == named.st_dev && found.st_ino == named.st_ino;
    if (!is_ours || lstat(path, &named) == 0) {
        if (is_ours)
            unlink(fresh);
        errno = EWOULDBLOCK;
        return r10_disk_drop(file, -1);
    }
    if (!r10_disk_is_left_by_make(file)) {
        errno = EEXIST;
        return r10_disk_drop(file, -1);
    }
    int answer = r10_disk_format(file, blocks, room, script, script_length);
    if (answer == 0 && (rename(fresh, path) != 0 || r10_disk_sync_folder(path) != 0))
        answer = -1;
    if (answer != 0) {
        int why = errno;
        unlink(fresh);
        errno = why;
    }
    return r10_disk_drop(file, answer);
}

#endif
