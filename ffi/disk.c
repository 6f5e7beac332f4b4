/* Tries r10_posix.h: a file as a recorder's disk, one that is refused, and one that fails.
 *
 *     disk FILE     FILE must not be there, and is removed at the end */
#define _GNU_SOURCE
#include <inttypes.h>
#include <signal.h>
#include <stdio.h>
#include <stdlib.h>
#include <string.h>
#include <sys/resource.h>
#include <sys/wait.h>

#include <errno.h>
#include <fcntl.h>
#include <unistd.h>

#include "r10.h"

/* What the header calls of the system is done, and written down: 'f' for blocks of files, 'd' for blocks of the directory, and 's' for a sync, where it is not
 * the same as before. A write does at most 700 bytes, and each seventh one is interrupted. */
enum { DIRECTORY = 7 };

static char sequence[64];
static unsigned long writes, folders, drops;

static void note(char what) {
    size_t length = strlen(sequence);
    if (length + 1 < sizeof sequence && (length == 0 || sequence[length - 1] != what))
        sequence[length] = what;
}

static ssize_t short_write(int file, const void *bytes, size_t count, off_t at) {
    if (++writes % 7 == 0) {
        errno = EINTR;
        return -1;
    }
    note(at <= 512 * DIRECTORY ? 'd' : 'f');
    return pwrite(file, bytes, count > 700 ? 700 : count, at);
}

static int noted_sync(int file) {
    note('s');
    return fdatasync(file);
}

static int noted_folder(int file) {
    folders++;
    return fsync(file);
}

static int noted_drop(int file, off_t at, off_t length, int advice) {
    drops += advice == POSIX_FADV_DONTNEED;
    return posix_fadvise(file, at, length, advice);
}

#define pwrite short_write
#define fdatasync noted_sync
#define fsync noted_folder
#define posix_fadvise noted_drop
#include "r10_posix.h"
#undef pwrite
#undef fdatasync
#undef fsync
#undef posix_fadvise

enum { BLOCKS = 131072, ROOM = 16, LINE = 5, LENGTH = 1000 };

static const char script[] = "blocks = 131072\ndirectory = 7\nvolume = \"VOL\"\nnodes = 100\ntime = 1\nevent = 2\n"
                             "[[channel]]\nid = 5\nkind = \"message\"\ncapacity = 64\ncheck = 16\nbytes = 65536\nnumber = 100\n";

static r10 recorder;
static r10_disk disk, other;

static void must(const char *what, uint32_t number) {
    if (number != R10_OK) {
        printf("%s: refused %u, %s\n", what, number, r10_strerror(number));
        exit(1);
    }
}

static void say(const char *what, int answer) {
    int why = errno;
    if (answer == 0)
        printf("%s: done\n", what);
    else if (answer < 0)
        printf("%s: %s\n", what, strerror(why));
    else
        printf("%s: refused %d, %s\n", what, answer, r10_strerror((uint32_t)answer));
}

static uint64_t at = 1000;

static void offer(unsigned count) {
    static uint8_t bytes[LENGTH];
    size_t moved;
    for (unsigned n = 0; n < count; n++) {
        at++;
        memcpy(bytes, &at, sizeof at);
        must("offer", r10_offer_message(&recorder, LINE, at, false, false, 0, bytes, LENGTH));
        must("pump", r10_pump(&recorder, LINE, 1, &moved));
    }
}

static size_t waiting(void) {
    r10_queue_info info;
    must("queue", r10_queue(&recorder, &info));
    return info.waiting + info.rings;
}

static void record(const char *name) {
    const r10_civil civil = {2024, 2, 29, 12, 34, 56, 78};
    must("mount", r10_mount(&recorder));
    must("tick", r10_tick(&recorder, at, &civil));
    must("start", r10_start(&recorder, name, strlen(name), "", 0));
}

static void limit(rlim_t bytes) {
    struct rlimit it;
    getrlimit(RLIMIT_FSIZE, &it);
    it.rlim_cur = bytes;
    setrlimit(RLIMIT_FSIZE, &it);
}

/* Whether the first blocks of the file, which are all that was written then, hold what the region holds. */
static bool is_same(void) {
    static uint8_t bytes[512 * 4096];
    return pread(disk.file, bytes, sizeof bytes, 0) == (ssize_t)sizeof bytes && memcmp(bytes, disk.region.at, sizeof bytes) == 0;
}

/* Whether of three programs that make the file at the same time one does, and the others leave it to that one; forty times. */
static bool is_made_once(const char *path) {
    for (int n = 0; n < 40; n++) {
        int made = 0, left = 0, status;
        unlink(path);
        for (int child = 0; child < 3; child++)
            if (fork() == 0) {
                int answer = r10_disk_make(path, BLOCKS, ROOM, script, strlen(script));
                _exit(answer == 0 ? 0 : answer < 0 && (errno == EEXIST || errno == EWOULDBLOCK) ? 1 : 2);
            }
        while (wait(&status) > 0) {
            made += WIFEXITED(status) && WEXITSTATUS(status) == 0;
            left += WIFEXITED(status) && WEXITSTATUS(status) == 1;
        }
        if (made != 1 || left != 2)
            return false;
    }
    return true;
}

/* Whether a make leaves such a file as it is, where its own file was to be. */
static bool is_left(const char *path, const char *fresh, const void *bytes, size_t length) {
    static uint8_t found[2048];
    FILE *file = fopen(fresh, "wb");
    fwrite(bytes, 1, length, file);
    fclose(file);
    int answer = r10_disk_make(path, BLOCKS, ROOM, script, strlen(script)), why = errno;
    file = fopen(fresh, "rb");
    size_t there = file ? fread(found, 1, sizeof found, file) : 0;
    if (file)
        fclose(file);
    unlink(fresh);
    return answer == -1 && why == EEXIST && there == length && memcmp(found, bytes, length) == 0 && access(path, F_OK) != 0;
}

/* Whether a disk that is not open closes no file of the program's: one that now has the number that its own had. */
static bool closes_no_other(void) {
    int mine = open("/dev/null", O_RDONLY);
    r10_disk_close(&disk);
    return fcntl(mine, F_GETFD) != -1 && close(mine) == 0;
}

/* Whether a child of fork, which has a copy of the recorder, is refused the disk, and what waits is the parent's. */
static bool leaves_it_to_the_parent(void) {
    int status = 1;
    offer(1);
    must("commit", r10_commit(&recorder));
    pid_t child = fork();
    if (child == 0)
        _exit(r10_disk_settle(&disk, &recorder) == -1 && errno == EPERM && !is_same() ? 0 : 1);
    bool refused = child > 0 && waitpid(child, &status, 0) == child && status == 0 && !is_same();
    return refused && r10_disk_settle(&disk, &recorder) == 0 && is_same();
}

int main(int count, char **words) {
    static uint8_t medium[1024];
    size_t taken, left, files, before;
    r10_file_info info;
    uint8_t name[56];
    char path[4096];
    if (count != 2) {
        fprintf(stderr, "usage: disk FILE\n");
        return 1;
    }
    signal(SIGXFSZ, SIG_IGN);

    say("a script that cannot be taken", r10_disk_make(words[1], BLOCKS, ROOM, "blocks", 6));
    limit(512 * BLOCKS / 2);
    say("a file that has no room", r10_disk_make(words[1], BLOCKS, ROOM, script, strlen(script)));
    limit(RLIM_INFINITY);
    snprintf(path, sizeof path, "%s.new", words[1]);
    printf("neither leaves a file: %s\n", access(words[1], F_OK) != 0 && access(path, F_OK) != 0 ? "yes" : "no");
    memcpy(medium + 512, "FORTYtwo\x0f\0\0\x01", 12);
    printf("a file of another's stays: %s\n", is_left(words[1], path, "a note\n", 7) && is_left(words[1], path, medium, sizeof medium) ? "yes" : "no");
    memset(medium, 0, sizeof medium);
    printf("what an ended make left does not: %s\n", is_left(words[1], path, medium, 700) ? "no" : "yes");
    unlink(words[1]);
    say("made", r10_disk_make(words[1], BLOCKS, ROOM, script, strlen(script)));
    printf("its name is made durable: %s\n", folders > 0 ? "yes" : "no");
    say("made where one is", r10_disk_make(words[1], BLOCKS, ROOM, script, strlen(script)));
    printf("of three programs at once one makes it: %s\n", is_made_once(words[1]) ? "yes" : "no");

    say("opened for more blocks than there are", r10_disk_open(&disk, words[1], BLOCKS + 1));
    printf("closed all the same, it closes no other file: %s\n", closes_no_other() ? "yes" : "no");
    drops = 0;
    say("opened", r10_disk_open(&disk, words[1], BLOCKS));
    printf("the system's copies are dropped: %s\n", drops > 0 ? "yes" : "no");
    say("opened by another program", r10_disk_open(&other, words[1], BLOCKS));
    unsigned long sector = r10_disk_sector(&disk);
    printf("sectors of 512, 4096 or unknown: %s\n", sector == 0 || sector == 512 || sector == 4096 ? "yes" : "no");

    must("open", r10_open(disk.region, ROOM, script, strlen(script), &recorder));
    record("FLT1");
    say("settled", r10_disk_settle(&disk, &recorder));
    offer(100);
    must("commit", r10_commit(&recorder));
    memset(sequence, 0, sizeof sequence);
    say("settled", r10_disk_settle(&disk, &recorder));
    printf("files, sync, directory, sync: %s\n", sequence);
    printf("a child of fork writes nothing: %s\n", leaves_it_to_the_parent() ? "yes" : "no");
    printf("nothing waits, and the file holds what the region holds: %s\n", waiting() == 0 && is_same() ? "yes" : "no");
    say("pages given back", r10_disk_give_back(&disk));
    printf("the region reads as before: %s\n", is_same() ? "yes" : "no");

    offer(100);
    must("commit", r10_commit(&recorder));
    limit(512 * 64);
    say("settled on a disk that fails", r10_disk_settle(&disk, &recorder));
    limit(RLIM_INFINITY);
    before = waiting();
    say("settled once more", r10_disk_settle(&disk, &recorder));
    printf("nothing more was done: %s\n", before > 0 && waiting() == before ? "yes" : "no");
    say("a commit after that", (int)r10_commit(&recorder));
    say("and one more", (int)r10_commit(&recorder));
    r10_close(&recorder);
    r10_disk_close(&disk);

    say("opened again", r10_disk_open(&disk, words[1], BLOCKS));
    must("open", r10_open(disk.region, ROOM, script, strlen(script), &recorder));
    must("mount", r10_mount(&recorder));
    must("seal", r10_seal(&recorder));
    say("settled", r10_disk_settle(&disk, &recorder));
    must("dismount", r10_dismount(&recorder));
    record("FLT2");
    for (unsigned n = 0; n < 400; n++) {
        offer(100);
        must("commit", r10_commit(&recorder));
        if (r10_disk_settle(&disk, &recorder) != 0)
            say("settled", -1);
    }
    printf("many blocks are written, and pages given back meanwhile: %s\n", disk.blocks > R10_GIVE_BACK && disk.kept < R10_GIVE_BACK ? "yes" : "no");
    must("stop", r10_stop(&recorder, &taken, &left));
    say("settled", r10_disk_settle(&disk, &recorder));
    must("files", r10_files(&recorder, &files));
    for (size_t n = 0; n < files; n++) {
        must("file", r10_file(&recorder, n, &info, name, sizeof name));
        printf("file %.*s: closed %d\n", (int)info.name_length, (const char *)name, info.closed);
    }
    for (size_t n = 0; n < files; n++) {
        static uint8_t bytes[65535];
        uint16_t some[36];
        r10_entry entry;
        bool there = true;
        size_t cursor, queued, messages = 0;
        must("cursor", r10_cursor(&recorder, n, (const uint16_t[]){LINE}, 1, 0, ((uint64_t)1 << 48) - 1, &cursor));
        must("advance", r10_advance(&recorder, cursor, &queued));
        while (there) {
            must("next", r10_next(&recorder, cursor, &there, &entry, bytes, sizeof bytes, some, 36));
            messages += there;
        }
        printf("file %zu: %zu messages\n", n, messages);
    }
    for (size_t n = 0; n < files; n++) {
        uint8_t header[24] = {0};
        size_t got = 0;
        must("shown", r10_shown(&recorder, disk.region, DIRECTORY, n, 0, header, sizeof header, &got));
        printf("file %zu begins with %02X%02X, a packet of channel %u\n", n, header[1], header[0], header[2] + 256u * header[3]);
    }
    r10_channel_info channel;
    say("channel 4", (int)r10_channel_of(&recorder, 4, &channel));
    say("channel 5", (int)r10_channel_of(&recorder, 5, &channel));
    r10_close(&recorder);
    r10_disk_close(&disk);
    printf("closed again, it closes no other file: %s\n", closes_no_other() ? "yes" : "no");
    unlink(words[1]);
    return 0;
}
