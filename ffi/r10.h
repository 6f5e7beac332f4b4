/* The recorder as a library for programs in C, C++ and Rust: IRIG 106 chapter 10 recording with record-while-play.
 *
 * Each call answers 0, or why it did not do its work: the number of a refusal, 1 to 30, or one of the library's own, from 40 on. A call that answers
 * another number than 0 has changed nothing, but for these two. R10_OVERFLOW is counted. After R10_MEDIUM what the call did may be in the region or not, and
 * messages that it took from lanes may be gone: the recorder is failed, and answers R10_FAILED from then on (r10_close, and r10_open again). Memory that
 * was lent for an answer is as it was then too. Which numbers a call may answer stands at the call; R10_CLOSED stands for all. A refused r10_carry_one may
 * have taken a message from the port, which it keeps for the next call.
 *
 * The library calls nothing of the system but malloc, realloc and free. It reads and writes the region, and says what a disk has to do so that it holds the
 * same: after each call, r10_orders hands out the operations in their order, as runs of neighbouring blocks and as syncs. The program does a run before it
 * takes the next one. Once there is none left, a commit or a stop that answered 0 is durable. A pump's messages are durable only after a commit.
 * A program may be killed, or the power may fail, at any moment: what the disk then holds is what the recorder may leave, and it can be opened again.
 *
 * What the disk must do
 *  - A block of 512 bytes is written whole or not at all, and its neighbours stay as they were. A disk with sectors of 4,096 bytes may lose eight blocks
 *    when the power fails amid a write: then the directory can be gone, or the end of the recorded file. A directory of 7 blocks shares no sector with a file.
 *    `/sys/block/DISK/queue/physical_block_size` says which sectors a disk has; r10_disk_sector of r10_posix.h reads it. A killed program tears nothing.
 *  - What a sync made durable stays. After a failed sync (fdatasync) the system's copies may differ from the disk. Close the recorder then, drop the copies, and open it
 *    again: r10_disk_open of r10_posix.h syncs and drops them before each open. r10_disk_failed tells the recorder that its disk failed.
 *  - A file is allocated whole (posix_fallocate): a full disk under a sparse file ends a program by a signal, and so does a bad sector under a mapping.
 *  - One program uses a medium at a time (flock): a second one that mounts it writes block 1.
 *
 * What the program owes, and what nothing checks
 *  - A recorder is given to one call at a time. It may go from one thread to another between calls. Two recorders may run in two threads.
 *  - A port and its outlet are handles of their own. A port's calls (r10_port_..) may be made in one thread while another one is in a call on the recorder,
 *    on the outlet or on another port. Each handle is given to one call at a time. It goes to another thread by a lock, or as that thread starts or ends.
 *  - A pointer with a count leads to that many; an out pointer leads to one. Where the count is 0 it may lead anywhere. A bool is 0
 *    or 1. Memory that is lent is lent for the call alone, but for the region.
 *  - Null pointers are found by this header, and not by the library. A null recorder, port or outlet is answered R10_CLOSED, any other null pointer
 *    R10_ROOM, with nothing changed. Where R10_UNCHECKED is defined, or the calls are declared elsewhere, no pointer may be null.
 *  - An `r10`, an `r10_port` and an `r10_outlet` are all zeros before they are opened, and are not copied while they are open. One that is not open is
 *    answered R10_CLOSED.
 *  - The region is the library's from r10_open or r10_format to r10_close: nothing else writes it. At the start it holds what the disk holds. A file is mapped with
 *    MAP_PRIVATE: with MAP_SHARED the system would write blocks before their turn.
 *  - The runs are done in order. Where one fails, do none after it: say so (r10_disk_failed) or close the recorder, and go on as after a loss of power.
 *  - malloc, realloc and free are those of the C library. No call is made from a signal handler.
 *
 * Memory
 *  - Each block that is written becomes a page of the program's own under MAP_PRIVATE. Once no operation waits, the file holds what the region holds.
 *    So the pages may be given back (madvise with MADV_DONTNEED): a later read takes the same bytes from the file. r10_disk_give_back does it.
 *  - The queue of operations takes 528 bytes a place. `room` places are there from the start, and when each call begins. Where more
 *    wait it grows. A stop or a seal puts the whole index into it: 20.4 bytes a packet. A recorder keeps 32 bytes for each packet of
 *    the file that is recorded.
 *  - r10_advance queues all that was shown since the last call. A long file is read in parts by r10_part, also one that grows.
 *
 * Time
 *  - A pump is refused R10_MEDIUM_FULL by the most that its entries may need, which is 104 bytes and more each: see docs/LIBRARY.md for how full a medium gets. Stop
 *    then, and start a new file: it begins right after the last one.
 *  - The standard wants a time packet each second: call r10_tick so often. A seal reads the whole file: 0.6 GB a second in a trial.
 *
 * Counts are below 2^48, in units of 100 ns. Times are civil. Blocks have 512 bytes.
 *
 * A script
 *     blocks = 262144          the medium, in blocks: 128 MiB
 *     directory = 7            blocks of the directory, of 1 to 64, each for four files: 28
 *     volume = "FLIGHT-1"
 *     nodes = 100              how many nodes a group of an index has
 *     time = 1                 the channel of time packets
 *     event = 2                the channel of events
 *     [[channel]]
 *     id = 5
 *     kind = "uart"            uart, 1553, arinc, discrete (with bits = 1 to 31) or message
 *     capacity = 64            messages that wait between an offer and a pump
 *     check = 32               a checksum of each packet's data: 0, 8, 16 or 32 bits
 *     bytes = 65536            a packet is closed at so many bytes of data
 *     number = 1000            or at so many messages
 *
 * What its numbers cost
 *     capacity       a lane has as many places, of 80 bytes each; a message of more than 38 bytes has memory of its own while it waits
 *     bytes, number  room for two packets of that size is kept for each channel. A message is shown once its packet is closed and
 *                    committed: one of the two numbers closes it, or a commit, which closes those of all channels. Each packet costs 24
 *                    to 28 bytes of the medium, 20.4 in the index, and 32 bytes of memory until the stop
 *     nodes          nothing but how the index is grouped, which is written by the stop or the seal
 *     blocks         the mapped region: only what is used of it takes memory
 *     directory      512 bytes a block; a commit writes one of them
 *
 * Platforms: Linux on x86-64, by GCC or Clang. The sizes at the end of this header are checked by the compiler. For arm64 the library has to
 * be compiled by a toolchain that has that target, which has not been tried; nothing in this header or in the format is of x86-64 alone.
 *
 * To link: `pkg-config --cflags --libs r10`, where it is installed. Else libr10_ffi.a and liblibc_c.a of the toolchain's kit (`scripts/ffi.sh` shows how).
 */
#ifndef R10_H
#define R10_H

#include <stdbool.h>
#include <stddef.h>
#include <stdint.h>
#include <string.h>

/* The version that this header is of. r10_version says that of the library, by the same number. */
#define R10_VERSION_MAJOR 0
#define R10_VERSION_MINOR 2
#define R10_VERSION_PATCH 0
#define R10_VERSION (R10_VERSION_MAJOR * 10000 + R10_VERSION_MINOR * 100 + R10_VERSION_PATCH)

/* How many calls of the library this header declares. It grows with each call that is added, between versions too. */
#define R10_FEATURES 54

#ifdef __cplusplus
extern "C" {
#endif

/* A call that this header looks at first: see the end. */
#ifdef R10_UNCHECKED
#define R10_CALL extern
#define R10_CHECKED(name)
#else
#define R10_CALL static __inline__ __attribute__((__unused__))
#define R10_CHECKED(name) __asm__(#name "_checked")
#endif

/* ---- numbers */

enum {
    R10_OK = 0,
    R10_FAILED = 1,        /* the recorder met a failure of the medium before */
    R10_NOT_MOUNTED = 2,   /* nothing is mounted */
    R10_MOUNTED = 3,       /* something is mounted already */
    R10_BUSY = 4,          /* a file is being recorded */
    R10_NOT_RECORDING = 5, /* no file is being recorded */
    R10_NO_CHANNEL = 6,    /* no channel has this ID */
    R10_WRONG_KIND = 7,    /* the message is not of the channel's kind */
    R10_BAD_MESSAGE = 8,   /* a field is out of its range */
    R10_TOO_LONG = 9,      /* the message or the setup text is too long */
    R10_COUNT_RANGE = 10,  /* a count from 2^48 on */
    R10_COUNT_BACK = 11,   /* a count below the last one */
    R10_OVERFLOW = 12,     /* the channel's lane holds its capacity */
    R10_BAD_CIVIL = 13,    /* no such date or time */
    R10_NO_TIME = 14,      /* no tick yet */
    R10_BAD_NAME = 15,     /* not 1 to 56 of letters, digits, '.', '_', '-' */
    R10_NAME_TAKEN = 16,   /* a file has this name */
    R10_BAD_EVENT = 17,    /* an event number over 4095 */
    R10_UNSEALED = 18,     /* the last file is not closed: r10_seal */
    R10_NO_FILE = 19,      /* no file of this number; for r10_seal: no file that is not closed */
    R10_STALE = 20,        /* the cursor is older than an erase */
    R10_NO_CURSOR = 21,    /* no open cursor of this number */
    R10_UNREAD = 22,       /* the cursor's queue is not empty */
    R10_DIRECTORY_FULL = 23,
    R10_MEDIUM_FULL = 25,
    R10_BAD_DIRECTORY = 26,
    R10_BAD_FILE = 27, /* the file is not one that this recorder wrote, or does not fit its directory entry */
    /* the medium failed in this call: the program said so (r10_disk_failed), or memory for one operation more was refused */
    R10_MEDIUM = 28,
    R10_NO_MEMORY = 30, /* memory was refused */
    R10_SCRIPT = 40,    /* the script can't be taken */
    R10_BLOCKS = 41,    /* the region has another number of blocks than the script says */
    R10_ROOM = 42,      /* less memory was lent than the call needs */
    R10_PLACE = 43,     /* a list has no such place */
    R10_CLOSED = 44,    /* a handle is not open */
    R10_OPEN = 45       /* a handle is open already */
};

/* ---- what is lent and given */

/* A recorder, or none where it is all zeros. Keep it, and do not read it. */
typedef struct r10 {
    void *held;
    bool open;
} r10;

/* So many blocks of memory, 512 bytes each, side by side: a file or device that is mapped (MAP_PRIVATE), or plain memory. */
typedef struct r10_region {
    void *at;
    size_t blocks;
} r10_region;

/* A civil time: years 1 to 3999, hundredths of a second, no leap second. */
typedef struct r10_civil {
    uint16_t year, month, day, hour, minute, second, centi;
} r10_civil;

/* The messages' kinds in r10_entry. */
enum { R10_UART = 1, R10_1553 = 2, R10_ARINC = 3, R10_DISCRETE = 4, R10_MESSAGE = 5, R10_TIME = 6, R10_EVENT = 7 };

/* An entry without its bytes or words. What its kind does not have is 0. */
typedef struct r10_entry {
    uint64_t count;
    uint64_t lost; /* how many messages before it on its channel were lost; 0 where the file doesn't tell how many */
    size_t length; /* how many bytes (UART, message) or words (1553) it has */
    uint32_t word; /* ARINC: the word; discrete: the states */
    uint16_t channel;
    uint16_t sub;                                           /* UART, message: the subchannel */
    uint16_t status, gap_times;                             /* 1553: block status, gap times word */
    uint16_t number, occurrence;                            /* event: its number, and how many of this number stand earlier */
    uint16_t year, month, day, hour, minute, second, centi; /* time */
    uint8_t kind;
    uint8_t bus;     /* ARINC */
    bool gap;        /* at least one message right before it on its channel was lost */
    bool parity;     /* UART, ARINC */
    bool format;     /* ARINC, message */
    bool data_error; /* message */
    bool high;       /* ARINC: a high speed bus */
} r10_entry;

typedef struct r10_file_info {
    uint64_t size;      /* the bytes that the medium shows of it */
    uint64_t blocks;    /* the blocks that hold these bytes */
    size_t name_length; /* at most 56 */
    bool closed;
} r10_file_info;

enum { R10_MODE_UNMOUNTED = 0, R10_MODE_IDLE = 1, R10_MODE_RECORDING = 2, R10_MODE_FAILED = 3 };

typedef struct r10_status_info {
    uint64_t tick;   /* the count of the last tick; 0 where ticked is false */
    uint64_t free;   /* bytes: what the open file's area has left, or the next file's area; 0 where nothing is mounted or the recorder failed */
    size_t files;    /* 0 likewise */
    size_t channels; /* of the settings */
    uint8_t mode;
    bool ticked;
} r10_status_info;

typedef struct r10_channel_info {
    uint64_t lost;   /* messages that were refused for an overflow, or lost before they were offered */
    uint64_t erased; /* entries that erases took; 0 where the recorder failed */
    size_t waiting;  /* messages in its lane */
    uint16_t channel;
} r10_channel_info;

/* What became of a channel's messages, of a recorder that failed too: so a program can give the next one how many it lost. */
typedef struct r10_account_info {
    uint64_t accepted; /* messages of which an offer answered R10_OK since the recorder was opened */
    uint64_t erased;   /* of these, those that erases took */
    uint64_t lost;     /* as r10_channel_info has it */
    size_t waiting;    /* of those that were accepted, the ones in its lane */
    uint16_t channel;
} r10_account_info;

/* How many messages of a channel were lost, and which gaps report that. Each number up to 2^64 - 1. */
typedef struct r10_losses_info {
    uint64_t missed;       /* lost since the last message that was accepted: no gap reports them yet */
    uint64_t waiting_lost; /* the losses that the gaps of the messages in its lane report */
    uint64_t erased_lost;  /* those that the gaps of erased messages reported */
    uint64_t handed;       /* messages that r10_take_waiting took */
    uint64_t handed_lost;  /* the losses that their gaps report */
    uint16_t channel;
} r10_losses_info;

/* The two ends of a channel's lane between two threads, or none where they are all zeros. Keep them, and do not read them. */
typedef struct r10_port {
    void *held;
    bool open;
} r10_port;

typedef struct r10_outlet {
    void *held;
    bool open;
} r10_outlet;

/* What became of the messages that were offered at a port. */
typedef struct r10_port_info {
    uint64_t accepted; /* messages of which an offer at the port answered R10_OK */
    uint64_t lost;     /* messages that the port refused for an overflow, or that were lost before they were offered */
    size_t capacity;   /* how many messages the port has room for, as many as the channel's lane */
    uint16_t channel;
} r10_port_info;

/* What a disk has to do next. */
enum { R10_NOTHING = 0, R10_WRITE = 1, R10_SYNC = 2 };

typedef struct r10_order_info {
    size_t block; /* R10_WRITE: which block holds these bytes from now on */
    uint8_t kind; /* R10_NOTHING, R10_WRITE, or R10_SYNC: what was written so far is made durable */
} r10_order_info;

typedef struct r10_run_info {
    size_t block;  /* R10_WRITE: the first block of the run */
    size_t blocks; /* how many blocks it has, side by side */
    uint8_t kind;  /* as in r10_order_info */
} r10_run_info;

typedef struct r10_queue_info {
    size_t waiting; /* the operations that wait in the ring in hand */
    size_t places;  /* the places that it has */
    size_t rings;   /* the further rings that wait, each of 64 to 16,384 places; 0 where the first was enough */
} r10_queue_info;

/* What is wrong with a file, in r10_fault_info. */
enum {
    R10_FAULT_TRUNCATED = 1,  /* there are fewer bytes than a header has, or than it says */
    R10_FAULT_SYNC = 2,       /* the sync pattern is another */
    R10_FAULT_HEADER_SUM = 3, /* the header checksum is wrong */
    R10_FAULT_LENGTH = 4,     /* the packet length or the data length is none that a packet may have */
    R10_FAULT_DATA_SUM = 5,   /* the data checksum is wrong or has no room */
    R10_FAULT_BODY = 6,       /* the body is not what its type has */
    R10_FAULT_RULE = 7        /* the packet breaks a rule of this recorder's files: docs/FORMAT.md has them by number */
};

typedef struct r10_fault_info {
    /* R10_BAD_DIRECTORY: the first block of the directory that cannot be taken; R10_BAD_FILE: where the first wrong packet is */
    uint64_t at;
    uint32_t number; /* R10_BAD_DIRECTORY or R10_BAD_FILE; 0 where neither was answered since r10_open */
    uint16_t fault;  /* R10_BAD_FILE: what is wrong there; else 0 */
    uint16_t rule;   /* R10_FAULT_RULE: which rule; else 0 */
} r10_fault_info;

typedef struct r10_script_info {
    size_t blocks;    /* the blocks that its medium has; this and the next two are 0 where the script cannot be taken */
    size_t directory; /* how many of them are reserved for the directory */
    size_t channels;
    size_t line;   /* R10_SCRIPT: the line that is wrong, from 1; 0 where it is not known */
    size_t length; /* R10_SCRIPT: how many bytes the text has that says what is wrong; else 0 */
} r10_script_info;

/* ---- a medium and a recorder over it
 *
 * `script` is the text of a script in TOML (docs/FORMAT.md): its settings and channels are taken, its steps are not done.
 *
 * `room` is how many operations have a place when a call begins, 528 bytes for each: the library asks for them at the start, and for as
 * many again where operations of earlier calls wait. Where that memory is refused, the call answers R10_NO_MEMORY, and nothing is
 * changed. A call comes to about one operation for each 512 bytes that it adds to a file, and to some twenty more; r10_stop takes in
 * all that waits. One that comes to more than `room` asks for memory amid its work. Only where that is refused it answers
 * R10_MEDIUM. */

/* The version of the library, as R10_VERSION. */
uint32_t r10_version(void);

/* What a script says of its medium, before a recorder is opened by it. After R10_SCRIPT `info` has the line that is wrong, and how
 * long the text is that says why; `text` has of it what fits. The program `r10` prints the same text. No recorder is needed.
 * R10_NO_MEMORY, R10_SCRIPT. */
R10_CALL uint32_t r10_check_script(const void *script, size_t script_length, r10_script_info *info, void *text, size_t text_room) R10_CHECKED(r10_check_script);

/* Writes the directory of a medium without files, and opens a recorder over it, not mounted, with empty lanes. Its operations wait, as after every call. After
 * R10_MEDIUM or R10_NO_MEMORY the region may have the new directory. R10_MEDIUM, R10_NO_MEMORY, R10_SCRIPT, R10_BLOCKS, R10_OPEN. */
R10_CALL uint32_t r10_format(r10_region region, size_t room, const void *script, size_t script_length, r10 *recorder) R10_CHECKED(r10_format);

/* Sets the last file of the medium aside where it was left open, and opens a recorder over it, not mounted, with empty lanes. For a file that r10_seal
 * refuses (R10_BAD_FILE, R10_MEDIUM_FULL, R10_MEDIUM), or that would take too long to read: its directory entry is closed as it is, with the bytes that it
 * shows and the close time 99999999, which no clock gives. No byte of the file is read or changed, however long it is. One block of the directory is written,
 * and waits, as operations do after every call; a loss of power leaves the old list of files or the new one. Then a mounted recorder can start the next file;
 * reading this one answers R10_BAD_FILE. `was_open` is whether there was one: where there was not, nothing is written.
 * R10_BAD_DIRECTORY, R10_MEDIUM, R10_NO_MEMORY, R10_SCRIPT, R10_BLOCKS, R10_OPEN. */
R10_CALL uint32_t r10_set_aside(r10_region region, size_t room, const void *script, size_t script_length, r10 *recorder, bool *was_open)
    R10_CHECKED(r10_set_aside);

/* Opens a recorder, not mounted, with empty lanes. R10_NO_MEMORY, R10_SCRIPT, R10_BLOCKS, R10_OPEN. */
R10_CALL uint32_t r10_open(r10_region region, size_t room, const void *script, size_t script_length, r10 *recorder) R10_CHECKED(r10_open);

/* Hands out the next run: as many of the next writes as are of one block or of blocks side by side, up to the next sync, or a sync, or none. None is
 * answered only where all operations were handed out. Copies 512 * blocks bytes. The blocks of a run may be written at once, and in any order. R10_ROOM
 * where there is room for fewer than 512 bytes: then nothing is taken. */
R10_CALL uint32_t r10_orders(r10 *recorder, r10_run_info *run, uint8_t *bytes, size_t byte_room) R10_CHECKED(r10_orders);

/* The same for one operation. R10_ROOM as r10_orders. */
R10_CALL uint32_t r10_order(r10 *recorder, r10_order_info *order, uint8_t *bytes, size_t byte_room) R10_CHECKED(r10_order);

/* How many operations wait. */
R10_CALL uint32_t r10_queue(r10 *recorder, r10_queue_info *info) R10_CHECKED(r10_queue);

/* The program's disk failed: from then on each write and each sync of the recorder fails, so that the next call that needs one answers R10_MEDIUM. */
R10_CALL uint32_t r10_disk_failed(r10 *recorder) R10_CHECKED(r10_disk_failed);

/* Gives back the recorder's memory, and the region to its owner. Operations that were not handed out, and what was not committed, are lost. One that is
 * closed stays so. */
R10_CALL void r10_close(r10 *recorder) R10_CHECKED(r10_close);

/* ---- control. Each may answer R10_NO_MEMORY, and but for r10_offer_.., r10_lost, r10_status, r10_channel, r10_account, r10_next
 * and r10_close_cursor R10_FAILED. */

/* Begins to use the medium. R10_MOUNTED, R10_BAD_DIRECTORY, R10_MEDIUM. */
R10_CALL uint32_t r10_mount(r10 *recorder) R10_CHECKED(r10_mount);

/* Ends the use of the medium. R10_NOT_MOUNTED, R10_BUSY, R10_MEDIUM. */
R10_CALL uint32_t r10_dismount(r10 *recorder) R10_CHECKED(r10_dismount);

/* The clock: the civil time at a count. R10_NOT_MOUNTED, R10_COUNT_RANGE, R10_COUNT_BACK, R10_BAD_CIVIL; while a file is recorded also
 * R10_MEDIUM_FULL, R10_MEDIUM. */
R10_CALL uint32_t r10_tick(r10 *recorder, uint64_t count, const r10_civil *civil) R10_CHECKED(r10_tick);

/* Begins a file, with a setup text of at most 524,260 bytes. R10_NOT_MOUNTED, R10_BUSY, R10_TOO_LONG, R10_NO_TIME, R10_BAD_NAME,
 * R10_NAME_TAKEN, R10_UNSEALED, R10_DIRECTORY_FULL, R10_MEDIUM_FULL, R10_MEDIUM. */
R10_CALL uint32_t r10_start(r10 *recorder, const void *name, size_t name_length, const void *setup, size_t setup_length) R10_CHECKED(r10_start);

/* Takes at most so many of a channel's waiting messages into the file. R10_NOT_MOUNTED, R10_NOT_RECORDING, R10_NO_CHANNEL, R10_MEDIUM_FULL (of
 * the first message; else `moved` says how many were taken), R10_MEDIUM. */
R10_CALL uint32_t r10_pump(r10 *recorder, uint16_t channel, size_t most, size_t *moved) R10_CHECKED(r10_pump);

/* A recording event, of a number up to 4,095. R10_NOT_MOUNTED, R10_NOT_RECORDING, R10_COUNT_RANGE, R10_COUNT_BACK, R10_BAD_EVENT,
 * R10_MEDIUM_FULL, R10_MEDIUM. */
R10_CALL uint32_t r10_event(r10 *recorder, uint16_t number, uint64_t count) R10_CHECKED(r10_event);

/* Shows on the medium all that the file has: after a 0, and once its operations are done, it is durable. R10_NOT_MOUNTED, R10_NOT_RECORDING, R10_MEDIUM. */
R10_CALL uint32_t r10_commit(r10 *recorder) R10_CHECKED(r10_commit);

/* Takes in what waits, as far as there is room, ends the file and closes it: after a 0, and once its operations are done, it is durable. `taken` messages were taken, `left` still wait.
 * R10_NOT_MOUNTED, R10_NOT_RECORDING, R10_MEDIUM. */
R10_CALL uint32_t r10_stop(r10 *recorder, size_t *taken, size_t *left) R10_CHECKED(r10_stop);

/* Closes a last file that was left open; its entries stay. R10_NOT_MOUNTED, R10_BUSY, R10_NO_FILE, R10_MEDIUM_FULL, R10_BAD_FILE,
 * R10_MEDIUM. */
R10_CALL uint32_t r10_seal(r10 *recorder) R10_CHECKED(r10_seal);

/* Takes all files from the medium. R10_NOT_MOUNTED, R10_BUSY, R10_STALE (2^64 - 1 erases), R10_MEDIUM. */
R10_CALL uint32_t r10_erase(r10 *recorder) R10_CHECKED(r10_erase);

/* ---- offers, in every mode: a message goes to the end of its channel's lane. R10_NO_CHANNEL, R10_WRONG_KIND, R10_BAD_MESSAGE, R10_TOO_LONG,
 * R10_COUNT_RANGE, R10_COUNT_BACK, R10_OVERFLOW. */

/* A serial line: subchannel below 16,384, at most 65,535 bytes. */
R10_CALL uint32_t r10_offer_uart(r10 *recorder, uint16_t channel, uint64_t count, bool parity, uint16_t sub, const void *bytes, size_t length)
    R10_CHECKED(r10_offer_uart);

/* MIL-STD-1553: block status (bits 0x3E38), gap times word, at most 36 words. */
R10_CALL uint32_t r10_offer_1553(r10 *recorder, uint16_t channel, uint64_t count, uint16_t status, uint16_t gap, const uint16_t *words, size_t length)
    R10_CHECKED(r10_offer_1553);

/* ARINC 429. */
R10_CALL uint32_t r10_offer_arinc(r10 *recorder, uint16_t channel, uint64_t count, uint8_t bus, bool format, bool parity, bool high, uint32_t word)
    R10_CHECKED(r10_offer_arinc);

/* Discretes: a bit for each, as many as the channel has. */
R10_CALL uint32_t r10_offer_discrete(r10 *recorder, uint16_t channel, uint64_t count, uint32_t states) R10_CHECKED(r10_offer_discrete);

/* Any other source: subchannel below 16,384, at most 65,535 bytes. */
R10_CALL uint32_t r10_offer_message(r10 *recorder, uint16_t channel, uint64_t count, bool data_error, bool format, uint16_t sub, const void *bytes,
                                    size_t length) R10_CHECKED(r10_offer_message);

/* ---- losses, in every mode */

/* So many of a channel's messages were lost before they were offered: a UART overran, a socket dropped them, another recorder failed with them. The next
 * message that is accepted has them in its gap, with those that were refused R10_OVERFLOW. 0 changes nothing. R10_NO_CHANNEL. */
R10_CALL uint32_t r10_lost(r10 *recorder, uint16_t channel, uint64_t count) R10_CHECKED(r10_lost);

/* ---- offers from other threads
 *
 * A program with a thread for each bus opens a port for each channel. The thread of the bus offers at the port, without a lock and without waiting.
 * The thread that owns the recorder keeps the outlet, and carries what was offered into the channel's lane (r10_carry) before it pumps the channel.
 * A message is carried once, in order, with the number of those that were lost before it. What is not carried yet stays in the port.
 *
 * A channel has one port at most, and is offered to by the port alone: else a message in the port may have a count below the lane's last one. The
 * recorder's account counts a message as accepted once it was carried, and a loss once the next message is.
 *
 * A port, its outlet and the recorder are closed each by its own call, in any order:
 *  - The port is closed: its calls answer R10_CLOSED. What it accepted may still be carried.
 *  - The outlet is closed: what it did not carry is gone. The port fills, and then each offer is refused R10_OVERFLOW.
 *  - The recorder is closed: r10_carry_one answers R10_CLOSED, and what is in the port stays there. A recorder that is opened by the same script may
 *    carry it.
 *  - To close one that is closed changes nothing. What is never closed keeps its memory. */

/* Opens a port and its outlet for a channel of the script that the recorder was opened by. Both are all zeros before it. It may be called in any
 * thread. R10_NO_CHANNEL (the script has no such channel), R10_NO_MEMORY, R10_SCRIPT, R10_OPEN (one of the two is open). */
R10_CALL uint32_t r10_port_open(const void *script, size_t script_length, uint16_t channel, r10_port *port, r10_outlet *outlet) R10_CHECKED(r10_port_open);

/* Offers, as r10_offer_.. of the same kind. R10_OVERFLOW where as many messages wait in the port as it has room for: it is counted as lost, and
 * the next message that is accepted has it in its gap. R10_WRONG_KIND, R10_BAD_MESSAGE, R10_TOO_LONG, R10_COUNT_RANGE, R10_COUNT_BACK,
 * R10_OVERFLOW, and of more than 38 bytes, or words of a MIL-STD-1553 bus, R10_NO_MEMORY. */
R10_CALL uint32_t r10_port_uart(r10_port *port, uint64_t count, bool parity, uint16_t sub, const void *bytes, size_t length) R10_CHECKED(r10_port_uart);
R10_CALL uint32_t r10_port_1553(r10_port *port, uint64_t count, uint16_t status, uint16_t gap, const uint16_t *words, size_t length) R10_CHECKED(r10_port_1553);
R10_CALL uint32_t r10_port_arinc(r10_port *port, uint64_t count, uint8_t bus, bool format, bool parity, bool high, uint32_t word) R10_CHECKED(r10_port_arinc);
R10_CALL uint32_t r10_port_discrete(r10_port *port, uint64_t count, uint32_t states) R10_CHECKED(r10_port_discrete);
R10_CALL uint32_t r10_port_message(r10_port *port, uint64_t count, bool data_error, bool format, uint16_t sub, const void *bytes, size_t length)
    R10_CHECKED(r10_port_message);

/* So many messages were lost before they were offered, as r10_lost. */
R10_CALL uint32_t r10_port_lost(r10_port *port, uint64_t count) R10_CHECKED(r10_port_lost);

R10_CALL uint32_t r10_port_state(r10_port *port, r10_port_info *info) R10_CHECKED(r10_port_state);

/* Gives back the memory of an end. One that is closed stays so. */
R10_CALL void r10_port_close(r10_port *port) R10_CHECKED(r10_port_close);
R10_CALL void r10_outlet_close(r10_outlet *outlet) R10_CHECKED(r10_outlet_close);

/* Carries the port's next message into its channel's lane, by the thread that owns the recorder, in every mode: `carried` says whether one was. R10_OK
 * and none where there is none yet, or where the lane takes it but for its room: then it stays in the port. R10_COUNT_BACK: the channel was offered a later message by
 * another way. Where the recorder was opened by another script: R10_NO_CHANNEL, or why its lane does not take the message.
 * A message that is refused stays, and is the next again, with the loss before it, which is not counted then. It takes no memory. */
R10_CALL uint32_t r10_carry_one(r10 *recorder, r10_outlet *outlet, bool *carried) R10_CHECKED(r10_carry_one);

/* ---- files, and how the recorder is */

/* How many files there are. R10_NOT_MOUNTED. */
R10_CALL uint32_t r10_files(r10 *recorder, size_t *count) R10_CHECKED(r10_files);

/* The file of this number, from 0, and of its name what fits; 56 bytes always do. R10_NOT_MOUNTED, R10_PLACE. */
R10_CALL uint32_t r10_file(r10 *recorder, size_t number, r10_file_info *info, uint8_t *name, size_t name_room) R10_CHECKED(r10_file);

R10_CALL uint32_t r10_status(r10 *recorder, r10_status_info *info) R10_CHECKED(r10_status);

/* What the last R10_BAD_DIRECTORY or R10_BAD_FILE was about. Other answers leave it. */
R10_CALL uint32_t r10_fault(r10 *recorder, r10_fault_info *info) R10_CHECKED(r10_fault);

/* The channel at this place of the settings, from 0. R10_PLACE. */
R10_CALL uint32_t r10_channel(r10 *recorder, size_t place, r10_channel_info *info) R10_CHECKED(r10_channel);

/* The account of the channel at this place of the settings, from 0, in every mode. R10_PLACE. */
R10_CALL uint32_t r10_account(r10 *recorder, size_t place, r10_account_info *info) R10_CHECKED(r10_account);

/* ---- losses, and messages that go on to another recorder */

/* The losses of the channel at this place of the settings, from 0, in every mode. R10_PLACE. */
R10_CALL uint32_t r10_losses(r10 *recorder, size_t place, r10_losses_info *info) R10_CHECKED(r10_losses);

/* Takes the first message that waits on a channel out of its lane, in every mode, a failed recorder's too: `there` says whether one waited. It
 * comes into the recorder's hand, in place of what was there, and r10_taken copies its bytes or words. It is in no file of this recorder then:
 * give the `lost` of its entry to the next recorder's r10_lost, and offer it there. R10_NO_CHANNEL: then nothing changed. */
R10_CALL uint32_t r10_take_waiting(r10 *recorder, uint16_t channel, bool *there, r10_entry *entry) R10_CHECKED(r10_take_waiting);

/* How many of a channel's messages, and of those that were lost before they were offered, stand in no file and in no gap: by its account and its
 * losses, where `found` of its messages were found in the files that the recorder began, and `found_lost` losses in their gaps (r10_found). Messages
 * that r10_take_waiting took are not counted. */
R10_CALL uint64_t r10_untold(const r10_account_info *account, const r10_losses_info *losses, uint64_t found, uint64_t found_lost) R10_CHECKED(r10_untold);

/* ---- readers, of files that are recorded too */

/* Opens a cursor on a file, for these channels, or all where there are none, and counts from `from` to `to`. R10_NOT_MOUNTED, R10_COUNT_RANGE,
 * R10_NO_FILE, R10_BAD_FILE, R10_MEDIUM. */
R10_CALL uint32_t r10_cursor(r10 *recorder, size_t file, const uint16_t *channels, size_t channel_count, uint64_t from, uint64_t to, size_t *cursor)
    R10_CHECKED(r10_cursor);

/* Queues what was shown since the last call, by count, then channel, then place, and says how many entries. R10_NOT_MOUNTED, R10_STALE,
 * R10_NO_CURSOR, R10_UNREAD, R10_BAD_FILE, R10_MEDIUM. */
R10_CALL uint32_t r10_advance(r10 *recorder, size_t cursor, size_t *queued) R10_CHECKED(r10_advance);

/* Takes the first entry of the queue: `there` says whether there was one; its bytes are copied to `bytes`, its words to `words`. R10_NO_CURSOR,
 * and R10_ROOM where there is room for fewer than 65,535 bytes or 36 words: then nothing is taken. */
R10_CALL uint32_t r10_next(r10 *recorder, size_t cursor, bool *there, r10_entry *entry, uint8_t *bytes, size_t byte_room, uint16_t *words, size_t word_room)
    R10_CHECKED(r10_next);

/* The same in two calls, for a program that lends no more than an entry needs. r10_take takes the first entry of the queue into the
 * recorder's hand, in place of what was there, and gives it without its bytes or words: `length` says how many it has.
 * R10_NO_CURSOR: then none is in hand. r10_taken copies them, as often as it is called, also after other calls. R10_ROOM where there
 * is room for fewer than the entry has: it stays in hand. R10_PLACE where none is in hand. */
R10_CALL uint32_t r10_take(r10 *recorder, size_t cursor, bool *there, r10_entry *entry) R10_CHECKED(r10_take);
R10_CALL uint32_t r10_taken(r10 *recorder, uint8_t *bytes, size_t byte_room, uint16_t *words, size_t word_room) R10_CHECKED(r10_taken);

/* R10_NO_CURSOR. */
R10_CALL uint32_t r10_close_cursor(r10 *recorder, size_t cursor) R10_CHECKED(r10_close_cursor);

/* The first shown entry of a channel with at least this count, and its number on the channel from 0. R10_NOT_MOUNTED, R10_COUNT_RANGE,
 * R10_NO_FILE, R10_BAD_FILE, R10_MEDIUM, R10_ROOM as r10_next. */
R10_CALL uint32_t r10_find(r10 *recorder, size_t file, uint16_t channel, uint64_t count, bool *there, size_t *number, r10_entry *entry, uint8_t *bytes,
                           size_t byte_room, uint16_t *words, size_t word_room) R10_CHECKED(r10_find);

/* The count at a civil time, by the last shown time that is not later. R10_NOT_MOUNTED, R10_BAD_CIVIL, R10_NO_FILE, R10_BAD_FILE, R10_MEDIUM. */
R10_CALL uint32_t r10_count_at(r10 *recorder, size_t file, const r10_civil *civil, bool *there, uint64_t *count) R10_CHECKED(r10_count_at);

/* ---- what is made of these calls */

/* A number in words. */
static inline const char *r10_strerror(uint32_t number) {
    switch (number) {
    case R10_OK: return "done";
    case R10_FAILED: return "the recorder met a failure of the medium before";
    case R10_NOT_MOUNTED: return "no medium is mounted";
    case R10_MOUNTED: return "a medium is mounted already";
    case R10_BUSY: return "a file is being recorded";
    case R10_NOT_RECORDING: return "no file is being recorded";
    case R10_NO_CHANNEL: return "no channel has this ID";
    case R10_WRONG_KIND: return "the message is not of the channel's kind";
    case R10_BAD_MESSAGE: return "a field of the message is out of its range";
    case R10_TOO_LONG: return "the message or the setup text is too long";
    case R10_COUNT_RANGE: return "a count has more than 48 bits";
    case R10_COUNT_BACK: return "a count is below the last one";
    case R10_OVERFLOW: return "the channel's lane is full";
    case R10_BAD_CIVIL: return "there is no such date or time";
    case R10_NO_TIME: return "there was no tick yet";
    case R10_BAD_NAME: return "a file's name is 1 to 56 letters, digits, dots, underscores or dashes";
    case R10_NAME_TAKEN: return "a file has this name";
    case R10_BAD_EVENT: return "an event number is over 4095";
    case R10_UNSEALED: return "the last file is not closed: it wants a seal";
    case R10_NO_FILE: return "there is no such file";
    case R10_STALE: return "the cursor is older than an erase";
    case R10_NO_CURSOR: return "there is no such cursor";
    case R10_UNREAD: return "the cursor's queue is not empty";
    case R10_DIRECTORY_FULL: return "the directory is full";
    case R10_MEDIUM_FULL: return "the medium is full";
    case R10_BAD_DIRECTORY: return "the medium's directory cannot be taken";
    case R10_BAD_FILE: return "the file is not one that this recorder wrote, or does not fit its directory entry";
    case R10_MEDIUM: return "the medium failed in this call";
    case R10_NO_MEMORY: return "memory was refused";
    case R10_SCRIPT: return "the script cannot be taken";
    case R10_BLOCKS: return "the region has another number of blocks than the script says";
    case R10_ROOM: return "less memory was lent than the call needs";
    case R10_PLACE: return "the list has no such place";
    case R10_CLOSED: return "the recorder is not open";
    case R10_OPEN: return "the recorder is open already";
    default: return "no number of this library";
    }
}

/* What is wrong with a file, in r10_fault_info, by the name that `r10 check` prints. */
static inline const char *r10_fault_name(uint16_t fault) {
    switch (fault) {
    case R10_FAULT_TRUNCATED: return "Truncated";
    case R10_FAULT_SYNC: return "Sync";
    case R10_FAULT_HEADER_SUM: return "HeaderSum";
    case R10_FAULT_LENGTH: return "Length";
    case R10_FAULT_DATA_SUM: return "DataSum";
    case R10_FAULT_BODY: return "Body";
    case R10_FAULT_RULE: return "Rule";
    default: return "none";
    }
}

/* The first block of a file, where `directory` is how many blocks the script reserves for the directory. Numbers as r10_file. */
static inline uint32_t r10_first_block(r10 *recorder, size_t directory, size_t file, uint64_t *first) {
    r10_file_info info;
    uint64_t block = 1 + (uint64_t)directory;
    uint8_t name[56];
    if (recorder == NULL)
        return R10_CLOSED;
    if (first == NULL)
        return R10_ROOM;
    for (size_t number = 0; number <= file; number++) {
        uint32_t answer = r10_file(recorder, number, &info, name, sizeof name);
        if (answer != R10_OK)
            return answer;
        if (number < file)
            block += info.blocks;
    }
    *first = block;
    return R10_OK;
}

/* Copies what the medium shows of a file, from this byte on: what fits, and `got` says how much. It is what stands in the region, which is only read. Numbers as
 * r10_file; where `from` is not below the file's size, 0 bytes are got. */
static inline uint32_t r10_shown(r10 *recorder, r10_region region, size_t directory, size_t file, uint64_t from, void *bytes, size_t room, size_t *got) {
    r10_file_info info;
    uint8_t name[56];
    uint64_t first;
    if (recorder == NULL)
        return R10_CLOSED;
    if (region.at == NULL || got == NULL || (bytes == NULL && room > 0))
        return R10_ROOM;
    uint32_t answer = r10_file(recorder, file, &info, name, sizeof name);
    if (answer != R10_OK)
        return answer;
    answer = r10_first_block(recorder, directory, file, &first);
    if (answer != R10_OK)
        return answer;
    uint64_t left = from < info.size ? info.size - from : 0;
    size_t count = left < room ? (size_t)left : room;
    if (count > 0)
        memcpy(bytes, (const uint8_t *)region.at + 512 * first + from, count);
    *got = count;
    return R10_OK;
}

/* The channel of this ID. R10_NO_MEMORY, R10_NO_CHANNEL. */
static inline uint32_t r10_channel_of(r10 *recorder, uint16_t id, r10_channel_info *info) {
    r10_channel_info found;
    if (recorder == NULL)
        return R10_CLOSED;
    if (info == NULL)
        return R10_ROOM;
    for (size_t place = 0;; place++) {
        uint32_t answer = r10_channel(recorder, place, &found);
        if (answer == R10_PLACE)
            return R10_NO_CHANNEL;
        if (answer != R10_OK)
            return answer;
        if (found.channel == id) {
            *info = found;
            return R10_OK;
        }
    }
}

/* The account of the channel of this ID. R10_NO_MEMORY, R10_NO_CHANNEL. */
static inline uint32_t r10_account_of(r10 *recorder, uint16_t id, r10_account_info *info) {
    r10_account_info found;
    if (recorder == NULL)
        return R10_CLOSED;
    if (info == NULL)
        return R10_ROOM;
    for (size_t place = 0;; place++) {
        uint32_t answer = r10_account(recorder, place, &found);
        if (answer == R10_PLACE)
            return R10_NO_CHANNEL;
        if (answer != R10_OK)
            return answer;
        if (found.channel == id) {
            *info = found;
            return R10_OK;
        }
    }
}

/* The losses of the channel of this ID. R10_NO_CHANNEL. */
static inline uint32_t r10_losses_of(r10 *recorder, uint16_t id, r10_losses_info *info) {
    r10_losses_info found;
    if (recorder == NULL)
        return R10_CLOSED;
    if (info == NULL)
        return R10_ROOM;
    for (size_t place = 0;; place++) {
        uint32_t answer = r10_losses(recorder, place, &found);
        if (answer == R10_PLACE)
            return R10_NO_CHANNEL;
        if (answer != R10_OK)
            return answer;
        if (found.channel == id) {
            *info = found;
            return R10_OK;
        }
    }
}

/* Carries at most so many messages of a port into its channel's lane, and says how many, also where it answers a refusal: none where a handle is not
 * open. Numbers as r10_carry_one. */
static inline uint32_t r10_carry(r10 *recorder, r10_outlet *outlet, size_t most, size_t *carried) {
    bool one = true;
    if (recorder == NULL || outlet == NULL)
        return R10_CLOSED;
    if (carried == NULL)
        return R10_ROOM;
    for (*carried = 0; *carried < most; ++*carried) {
        uint32_t answer = r10_carry_one(recorder, outlet, &one);
        if (answer != R10_OK)
            return answer;
        if (!one)
            break;
    }
    return R10_OK;
}

/* Where a reader of a long file is: from which count on it is not read, up to which it is wanted, and how many counts it tries next
 * (0 at the start). */
typedef struct r10_parts {
    uint64_t from, to, span;
} r10_parts;

/* The most counts that r10_part tries at once where it is given channels: ten seconds. */
#define R10_PART_SPAN 100000000

/* The greatest count: counts have 48 bits. */
#define R10_LAST_COUNT 281474976710655

/* The count of the first shown entry of these channels from this count on; UINT64_MAX where there is none. Numbers as r10_find. */
static inline uint32_t r10_first_count(r10 *recorder, size_t file, const uint16_t *ids, size_t id_count, uint64_t from, uint64_t *first) {
    bool there;
    size_t number;
    r10_entry entry;
    uint16_t words[36];
    uint8_t bytes[65535];
    *first = UINT64_MAX;
    for (size_t n = 0; n < id_count; n++) {
        uint32_t answer = r10_find(recorder, file, ids[n], from, &there, &number, &entry, bytes, sizeof bytes, words, 36);
        if (answer != R10_OK)
            return answer;
        if (there && entry.count < *first)
            *first = entry.count;
    }
    return R10_OK;
}

/* Opens a cursor on the next part of a file and queues it, so that a long file is read in little memory: the counts from parts->from
 * on, as far as at most `most` entries are queued, or all of one count. Then parts->from is the first count that is not read yet, and
 * above parts->to once all is read. `there` says whether there was a part; one may have no entries. The program takes the entries,
 * and closes the cursor. Of a file that does not grow, the parts one after the other are what one cursor over all counts gives at
 * once.
 *
 * To find the end of a part it queues more for a moment: where channels are given, no more than was recorded in ten seconds
 * (R10_PART_SPAN); for all channels, where none is, up to twice the time of the last part.
 *
 * A file that is recorded may show entries later whose counts were read already. So a program that follows it sets parts->to to a
 * count that the recording has reached, and keeps the cursor of each part. After later commits it advances these again, which gives
 * what came late, and raises parts->to for new parts. So each entry is given once. Numbers as r10_cursor, r10_advance and r10_find. */
static inline uint32_t r10_part(r10 *recorder, r10_parts *parts, size_t file, const uint16_t *ids, size_t id_count, size_t most,
                                /* out */ bool *there, size_t *cursor, size_t *queued) {
    if (recorder == NULL)
        return R10_CLOSED;
    if (parts == NULL || (ids == NULL && id_count > 0) || there == NULL || cursor == NULL || queued == NULL)
        return R10_ROOM;
    if (parts->from > parts->to) {
        *there = false;
        return R10_OK;
    }
    /* one second at the start; before the first entry there is nothing to read */
    uint64_t span = parts->span > 0 ? parts->span : 10000000, first = parts->from;
    if (id_count > 0) {
        uint32_t answer = r10_first_count(recorder, file, ids, id_count, parts->from, &first);
        if (answer != R10_OK)
            return answer;
        if (first > parts->to)
            first = parts->to;
        if (span > R10_PART_SPAN)
            span = R10_PART_SPAN;
    }
    for (;;) {
        size_t id, count;
        uint64_t last = parts->to - first < span ? parts->to : first + (span - 1);
        uint32_t answer = r10_cursor(recorder, file, ids, id_count, parts->from, last, &id);
        if (answer != R10_OK)
            return answer;
        answer = r10_advance(recorder, id, &count);
        if (answer != R10_OK) {
            r10_close_cursor(recorder, id);
            return answer;
        }
        if (count > most && last > first) {
            r10_close_cursor(recorder, id);
            span = (last - first + 1) / 2;
            continue;
        }
        parts->from = last + 1;
        parts->span = count > most / 4 || span > UINT64_MAX / 2 ? span : 2 * span;
        *there = true;
        *cursor = id;
        *queued = count;
        return R10_OK;
    }
}

/* Counts the messages of a channel in the files from this number on, and the losses that their gaps report, for r10_untold: of a mounted recorder whose
 * last file is closed. It reads each file in parts of at most 4,096 messages (r10_part). Numbers as r10_part and r10_files; where it does not answer R10_OK, the
 * two counts are as they were. */
static inline uint32_t r10_found(r10 *recorder, size_t first, uint16_t channel, uint64_t *found, uint64_t *found_lost) {
    uint64_t messages = 0, lost = 0;
    size_t files = 0;
    if (recorder == NULL)
        return R10_CLOSED;
    if (found == NULL || found_lost == NULL)
        return R10_ROOM;
    uint32_t answer = r10_files(recorder, &files);
    for (size_t file = first; answer == R10_OK && file < files; file++) {
        r10_parts parts = {0, R10_LAST_COUNT, 0};
        for (;;) {
            size_t cursor, queued;
            bool there;
            r10_entry entry;
            answer = r10_part(recorder, &parts, file, &channel, 1, 4096, &there, &cursor, &queued);
            if (answer != R10_OK || !there)
                break;
            while (answer == R10_OK && there) {
                answer = r10_take(recorder, cursor, &there, &entry);
                if (answer == R10_OK && there) {
                    messages++;
                    lost += entry.lost;
                }
            }
            uint32_t closed = r10_close_cursor(recorder, cursor);
            answer = answer != R10_OK ? answer : closed;
            if (answer != R10_OK)
                break;
        }
    }
    if (answer != R10_OK)
        return answer;
    *found = messages;
    *found_lost = lost;
    return R10_OK;
}

/* ---- a log channel: the lines that the service r10d writes into one, in a channel of kind message of a program's own
 *
 * A line has a word, the time of the program's clock, and keys with values: docs/RECORDER.md lists the words. Of the lines `start`, `file`,
 * `before` and `total` the filter `ch10 summary` knows what a file lost after its channels' last messages. One that is to be known
 * needs the key `log` in the line `start` or `file`, with the ID of the channel that it stands in. */

enum { R10_LOG_ROOM = 4096, R10_LOG_VALUE = 1000 };

typedef struct r10_log {
    size_t length;
    bool is_full; /* a key had no room */
    char text[R10_LOG_ROOM];
} r10_log;

static inline void r10_log_put(r10_log *line, const char *bytes, size_t length) {
    if (line->is_full || length > R10_LOG_ROOM - line->length) {
        line->is_full = true;
        return;
    }
    memcpy(line->text + line->length, bytes, length);
    line->length += length;
}

static inline void r10_log_digits(r10_log *line, uint64_t number, int least) {
    char digits[20];
    int at = 20;
    do
        digits[--at] = (char)('0' + number % 10);
    while ((number /= 10) > 0 || 20 - at < least);
    r10_log_put(line, digits + at, (size_t)(20 - at));
}

/* Begins a line with a word of small letters, at a time in nanoseconds since 1970, in UTC, from that year on. */
static inline void r10_log_begin(/* out */ r10_log *line, const char *word, uint64_t time) {
    /* the days since 1 March of the year 0, in eras of 400 years */
    uint64_t second = time / 1000000000, days = second / 86400 + 719468, era = days / 146097, day = days % 146097;
    uint64_t year = (day - day / 1460 + day / 36524 - day / 146096) / 365;
    uint64_t in_year = day - (365 * year + year / 4 - year / 100), month = (5 * in_year + 2) / 153;
    line->length = 0;
    line->is_full = false;
    r10_log_put(line, "r10log ", 7);
    r10_log_put(line, word, strlen(word));
    r10_log_put(line, " at=", 4);
    r10_log_digits(line, year + 400 * era + (month >= 10), 4);
    r10_log_put(line, "-", 1);
    r10_log_digits(line, month < 10 ? month + 3 : month - 9, 2);
    r10_log_put(line, "-", 1);
    r10_log_digits(line, in_year - (153 * month + 2) / 5 + 1, 2);
    r10_log_put(line, "T", 1);
    r10_log_digits(line, second / 3600 % 24, 2);
    r10_log_put(line, ":", 1);
    r10_log_digits(line, second / 60 % 60, 2);
    r10_log_put(line, ":", 1);
    r10_log_digits(line, second % 60, 2);
    r10_log_put(line, ".", 1);
    r10_log_digits(line, time / 1000 % 1000000, 6);
    r10_log_put(line, "Z", 1);
}

/* Adds a key of small letters and `_`, and a value in UTF-8: as it is where it is a plain word, else in quotes as JSON has texts. One
 * of more than R10_LOG_VALUE bytes ends with `..` there. */
static inline void r10_log_text(r10_log *line, const char *key, const char *value) {
    static const char hex[] = "0123456789abcdef";
    size_t length = strlen(value), most = length;
    bool is_plain = length > 0;
    if (length > R10_LOG_VALUE) {
        most = R10_LOG_VALUE;
        while (most > 0 && ((unsigned char)value[most] & 0xC0) == 0x80)
            most--;
    }
    for (size_t at = 0; is_plain && at < most; at++) {
        char it = value[at];
        is_plain = (it >= '0' && it <= '9') || (it >= 'A' && it <= 'Z') || (it >= 'a' && it <= 'z') || strchr("._:+/,-", it) != NULL;
    }
    r10_log_put(line, " ", 1);
    r10_log_put(line, key, strlen(key));
    r10_log_put(line, is_plain ? "=" : "=\"", is_plain ? 1 : 2);
    for (size_t at = 0; at < most; at++) {
        unsigned char it = (unsigned char)value[at];
        char escape[6] = {'\\', 'u', '0', '0', hex[it >> 4], hex[it & 15]};
        if (it < 0x20)
            r10_log_put(line, escape, 6);
        else {
            if (it == '"' || it == '\\')
                r10_log_put(line, "\\", 1);
            r10_log_put(line, value + at, 1);
        }
    }
    if (most < length)
        r10_log_put(line, "..", 2);
    if (!is_plain)
        r10_log_put(line, "\"", 1);
}

/* Adds a key and a whole number. */
static inline void r10_log_number(r10_log *line, const char *key, uint64_t value) {
    r10_log_put(line, " ", 1);
    r10_log_put(line, key, strlen(key));
    r10_log_put(line, "=", 1);
    r10_log_digits(line, value, 1);
}

/* Offers the line as a message of a channel of kind message. R10_TOO_LONG of one in which a key had no room; else as
 * r10_offer_message. */
static inline uint32_t r10_log_offer(r10 *recorder, uint16_t channel, uint64_t count, const r10_log *line) {
    if (recorder == NULL)
        return R10_CLOSED;
    if (line == NULL)
        return R10_ROOM;
    if (line->is_full)
        return R10_TOO_LONG;
    return r10_offer_message(recorder, channel, count, false, false, 0, line->text, line->length);
}

/* ---- null pointers: from here on each call looks at them first. The library's own calls, which do not, have the names that end in
 * `_unchecked`: a compiler of another name than GCC or Clang has to define R10_UNCHECKED. */

#ifndef R10_UNCHECKED
/* clang-format off */
#define R10_SYMBOL(name) __asm__(#name)

extern uint32_t r10_check_script_unchecked(const void *script, size_t script_length, r10_script_info *info, void *text,
                                           size_t text_room) R10_SYMBOL(r10_check_script);
extern uint32_t r10_format_unchecked(r10_region region, size_t room, const void *script, size_t script_length,
                                     r10 *recorder) R10_SYMBOL(r10_format);
extern uint32_t r10_open_unchecked(r10_region region, size_t room, const void *script, size_t script_length,
                                   r10 *recorder) R10_SYMBOL(r10_open);
extern uint32_t r10_set_aside_unchecked(r10_region region, size_t room, const void *script, size_t script_length, r10 *recorder,
                                        bool *was_open) R10_SYMBOL(r10_set_aside);
extern uint32_t r10_orders_unchecked(r10 *recorder, r10_run_info *run, uint8_t *bytes, size_t byte_room) R10_SYMBOL(r10_orders);
extern uint32_t r10_order_unchecked(r10 *recorder, r10_order_info *order, uint8_t *bytes, size_t byte_room) R10_SYMBOL(r10_order);
extern uint32_t r10_queue_unchecked(r10 *recorder, r10_queue_info *info) R10_SYMBOL(r10_queue);
extern uint32_t r10_disk_failed_unchecked(r10 *recorder) R10_SYMBOL(r10_disk_failed);
extern void r10_close_unchecked(r10 *recorder) R10_SYMBOL(r10_close);
extern uint32_t r10_mount_unchecked(r10 *recorder) R10_SYMBOL(r10_mount);
extern uint32_t r10_dismount_unchecked(r10 *recorder) R10_SYMBOL(r10_dismount);
extern uint32_t r10_tick_unchecked(r10 *recorder, uint64_t count, const r10_civil *civil) R10_SYMBOL(r10_tick);
extern uint32_t r10_start_unchecked(r10 *recorder, const void *name, size_t name_length, const void *setup,
                                    size_t setup_length) R10_SYMBOL(r10_start);
extern uint32_t r10_pump_unchecked(r10 *recorder, uint16_t channel, size_t most, size_t *moved) R10_SYMBOL(r10_pump);
extern uint32_t r10_event_unchecked(r10 *recorder, uint16_t number, uint64_t count) R10_SYMBOL(r10_event);
extern uint32_t r10_commit_unchecked(r10 *recorder) R10_SYMBOL(r10_commit);
extern uint32_t r10_stop_unchecked(r10 *recorder, size_t *taken, size_t *left) R10_SYMBOL(r10_stop);
extern uint32_t r10_seal_unchecked(r10 *recorder) R10_SYMBOL(r10_seal);
extern uint32_t r10_erase_unchecked(r10 *recorder) R10_SYMBOL(r10_erase);
extern uint32_t r10_offer_uart_unchecked(r10 *recorder, uint16_t channel, uint64_t count, bool parity, uint16_t sub,
                                         const void *bytes, size_t length) R10_SYMBOL(r10_offer_uart);
extern uint32_t r10_offer_1553_unchecked(r10 *recorder, uint16_t channel, uint64_t count, uint16_t status, uint16_t gap,
                                         const uint16_t *words, size_t length) R10_SYMBOL(r10_offer_1553);
extern uint32_t r10_offer_arinc_unchecked(r10 *recorder, uint16_t channel, uint64_t count, uint8_t bus, bool format, bool parity,
                                          bool high, uint32_t word) R10_SYMBOL(r10_offer_arinc);
extern uint32_t r10_offer_discrete_unchecked(r10 *recorder, uint16_t channel, uint64_t count,
                                             uint32_t states) R10_SYMBOL(r10_offer_discrete);
extern uint32_t r10_offer_message_unchecked(r10 *recorder, uint16_t channel, uint64_t count, bool data_error, bool format,
                                            uint16_t sub, const void *bytes, size_t length) R10_SYMBOL(r10_offer_message);
extern uint32_t r10_lost_unchecked(r10 *recorder, uint16_t channel, uint64_t count) R10_SYMBOL(r10_lost);
extern uint32_t r10_port_open_unchecked(const void *script, size_t script_length, uint16_t channel, r10_port *port,
                                        r10_outlet *outlet) R10_SYMBOL(r10_port_open);
extern uint32_t r10_port_uart_unchecked(r10_port *port, uint64_t count, bool parity, uint16_t sub, const void *bytes,
                                        size_t length) R10_SYMBOL(r10_port_uart);
extern uint32_t r10_port_1553_unchecked(r10_port *port, uint64_t count, uint16_t status, uint16_t gap, const uint16_t *words,
                                        size_t length) R10_SYMBOL(r10_port_1553);
extern uint32_t r10_port_arinc_unchecked(r10_port *port, uint64_t count, uint8_t bus, bool format, bool parity, bool high,
                                         uint32_t word) R10_SYMBOL(r10_port_arinc);
extern uint32_t r10_port_discrete_unchecked(r10_port *port, uint64_t count, uint32_t states) R10_SYMBOL(r10_port_discrete);
extern uint32_t r10_port_message_unchecked(r10_port *port, uint64_t count, bool data_error, bool format, uint16_t sub,
                                           const void *bytes, size_t length) R10_SYMBOL(r10_port_message);
extern uint32_t r10_port_lost_unchecked(r10_port *port, uint64_t count) R10_SYMBOL(r10_port_lost);
extern uint32_t r10_port_state_unchecked(r10_port *port, r10_port_info *info) R10_SYMBOL(r10_port_state);
extern void r10_port_close_unchecked(r10_port *port) R10_SYMBOL(r10_port_close);
extern void r10_outlet_close_unchecked(r10_outlet *outlet) R10_SYMBOL(r10_outlet_close);
extern uint32_t r10_carry_one_unchecked(r10 *recorder, r10_outlet *outlet, bool *carried) R10_SYMBOL(r10_carry_one);
extern uint32_t r10_files_unchecked(r10 *recorder, size_t *count) R10_SYMBOL(r10_files);
extern uint32_t r10_file_unchecked(r10 *recorder, size_t number, r10_file_info *info, uint8_t *name,
                                   size_t name_room) R10_SYMBOL(r10_file);
extern uint32_t r10_status_unchecked(r10 *recorder, r10_status_info *info) R10_SYMBOL(r10_status);
extern uint32_t r10_fault_unchecked(r10 *recorder, r10_fault_info *info) R10_SYMBOL(r10_fault);
extern uint32_t r10_account_unchecked(r10 *recorder, size_t place, r10_account_info *info) R10_SYMBOL(r10_account);
extern uint32_t r10_losses_unchecked(r10 *recorder, size_t place, r10_losses_info *info) R10_SYMBOL(r10_losses);
extern uint32_t r10_take_waiting_unchecked(r10 *recorder, uint16_t channel, bool *there,
                                           r10_entry *entry) R10_SYMBOL(r10_take_waiting);
extern uint64_t r10_untold_unchecked(const r10_account_info *account, const r10_losses_info *losses, uint64_t found,
                                     uint64_t found_lost) R10_SYMBOL(r10_untold);
extern uint32_t r10_channel_unchecked(r10 *recorder, size_t place, r10_channel_info *info) R10_SYMBOL(r10_channel);
extern uint32_t r10_cursor_unchecked(r10 *recorder, size_t file, const uint16_t *channels, size_t channel_count, uint64_t from,
                                     uint64_t to, size_t *cursor) R10_SYMBOL(r10_cursor);
extern uint32_t r10_advance_unchecked(r10 *recorder, size_t cursor, size_t *queued) R10_SYMBOL(r10_advance);
extern uint32_t r10_next_unchecked(r10 *recorder, size_t cursor, bool *there, r10_entry *entry, uint8_t *bytes, size_t byte_room,
                                   uint16_t *words, size_t word_room) R10_SYMBOL(r10_next);
extern uint32_t r10_take_unchecked(r10 *recorder, size_t cursor, bool *there, r10_entry *entry) R10_SYMBOL(r10_take);
extern uint32_t r10_taken_unchecked(r10 *recorder, uint8_t *bytes, size_t byte_room, uint16_t *words,
                                    size_t word_room) R10_SYMBOL(r10_taken);
extern uint32_t r10_close_cursor_unchecked(r10 *recorder, size_t cursor) R10_SYMBOL(r10_close_cursor);
extern uint32_t r10_find_unchecked(r10 *recorder, size_t file, uint16_t channel, uint64_t count, bool *there, size_t *number,
                                   r10_entry *entry, uint8_t *bytes, size_t byte_room, uint16_t *words,
                                   size_t word_room) R10_SYMBOL(r10_find);
extern uint32_t r10_count_at_unchecked(r10 *recorder, size_t file, const r10_civil *civil, bool *there,
                                       uint64_t *count) R10_SYMBOL(r10_count_at);

static inline uint32_t r10_check_script(const void *script, size_t script_length, r10_script_info *info, void *text, size_t text_room) {
    if ((script == NULL && script_length > 0) || info == NULL || (text == NULL && text_room > 0))
        return R10_ROOM;
    return r10_check_script_unchecked(script, script_length, info, text, text_room);
}

static inline uint32_t r10_format(r10_region region, size_t room, const void *script, size_t script_length, r10 *recorder) {
    if (recorder == NULL)
        return R10_CLOSED;
    if ((region.at == NULL && region.blocks > 0) || (script == NULL && script_length > 0))
        return R10_ROOM;
    return r10_format_unchecked(region, room, script, script_length, recorder);
}

static inline uint32_t r10_open(r10_region region, size_t room, const void *script, size_t script_length, r10 *recorder) {
    if (recorder == NULL)
        return R10_CLOSED;
    if ((region.at == NULL && region.blocks > 0) || (script == NULL && script_length > 0))
        return R10_ROOM;
    return r10_open_unchecked(region, room, script, script_length, recorder);
}

static inline uint32_t r10_set_aside(r10_region region, size_t room, const void *script, size_t script_length, r10 *recorder,
                                     bool *was_open) {
    if (recorder == NULL)
        return R10_CLOSED;
    if ((region.at == NULL && region.blocks > 0) || (script == NULL && script_length > 0) || was_open == NULL)
        return R10_ROOM;
    return r10_set_aside_unchecked(region, room, script, script_length, recorder, was_open);
}

static inline uint32_t r10_orders(r10 *recorder, r10_run_info *run, uint8_t *bytes, size_t byte_room) {
    if (recorder == NULL)
        return R10_CLOSED;
    if (run == NULL || (bytes == NULL && byte_room > 0))
        return R10_ROOM;
    return r10_orders_unchecked(recorder, run, bytes, byte_room);
}

static inline uint32_t r10_order(r10 *recorder, r10_order_info *order, uint8_t *bytes, size_t byte_room) {
    if (recorder == NULL)
        return R10_CLOSED;
    if (order == NULL || (bytes == NULL && byte_room > 0))
        return R10_ROOM;
    return r10_order_unchecked(recorder, order, bytes, byte_room);
}

static inline uint32_t r10_queue(r10 *recorder, r10_queue_info *info) {
    if (recorder == NULL)
        return R10_CLOSED;
    if (info == NULL)
        return R10_ROOM;
    return r10_queue_unchecked(recorder, info);
}

static inline uint32_t r10_disk_failed(r10 *recorder) {
    if (recorder == NULL)
        return R10_CLOSED;
    return r10_disk_failed_unchecked(recorder);
}

static inline void r10_close(r10 *recorder) {
    if (recorder != NULL)
        r10_close_unchecked(recorder);
}

static inline uint32_t r10_mount(r10 *recorder) {
    if (recorder == NULL)
        return R10_CLOSED;
    return r10_mount_unchecked(recorder);
}

static inline uint32_t r10_dismount(r10 *recorder) {
    if (recorder == NULL)
        return R10_CLOSED;
    return r10_dismount_unchecked(recorder);
}

static inline uint32_t r10_tick(r10 *recorder, uint64_t count, const r10_civil *civil) {
    if (recorder == NULL)
        return R10_CLOSED;
    if (civil == NULL)
        return R10_ROOM;
    return r10_tick_unchecked(recorder, count, civil);
}

static inline uint32_t r10_start(r10 *recorder, const void *name, size_t name_length, const void *setup, size_t setup_length) {
    if (recorder == NULL)
        return R10_CLOSED;
    if ((name == NULL && name_length > 0) || (setup == NULL && setup_length > 0))
        return R10_ROOM;
    return r10_start_unchecked(recorder, name, name_length, setup, setup_length);
}

static inline uint32_t r10_pump(r10 *recorder, uint16_t channel, size_t most, size_t *moved) {
    if (recorder == NULL)
        return R10_CLOSED;
    if (moved == NULL)
        return R10_ROOM;
    return r10_pump_unchecked(recorder, channel, most, moved);
}

static inline uint32_t r10_event(r10 *recorder, uint16_t number, uint64_t count) {
    if (recorder == NULL)
        return R10_CLOSED;
    return r10_event_unchecked(recorder, number, count);
}

static inline uint32_t r10_commit(r10 *recorder) {
    if (recorder == NULL)
        return R10_CLOSED;
    return r10_commit_unchecked(recorder);
}

static inline uint32_t r10_stop(r10 *recorder, size_t *taken, size_t *left) {
    if (recorder == NULL)
        return R10_CLOSED;
    if (taken == NULL || left == NULL)
        return R10_ROOM;
    return r10_stop_unchecked(recorder, taken, left);
}

static inline uint32_t r10_seal(r10 *recorder) {
    if (recorder == NULL)
        return R10_CLOSED;
    return r10_seal_unchecked(recorder);
}

static inline uint32_t r10_erase(r10 *recorder) {
    if (recorder == NULL)
        return R10_CLOSED;
    return r10_erase_unchecked(recorder);
}

static inline uint32_t r10_offer_uart(r10 *recorder, uint16_t channel, uint64_t count, bool parity, uint16_t sub, const void *bytes,
                                      size_t length) {
    if (recorder == NULL)
        return R10_CLOSED;
    if (bytes == NULL && length > 0)
        return R10_ROOM;
    return r10_offer_uart_unchecked(recorder, channel, count, parity, sub, bytes, length);
}

static inline uint32_t r10_offer_1553(r10 *recorder, uint16_t channel, uint64_t count, uint16_t status, uint16_t gap,
                                      const uint16_t *words, size_t length) {
    if (recorder == NULL)
        return R10_CLOSED;
    if (words == NULL && length > 0)
        return R10_ROOM;
    return r10_offer_1553_unchecked(recorder, channel, count, status, gap, words, length);
}

static inline uint32_t r10_offer_arinc(r10 *recorder, uint16_t channel, uint64_t count, uint8_t bus, bool format, bool parity,
                                       bool high, uint32_t word) {
    if (recorder == NULL)
        return R10_CLOSED;
    return r10_offer_arinc_unchecked(recorder, channel, count, bus, format, parity, high, word);
}

static inline uint32_t r10_offer_discrete(r10 *recorder, uint16_t channel, uint64_t count, uint32_t states) {
    if (recorder == NULL)
        return R10_CLOSED;
    return r10_offer_discrete_unchecked(recorder, channel, count, states);
}

static inline uint32_t r10_offer_message(r10 *recorder, uint16_t channel, uint64_t count, bool data_error, bool format,
                                         uint16_t sub, const void *bytes, size_t length) {
    if (recorder == NULL)
        return R10_CLOSED;
    if (bytes == NULL && length > 0)
        return R10_ROOM;
    return r10_offer_message_unchecked(recorder, channel, count, data_error, format, sub, bytes, length);
}

static inline uint32_t r10_lost(r10 *recorder, uint16_t channel, uint64_t count) {
    if (recorder == NULL)
        return R10_CLOSED;
    return r10_lost_unchecked(recorder, channel, count);
}

static inline uint32_t r10_port_open(const void *script, size_t script_length, uint16_t channel, r10_port *port, r10_outlet *outlet) {
    if (port == NULL || outlet == NULL)
        return R10_CLOSED;
    if (script == NULL && script_length > 0)
        return R10_ROOM;
    return r10_port_open_unchecked(script, script_length, channel, port, outlet);
}

static inline uint32_t r10_port_uart(r10_port *port, uint64_t count, bool parity, uint16_t sub, const void *bytes, size_t length) {
    if (port == NULL)
        return R10_CLOSED;
    if (bytes == NULL && length > 0)
        return R10_ROOM;
    return r10_port_uart_unchecked(port, count, parity, sub, bytes, length);
}

static inline uint32_t r10_port_1553(r10_port *port, uint64_t count, uint16_t status, uint16_t gap, const uint16_t *words,
                                     size_t length) {
    if (port == NULL)
        return R10_CLOSED;
    if (words == NULL && length > 0)
        return R10_ROOM;
    return r10_port_1553_unchecked(port, count, status, gap, words, length);
}

static inline uint32_t r10_port_arinc(r10_port *port, uint64_t count, uint8_t bus, bool format, bool parity, bool high, uint32_t word) {
    if (port == NULL)
        return R10_CLOSED;
    return r10_port_arinc_unchecked(port, count, bus, format, parity, high, word);
}

static inline uint32_t r10_port_discrete(r10_port *port, uint64_t count, uint32_t states) {
    if (port == NULL)
        return R10_CLOSED;
    return r10_port_discrete_unchecked(port, count, states);
}

static inline uint32_t r10_port_message(r10_port *port, uint64_t count, bool data_error, bool format, uint16_t sub,
                                        const void *bytes, size_t length) {
    if (port == NULL)
        return R10_CLOSED;
    if (bytes == NULL && length > 0)
        return R10_ROOM;
    return r10_port_message_unchecked(port, count, data_error, format, sub, bytes, length);
}

static inline uint32_t r10_port_lost(r10_port *port, uint64_t count) {
    if (port == NULL)
        return R10_CLOSED;
    return r10_port_lost_unchecked(port, count);
}

static inline uint32_t r10_port_state(r10_port *port, r10_port_info *info) {
    if (port == NULL)
        return R10_CLOSED;
    if (info == NULL)
        return R10_ROOM;
    return r10_port_state_unchecked(port, info);
}

static inline void r10_port_close(r10_port *port) {
    if (port != NULL)
        r10_port_close_unchecked(port);
}

static inline void r10_outlet_close(r10_outlet *outlet) {
    if (outlet != NULL)
        r10_outlet_close_unchecked(outlet);
}

static inline uint32_t r10_carry_one(r10 *recorder, r10_outlet *outlet, bool *carried) {
    if (recorder == NULL || outlet == NULL)
        return R10_CLOSED;
    if (carried == NULL)
        return R10_ROOM;
    return r10_carry_one_unchecked(recorder, outlet, carried);
}

static inline uint32_t r10_files(r10 *recorder, size_t *count) {
    if (recorder == NULL)
        return R10_CLOSED;
    if (count == NULL)
        return R10_ROOM;
    return r10_files_unchecked(recorder, count);
}

static inline uint32_t r10_file(r10 *recorder, size_t number, r10_file_info *info, uint8_t *name, size_t name_room) {
    if (recorder == NULL)
        return R10_CLOSED;
    if (info == NULL || (name == NULL && name_room > 0))
        return R10_ROOM;
    return r10_file_unchecked(recorder, number, info, name, name_room);
}

static inline uint32_t r10_status(r10 *recorder, r10_status_info *info) {
    if (recorder == NULL)
        return R10_CLOSED;
    if (info == NULL)
        return R10_ROOM;
    return r10_status_unchecked(recorder, info);
}

static inline uint32_t r10_fault(r10 *recorder, r10_fault_info *info) {
    if (recorder == NULL)
        return R10_CLOSED;
    if (info == NULL)
        return R10_ROOM;
    return r10_fault_unchecked(recorder, info);
}

static inline uint32_t r10_account(r10 *recorder, size_t place, r10_account_info *info) {
    if (recorder == NULL)
        return R10_CLOSED;
    if (info == NULL)
        return R10_ROOM;
    return r10_account_unchecked(recorder, place, info);
}

static inline uint32_t r10_losses(r10 *recorder, size_t place, r10_losses_info *info) {
    if (recorder == NULL)
        return R10_CLOSED;
    if (info == NULL)
        return R10_ROOM;
    return r10_losses_unchecked(recorder, place, info);
}

static inline uint32_t r10_take_waiting(r10 *recorder, uint16_t channel, bool *there, r10_entry *entry) {
    if (recorder == NULL)
        return R10_CLOSED;
    if (there == NULL || entry == NULL)
        return R10_ROOM;
    return r10_take_waiting_unchecked(recorder, channel, there, entry);
}

static inline uint64_t r10_untold(const r10_account_info *account, const r10_losses_info *losses, uint64_t found, uint64_t found_lost) {
    return account == NULL || losses == NULL ? 0 : r10_untold_unchecked(account, losses, found, found_lost);
}

static inline uint32_t r10_channel(r10 *recorder, size_t place, r10_channel_info *info) {
    if (recorder == NULL)
        return R10_CLOSED;
    if (info == NULL)
        return R10_ROOM;
    return r10_channel_unchecked(recorder, place, info);
}

static inline uint32_t r10_cursor(r10 *recorder, size_t file, const uint16_t *channels, size_t channel_count, uint64_t from,
                                  uint64_t to, size_t *cursor) {
    if (recorder == NULL)
        return R10_CLOSED;
    if ((channels == NULL && channel_count > 0) || cursor == NULL)
        return R10_ROOM;
    return r10_cursor_unchecked(recorder, file, channels, channel_count, from, to, cursor);
}

static inline uint32_t r10_advance(r10 *recorder, size_t cursor, size_t *queued) {
    if (recorder == NULL)
        return R10_CLOSED;
    if (queued == NULL)
        return R10_ROOM;
    return r10_advance_unchecked(recorder, cursor, queued);
}

static inline uint32_t r10_next(r10 *recorder, size_t cursor, bool *there, r10_entry *entry, uint8_t *bytes, size_t byte_room,
                                uint16_t *words, size_t word_room) {
    if (recorder == NULL)
        return R10_CLOSED;
    if (there == NULL || entry == NULL || (bytes == NULL && byte_room > 0) || (words == NULL && word_room > 0))
        return R10_ROOM;
    return r10_next_unchecked(recorder, cursor, there, entry, bytes, byte_room, words, word_room);
}

static inline uint32_t r10_take(r10 *recorder, size_t cursor, bool *there, r10_entry *entry) {
    if (recorder == NULL)
        return R10_CLOSED;
    if (there == NULL || entry == NULL)
        return R10_ROOM;
    return r10_take_unchecked(recorder, cursor, there, entry);
}

static inline uint32_t r10_taken(r10 *recorder, uint8_t *bytes, size_t byte_room, uint16_t *words, size_t word_room) {
    if (recorder == NULL)
        return R10_CLOSED;
    if ((bytes == NULL && byte_room > 0) || (words == NULL && word_room > 0))
        return R10_ROOM;
    return r10_taken_unchecked(recorder, bytes, byte_room, words, word_room);
}

static inline uint32_t r10_close_cursor(r10 *recorder, size_t cursor) {
    if (recorder == NULL)
        return R10_CLOSED;
    return r10_close_cursor_unchecked(recorder, cursor);
}

static inline uint32_t r10_find(r10 *recorder, size_t file, uint16_t channel, uint64_t count, bool *there, size_t *number,
                                r10_entry *entry, uint8_t *bytes, size_t byte_room, uint16_t *words, size_t word_room) {
    if (recorder == NULL)
        return R10_CLOSED;
    if (there == NULL || number == NULL || entry == NULL || (bytes == NULL && byte_room > 0) || (words == NULL && word_room > 0))
        return R10_ROOM;
    return r10_find_unchecked(recorder, file, channel, count, there, number, entry, bytes, byte_room, words, word_room);
}

static inline uint32_t r10_count_at(r10 *recorder, size_t file, const r10_civil *civil, bool *there, uint64_t *count) {
    if (recorder == NULL)
        return R10_CLOSED;
    if (civil == NULL || there == NULL || count == NULL)
        return R10_ROOM;
    return r10_count_at_unchecked(recorder, file, civil, there, count);
}

#undef R10_SYMBOL
/* clang-format on */
#endif

#ifdef __cplusplus
}
#endif

/* A compiler that lays these out in another way must not use this library. */
#if defined(__cplusplus)
#define R10_SIZE(type, size) static_assert(sizeof(type) == (size), #type " has another size here")
#else
#define R10_SIZE(type, size) _Static_assert(sizeof(type) == (size), #type " has another size here")
#endif
R10_SIZE(size_t, 8);
R10_SIZE(bool, 1);
R10_SIZE(r10, 16);
R10_SIZE(r10_region, 16);
R10_SIZE(r10_civil, 14);
R10_SIZE(r10_entry, 64);
R10_SIZE(r10_file_info, 32);
R10_SIZE(r10_status_info, 40);
R10_SIZE(r10_channel_info, 32);
R10_SIZE(r10_account_info, 40);
R10_SIZE(r10_losses_info, 48);
R10_SIZE(r10_port, 16);
R10_SIZE(r10_outlet, 16);
R10_SIZE(r10_port_info, 32);
R10_SIZE(r10_order_info, 16);
R10_SIZE(r10_run_info, 24);
R10_SIZE(r10_queue_info, 24);
R10_SIZE(r10_fault_info, 16);
R10_SIZE(r10_script_info, 40);
#undef R10_SIZE
#undef R10_CALL
#undef R10_CHECKED

#endif
