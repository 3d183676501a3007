/* Records of images that passed all tests. A false record could make this process read outside an
   image. So a record is believed only if nobody but root and the effective user can have written it
   or the image. docs/C_API.md has the rules for users. */
#include "library.h"
#include <fcntl.h>
#include <inttypes.h>
#include <limits.h>
#include <stdio.h>
#include <stdlib.h>
#include <string.h>
#include <sys/statvfs.h>
#include <sys/sysmacros.h>
#include <sys/vfs.h>
#include <unistd.h>

static const char IMAGE_END[] = ".img", RECORD_END[] = ".tested";

/* A record ends with `sha256 `, DIGITS digits and a line feed. The whole text has less than
   RECORD_MOST bytes. */
enum { DIGITS = 64, RECORD_MOST = 512, LAYOUT_RECORDED = 3 };

/* The numbers that statfs returns for file systems on local disks or in memory, which keep owners,
   inodes and times as they were set here. */
static const uint32_t LOCAL[] = {
    0xef53,     /* ext2, ext3, ext4 */
    0x58465342, /* XFS */
    0x9123683e, /* Btrfs */
    0x01021994, /* tmpfs */
    0x794c7630, /* overlayfs */
    0xf2f52010, /* F2FS */
    0x2fc12fc1, /* ZFS */
    0x73717368, /* squashfs */
    0xe0f5e1e2, /* EROFS */
};

/* Returns whether a file is on such a file system, which isn't mounted nosuid either. A medium that
   a stranger made may show any owner, inode and time, and is mounted nosuid for the same reason. */
static bool is_local(int file) {
    struct statfs on;
    if (fstatfs(file, &on) != 0 || (on.f_flags & ST_NOSUID) != 0) return false;
    for (size_t i = 0; i < sizeof LOCAL / sizeof *LOCAL; i++) {
        if ((uint32_t)on.f_type == LOCAL[i]) return true;
    }
    return false;
}

/* Returns whether only root and the effective user can have written an open file or directory. */
static bool is_own(int file, const struct stat *of) {
    bool is_owner = of->st_uid == 0 || of->st_uid == geteuid();
    return is_owner && (of->st_mode & (S_IWGRP | S_IWOTH)) == 0 && is_local(file);
}

/* Writes the name of the record of the image file `image`. Returns false if it is too long. */
static bool name_record(const char *image, char *name, size_t room) {
    size_t length = strlen(image), end = strlen(IMAGE_END);
    bool is_cut = length > end && strcmp(image + length - end, IMAGE_END) == 0;
    int written =
        snprintf(name, room, "%.*s%s", (int)(is_cut ? length - end : length), image, RECORD_END);
    return written > 0 && (size_t)written < room;
}

/* Writes the text of a record for an image in the state `of`, up to the digits of its checksum.
   Returns its length, or 0 if it is too long. */
static size_t expect(const struct stat *of, char *text, size_t room) {
    int written =
        snprintf(text, room,
                 "kumquatsieve-tested 1\ndevice %u:%u\ninode %ju\nsize %jd\nmtime %jd.%09ld\n"
                 "ctime %jd.%09ld\nsha256 ",
                 major(of->st_dev), minor(of->st_dev), (uintmax_t)of->st_ino, (intmax_t)of->st_size,
                 (intmax_t)of->st_mtim.tv_sec, of->st_mtim.tv_nsec, (intmax_t)of->st_ctim.tv_sec,
                 of->st_ctim.tv_nsec);
    return written > 0 && (size_t)written < room ? (size_t)written : 0;
}

/* Returns whether `text` is exactly the text of a record for an image in the state `of`. */
static bool is_record_of(const char *text, size_t length, const struct stat *of) {
    char wanted[RECORD_MOST];
    size_t start = expect(of, wanted, sizeof wanted);
    if (start == 0 || length != start + DIGITS + 1 || memcmp(text, wanted, start) != 0)
        return false;
    return strspn(text + start, "0123456789abcdef") == DIGITS && text[length - 1] == '\n';
}

/* Returns whether an open record is for an image in the state `image`, and can be believed. */
static bool is_believed(int record, const struct stat *image) {
    char text[RECORD_MOST + 1];
    struct stat of;
    if (state_of(record, &of) != 0 || !S_ISREG(of.st_mode) || !is_own(record, &of)) return false;
    ssize_t got = pread(record, text, RECORD_MOST, 0);
    if (got <= 0) return false;
    text[got] = 0;
    return is_record_of(text, (size_t)got, image);
}

/* Returns whether there is such a record beside the image `name`. Doesn't wait for a pipe or a
   device. */
static bool is_recorded(int directory, const char *name, const struct stat *of) {
    char record_name[NAME_MAX + 1];
    if (!name_record(name, record_name, sizeof record_name)) return false;
    int record =
        openat(directory, record_name, O_RDONLY | O_NOFOLLOW | O_NONBLOCK | O_NOCTTY | O_CLOEXEC);
    bool is_found = record >= 0 && is_believed(record, of);
    if (record >= 0) close(record);
    return is_found;
}

bool has_record(int directory, const char *name, int image, const struct stat *of,
                uint64_t layout) {
    const char *trust = getenv("KUMQUATSIEVE_TRUST");
    struct stat around;
    if (trust && strcmp(trust, "never") == 0) return false;
    if (directory < 0 || layout != LAYOUT_RECORDED || !S_ISREG(of->st_mode) || !is_own(image, of))
        return false;
    if (state_of(directory, &around) != 0 || !is_own(directory, &around)) return false;
    return is_recorded(directory, name, of);
}
