/* To be preloaded before a node (examples/failed-sync): keeps beside the folder FOLDER, in the folder KEPT, what a loss of power would leave of it, as
   Linux has it. What is written is in memory, page by page, until the file is synced; a sync that fails leaves its pages readable and calls them
   written. Of the folder itself a sync keeps which name has which file. KEPT/N.data is what is kept of the file with the number N, KEPT/N.waits has a
   byte for each of its pages, 1 where it waits for a sync, and KEPT/names the names with their numbers. Where KEPT/fail holds a number, the
   sync of a file that comes as that one fails. One process at a time. */
#define _GNU_SOURCE
#include <dirent.h>
#include <dlfcn.h>
#include <errno.h>
#include <fcntl.h>
#include <limits.h>
#include <stdio.h>
#include <stdlib.h>
#include <string.h>
#include <sys/stat.h>
#include <unistd.h>

enum { PAGE = 4096 };

static const char *folder, *kept;
static int (*real_open)(const char *, int, ...);
static ssize_t (*real_pwrite)(int, const void *, size_t, off_t);
static int (*real_sync)(int), (*real_data_sync)(int);

__attribute__((constructor)) static void begin(void) {
    folder = getenv("FOLDER");
    kept = getenv("KEPT");
    real_open = dlsym(RTLD_NEXT, "open");
    real_pwrite = dlsym(RTLD_NEXT, "pwrite");
    real_sync = dlsym(RTLD_NEXT, "fsync");
    real_data_sync = dlsym(RTLD_NEXT, "fdatasync");
}

/* Whether it is a file in the folder, or the folder itself. */
static int is_kept(int fd, struct stat *of) {
    char link[64], path[PATH_MAX];
    if (!folder || !kept || fstat(fd, of)) {
        return 0;
    }
    snprintf(link, sizeof link, "/proc/self/fd/%d", fd);
    ssize_t length = readlink(link, path, sizeof path - 1);
    if (length < 0) {
        return 0;
    }
    path[length] = 0;
    size_t root = strlen(folder);
    return !strncmp(path, folder, root) && (path[root] == '/' || !path[root]);
}

static int side_file(ino_t number, const char *kind) {
    char path[PATH_MAX];
    snprintf(path, sizeof path, "%s/%lu.%s", kept, (unsigned long)number, kind);
    return real_open(path, O_RDWR | O_CREAT, 0600);
}

static void note_write(int fd, off_t at, size_t count) {
    struct stat of;
    if (!count || !is_kept(fd, &of)) {
        return;
    }
    int waits = side_file(of.st_ino, "waits");
    for (off_t page = at / PAGE; page <= (off_t)(at + count - 1) / PAGE; page++) {
        real_pwrite(waits, "\1", 1, page);
    }
    close(waits);
}

ssize_t pwrite(int fd, const void *bytes, size_t count, off_t at) {
    ssize_t written = real_pwrite(fd, bytes, count, at);
    if (written > 0) {
        note_write(fd, at, written);
    }
    return written;
}

ssize_t pwrite64(int fd, const void *bytes, size_t count, off_t at) {
    return pwrite(fd, bytes, count, at);
}

/* Whether this sync is to fail. */
static int fails(void) {
    char path[PATH_MAX];
    int number;
    snprintf(path, sizeof path, "%s/fail", kept);
    FILE *file = fopen(path, "r+");
    if (!file) {
        return 0;
    }
    if (fscanf(file, "%d", &number) != 1 || number < 1) {
        number = 1;
    }
    rewind(file);
    fprintf(file, "%d\n", number - 1);
    fclose(file);
    if (number > 1) {
        return 0;
    }
    unlink(path);
    return 1;
}

/* The pages that wait are kept, or where the sync fails they only wait no more. */
static void settle(int fd, const struct stat *of, int is_good) {
    char page[PAGE], mark;
    int waits = side_file(of->st_ino, "waits"), data = side_file(of->st_ino, "data");
    for (off_t number = 0; pread(waits, &mark, 1, number) == 1; number++) {
        if (!mark) {
            continue;
        }
        ssize_t count = is_good ? pread(fd, page, PAGE, number * PAGE) : 0;
        if (count > 0) {
            real_pwrite(data, page, count, number * PAGE);
        }
    }
    if (is_good && ftruncate(data, of->st_size)) {
        perror("pages");
    }
    if (ftruncate(waits, 0)) {
        perror("pages");
    }
    close(data);
    close(waits);
}

static int is_named(ino_t number) {
    char path[PATH_MAX], name[NAME_MAX + 1];
    unsigned long found;
    int is = 0;
    snprintf(path, sizeof path, "%s/names", kept);
    FILE *names = fopen(path, "r");
    while (names && !is && fscanf(names, "%255s %lu", name, &found) == 2) {
        is = found == number;
    }
    if (names) {
        fclose(names);
    }
    return is;
}

/* Keeps the names of the folder, and forgets the files that have none any more: their numbers may be given again. */
static void keep_names(void) {
    char path[PATH_MAX];
    struct dirent *entry;
    snprintf(path, sizeof path, "%s/names", kept);
    FILE *names = fopen(path, "w");
    DIR *listed = opendir(folder);
    while (names && listed && (entry = readdir(listed))) {
        if (entry->d_name[0] != '.') {
            fprintf(names, "%s %lu\n", entry->d_name, (unsigned long)entry->d_ino);
        }
    }
    if (names) {
        fclose(names);
    }
    if (listed) {
        closedir(listed);
    }
    DIR *all = opendir(kept);
    while (all && (entry = readdir(all))) {
        unsigned long number = strtoul(entry->d_name, NULL, 10);
        if (number && !is_named(number)) {
            snprintf(path, sizeof path, "%s/%s", kept, entry->d_name);
            unlink(path);
        }
    }
    if (all) {
        closedir(all);
    }
}

static int sync_by(int fd, int (*real)(int)) {
    struct stat of;
    if (!is_kept(fd, &of)) {
        return real(fd);
    }
    if (S_ISDIR(of.st_mode)) {
        keep_names();
        return real(fd);
    }
    if (fails()) {
        settle(fd, &of, 0);
        errno = EIO;
        return -1;
    }
    settle(fd, &of, 1);
    return real(fd);
}

int fsync(int fd) {
    return sync_by(fd, real_sync);
}

int fdatasync(int fd) {
    return sync_by(fd, real_data_sync);
}
