/* Makes 100 directories of 100 files with 100 bytes each in a new folder, and syncs every file, every
   directory and the folder: what `host_tools build` is compared with. Prints the milliseconds. */
#include <fcntl.h>
#include <stdio.h>
#include <stdlib.h>
#include <string.h>
#include <sys/stat.h>
#include <time.h>
#include <unistd.h>

static void fail(const char *what)
{
    perror(what);
    exit(1);
}

static void sync_dir(const char *path)
{
    int fd = open(path, O_RDONLY | O_DIRECTORY);
    if (fd < 0 || fsync(fd) != 0)
        fail(path);
    close(fd);
}

static void make_file(const char *path, const char *bytes, size_t size)
{
    int fd = open(path, O_WRONLY | O_CREAT | O_EXCL, 0644);
    if (fd < 0 || write(fd, bytes, size) != (ssize_t)size || fsync(fd) != 0)
        fail(path);
    close(fd);
}

int main(int argc, char **argv)
{
    char path[4096], bytes[100];
    struct timespec start, end;
    if (argc != 2)
        return 2;
    memset(bytes, 'x', sizeof bytes);
    if (mkdir(argv[1], 0755) != 0)
        fail(argv[1]);
    clock_gettime(CLOCK_MONOTONIC, &start);
    for (int d = 0; d < 100; d++) {
        snprintf(path, sizeof path, "%s/d%02d", argv[1], d);
        if (mkdir(path, 0755) != 0)
            fail(path);
        for (int f = 0; f < 100; f++) {
            snprintf(path, sizeof path, "%s/d%02d/f%02d", argv[1], d, f);
            make_file(path, bytes, sizeof bytes);
        }
        snprintf(path, sizeof path, "%s/d%02d", argv[1], d);
        sync_dir(path);
    }
    sync_dir(argv[1]);
    clock_gettime(CLOCK_MONOTONIC, &end);
    printf("%ld\n", (end.tv_sec - start.tv_sec) * 1000 + (end.tv_nsec - start.tv_nsec) / 1000000);
    return 0;
}
