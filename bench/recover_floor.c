/* Makes device calls that are listed on its input, one on each line: `read` or `write`, the name of a file of the folder, the
   first byte and how many. Each call opens its file and closes it, and a write is synced, as the program makes them: what they
   cost at least. Calls write what was read last. */
#include <fcntl.h>
#include <stdio.h>
#include <stdlib.h>
#include <string.h>
#include <unistd.h>

enum { MOST = 1 << 20 };

static char bytes[MOST];

static int call(int writes, const char *path, off_t at, size_t size) {
    int file = open(path, O_RDWR | O_NOCTTY | O_CLOEXEC);
    if (file < 0 || size > MOST) return -1;
    ssize_t done = writes ? pwrite(file, bytes, size, at) : pread(file, bytes, size, at);
    if (done != (ssize_t)size || (writes && fdatasync(file) < 0)) return -1;
    return close(file);
}

int main(int argc, char **argv) {
    if (argc != 2) {
        fprintf(stderr, "usage: recover_floor FOLDER <CALLS\n");
        return 2;
    }
    char verb[8], name[64], path[4096];
    long long at;
    size_t size;
    while (scanf("%7s %63s %lld %zu", verb, name, &at, &size) == 4) {
        snprintf(path, sizeof path, "%s/%s", argv[1], name);
        if (call(strcmp(verb, "write") == 0, path, at, size) < 0) {
            perror(path);
            return 1;
        }
    }
    return 0;
}
