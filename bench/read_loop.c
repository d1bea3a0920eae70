/* Opens a file, reads its last sector and closes it, as often as asked: what 100,000 reads of a device cost at least. */
#include <fcntl.h>
#include <stdio.h>
#include <stdlib.h>
#include <unistd.h>

int main(int argc, char **argv) {
    if (argc != 4) {
        fprintf(stderr, "usage: read_loop FILE SECTOR TIMES\n");
        return 2;
    }
    off_t at = (off_t)strtoull(argv[2], NULL, 10) * 512;
    unsigned long times = strtoul(argv[3], NULL, 10);
    char sector[512];
    for (unsigned long i = 0; i < times; i++) {
        int file = open(argv[1], O_RDONLY | O_CLOEXEC);
        if (file < 0 || lseek(file, at, SEEK_SET) != at || read(file, sector, sizeof sector) != sizeof sector) {
            perror(argv[1]);
            return 1;
        }
        close(file);
    }
    return 0;
}
