/* The floor of an acknowledged chunk: for each line of the input the calls of one commit, and an answer. The line is written at the end of
   the log; then the other slot of the mark is closed, written and opened, with a sync after each write. With a number behind the folder, each
   so many bytes are a group, in place of a line. */
#include <fcntl.h>
#include <stdio.h>
#include <stdlib.h>
#include <string.h>
#include <unistd.h>

enum { SLOT = 64, PAYLOAD = 43, MARK = 128, MOST = 1 << 20 };

static int opened(const char *folder, const char *name) {
    char path[4096];
    snprintf(path, sizeof path, "%s/%s", folder, name);
    return open(path, O_RDWR | O_CREAT | O_TRUNC, 0644);
}

static int written(int file, const void *piece, size_t size, off_t at) {
    return pwrite(file, piece, size, at) == (ssize_t)size && fsync(file) == 0;
}

static int committed(int mark, off_t other) {
    char slots[MARK] = {0}, payload[PAYLOAD] = {0};
    if (pread(mark, slots, MARK, 0) != MARK) return 0;
    if (slots[other] == '!' && pwrite(mark, "", 1, other) != 1) return 0;
    return fsync(mark) == 0 && written(mark, payload, PAYLOAD, other + 1) && written(mark, "!", 1, other);
}

int main(int argc, char **argv) {
    static char buffer[65536], line[MOST];
    char zeros[MARK] = {0};
    size_t held = 0, group = argc > 2 ? (size_t)atol(argv[2]) : 0;
    off_t end = 0, other = SLOT;
    int mark = argc > 1 ? opened(argv[1], "mark") : -1;
    int log = argc > 1 ? opened(argv[1], "log0") : -1;
    if (mark < 0 || log < 0 || !written(mark, zeros, MARK, 0)) return 2;
    for (;;) {
        ssize_t count = read(0, buffer, sizeof buffer);
        if (count < 0) return 3;
        if (count == 0) return held == 0 || (written(log, line, held, end) && committed(mark, other)) ? 0 : 5;
        for (ssize_t i = 0; i < count; i++) {
            if (held < sizeof line) line[held++] = buffer[i];
            if (group ? held < group : buffer[i] != '\n') continue;
            if (!written(log, line, held, end) || !committed(mark, other)) return 5;
            end += held;
            held = 0;
            other = SLOT - other;
            if (write(1, "ok\n", 3) != 3) return 4;
        }
    }
}
