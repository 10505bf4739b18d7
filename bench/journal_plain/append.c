/* Appends the bytes of one read of standard input to a file, syncs it, and answers each line: the least work of any server with a journal. */
#include <fcntl.h>
#include <string.h>
#include <unistd.h>

static char piece[1 << 16], answers[4 << 16];

int main(int argc, char **argv) {
    int file = argc == 2 ? open(argv[1], O_WRONLY | O_CREAT | O_APPEND, 0644) : -1;
    ssize_t len;
    if (file < 0)
        return 2;
    while ((len = read(0, piece, sizeof piece)) > 0) {
        size_t count = 0, written = 0;
        if (write(file, piece, len) != len || fdatasync(file) != 0)
            return 1;
        for (ssize_t i = 0; i < len; i++)
            if (piece[i] == '\n') {
                memcpy(answers + count, "ok .\n", 5);
                count += 5;
            }
        while (written < count) {
            ssize_t put = write(1, answers + written, count - written);
            if (put <= 0)
                return 1;
            written += put;
        }
    }
    return len < 0;
}
