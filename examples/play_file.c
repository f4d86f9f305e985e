/* Plays the script in a file of at most 1 MiB and writes the text that axs writes. Exits with 0, with 1 where the script is bad, and with
 * 2 where there is no such file, it is larger or can't be read, or the text can't be written. */
#include <stdio.h>
#include "pipeteasel.h"

int main(int argc, char **argv)
{
    /* one byte more than a script may have: where that one comes too, the file is too large, and no part of it is played */
    static uint8_t script[(1 << 20) + 1], text[1024];
    uint32_t answer[8];
    FILE *file = argc > 1 ? fopen(argv[1], "rb") : NULL;
    size_t n;

    if (file == NULL)
        return 2;
    n = fread(script, 1, sizeof script, file);
    if (n == sizeof script || ferror(file)) {
        fprintf(stderr, "play_file: %s is larger than 1 MiB, or can't be read\n", argv[1]);
        return 2;
    }
    fclose(file);
    pt_play(script, n, text, sizeof text, answer);
    if (fwrite(text, 1, answer[3], stdout) != answer[3] || fflush(stdout) != 0)
        return 2;
    return answer[4] == 1 ? 0 : 1;
}
