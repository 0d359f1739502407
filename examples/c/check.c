/* Says of each file whether it has a normal form, and its sum.
 *
 *     cc check.c $(pkg-config --cflags --libs mp4norm) -o check && ./check movie.mp4
 */
#include <mp4norm.h>
#include <stdio.h>
#include <stdlib.h>

int main(int count, char **names) {
    int status = 0;
    for (int k = 1; k < count; k++) {
        FILE *file = fopen(names[k], "rb");
        if (file == NULL || fseek(file, 0, SEEK_END) != 0) return perror(names[k]), 3;
        size_t len = (size_t)ftell(file);
        uint8_t *bytes = malloc(len + 1);
        rewind(file);
        if (bytes == NULL || fread(bytes, 1, len, file) != len) return perror(names[k]), 3;
        struct mp4norm_digest digest;
        struct mp4norm_answer answer;
        mp4norm_sum(bytes, len, 0, &digest, &answer);
        if (answer.status == MP4NORM_DONE) {
            for (int i = 0; i < 32; i++) printf("%02x", digest.bytes[i]);
            printf("  %s\n", names[k]);
        } else {
            printf("status %u, kind %u at %llu: %s\n", answer.status, answer.kind,
                   (unsigned long long)answer.offset, names[k]);
            status = 1;
        }
        free(bytes);
        fclose(file);
    }
    return status;
}
