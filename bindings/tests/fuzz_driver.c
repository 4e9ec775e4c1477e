/* Calls a fuzz target with randomly changed texts, in place of libFuzzer: `fuzz_driver SECONDS <LINES`. */
#include <stdint.h>
#include <stdio.h>
#include <stdlib.h>
#include <string.h>
#include <time.h>

int LLVMFuzzerTestOneInput(const uint8_t *data, size_t len);

enum { SEEDS = 4096, LONGEST = 512 };
static uint8_t seeds[SEEDS][LONGEST];
static size_t lens[SEEDS], count;

static uint64_t chance(uint64_t below) {
    static uint64_t state = 88172645463325252u;
    state ^= state << 13, state ^= state >> 7, state ^= state << 17;
    return state % below;
}

/* Reads the lines of the standard input, as many as the buffer holds, each after a byte 0 unless it begins with a
 * control character. */
static void read_seeds(void) {
    char line[LONGEST - 1];
    while (fgets(line, sizeof line, stdin)) {
        if (count == SEEDS) continue;
        size_t len = strcspn(line, "\n"), front = (unsigned char)line[0] >= 8;
        memcpy(seeds[count] + front, line, len);
        lens[count++] = front + len;
    }
}

/* Changes, removes or inserts a byte: one with a meaning in a location, or any. */
static size_t changed(uint8_t *data, size_t len) {
    static const char marks[] = ":/@[]%?#-~\\";
    size_t at = chance(len + 1);
    uint8_t byte = chance(2) ? (uint8_t)marks[chance(sizeof marks - 1)] : (uint8_t)chance(256);
    switch (chance(3)) {
    case 0:
        if (at == len) return len;
        memmove(data + at, data + at + 1, len - at - 1);
        return len - 1;
    case 1:
        if (len == LONGEST) return len;
        memmove(data + at + 1, data + at, len - at);
        data[at] = byte;
        return len + 1;
    default:
        if (at < len) data[at] = byte;
        return len;
    }
}

int main(int argc, char **argv) {
    time_t end = time(NULL) + (argc > 1 ? atoi(argv[1]) : 60);
    unsigned long runs = 0;
    read_seeds();
    while (count && time(NULL) < end) {
        uint8_t data[LONGEST];
        size_t seed = chance(count), len = lens[seed];
        memcpy(data, seeds[seed], len);
        for (uint64_t left = chance(8); left > 0; left--) len = changed(data, len);
        LLVMFuzzerTestOneInput(data, len);
        runs++;
    }
    printf("%lu runs\n", runs);
    return count == 0;
}
