/* Loads the blocks of a UBF file into a simulated flash: a caller and a post of the library, joined by a line that is two arrays.
 *
 *     gcc -Iinclude examples/load.c target/archive/libexports.a -o load && ./load FILE.ubf */
#include <stdio.h>
#include <string.h>

#include "zrnkobal.h"

#define FLASH 262144
#define LARGEST 524288
#define PIECE 1024
#define LINE 8192 /* more than what one answer after another brings to be sent */

/* One way of the line: what was sent and the other end has not heard yet. Whatever is sent is put behind it, so no message is lost. */
struct way {
    uint8_t bytes[LINE];
    size_t count;
};

static uint8_t flash[FLASH], before[FLASH], file[LARGEST + 1];
static uint8_t post[ZRN_POST_BYTES], caller[ZRN_CALLER_BYTES];
static struct way to_post, to_caller;

static void say_refusal(uint8_t number) {
    uint8_t words[64];
    size_t n = zrn_words(number, words, sizeof words);
    printf("refused %d, %.*s", number, (int)n, (const char *)words);
}

static int goes_on(uint8_t answer) { return answer == ZRN_NOTHING || answer == ZRN_WRITTEN; }

static void post_hears(void) {
    size_t count;
    for (size_t i = 0; i < to_post.count; i++) {
        zrn_post_hear(post, sizeof post, to_post.bytes[i], flash, sizeof flash, to_caller.bytes + to_caller.count,
                      LINE - to_caller.count, &count);
        to_caller.count += count;
    }
    to_post.count = 0;
}

/* The caller hears the replies to their end; if there are none, time passes, and it sends again or gives up. */
static uint8_t caller_hears(const uint8_t *image, size_t length, uint8_t *passed) {
    uint8_t answer = ZRN_NOTHING;
    size_t count;
    for (size_t i = 0; i < to_caller.count && goes_on(answer); i++) {
        answer = zrn_caller_hear(caller, sizeof caller, to_caller.bytes[i], image, length, to_post.bytes + to_post.count,
                                 LINE - to_post.count, &count, passed);
        to_post.count += count;
    }
    if (to_caller.count == 0) {
        answer = zrn_caller_wait(caller, sizeof caller, 1000, image, length, to_post.bytes, LINE, &count, passed);
        to_post.count = count;
    }
    to_caller.count = 0;
    return answer;
}

/* Loads one block. Answers whether the load is done and the flash is right. */
static int load(uint16_t type, const uint8_t *image, size_t length) {
    size_t accepted, total, resent, dropped, shown = 0;
    uint8_t passed = 0, rate;
    uint32_t base;
    zrn_type_address(type, &base);
    memcpy(before, flash, sizeof flash);
    zrn_post_new(post, sizeof post);
    to_caller.count = 0;
    uint8_t answer = zrn_caller_open(caller, sizeof caller, type, image, length, 5, PIECE, 1, 1, to_post.bytes, LINE, &to_post.count);
    while (goes_on(answer)) {
        post_hears();
        answer = caller_hears(image, length, &passed);
        zrn_caller_view(caller, sizeof caller, &rate, &accepted, &total, &resent, &dropped);
        if (total != 0 && accepted * 4 / total > shown) {
            shown = accepted * 4 / total;
            printf("  packet %zu of %zu\n", accepted, total);
        }
    }
    post_hears(); /* the restart frame of 21 and 22 */
    if (answer != ZRN_DONE) {
        printf("  ");
        say_refusal(answer);
        if (answer >= 21) printf(", byte %d passed on", passed);
        printf("\n");
        return 0;
    }
    memcpy(before + base, image, length);
    int right = memcmp(before, flash, sizeof flash) == 0;
    printf("  done; %s\n", right ? "the range holds the image; all else is untouched" : "WRONG: the flash is not as it should be");
    return right;
}

int main(int argc, char **argv) {
    FILE *f = argc == 2 ? fopen(argv[1], "rb") : NULL;
    if (f == NULL) {
        fprintf(stderr, argc == 2 ? "load: %s can't be read\n" : "usage: load FILE.ubf\n", argc == 2 ? argv[1] : "");
        return 2;
    }
    size_t n = fread(file, 1, sizeof file, f);
    fclose(f);
    if (n > LARGEST) {
        fprintf(stderr, "load: %s is larger than %d bytes\n", argv[1], LARGEST);
        return 2;
    }
    memset(flash, 0xFF, sizeof flash);
    for (size_t i = 0;; i++) {
        uint16_t type;
        uint32_t length, start, check;
        size_t place, count, at;
        uint8_t answer = zrn_ubf_block_at(file, n, i, &type, &length, &start, &check, &place, &count);
        if (answer == ZRN_PAST) {
            printf("%zu of %zu blocks loaded\n", i, count);
            return 0;
        }
        if (answer != ZRN_FOUND) {
            printf("block %zu: ", i + 1);
            say_refusal(answer);
            printf(", at byte %zu of the file\n", place);
            return 1;
        }
        printf("block %zu: type %d, length %u\n", i + 1, type, (unsigned)length);
        zrn_ubf_image(file + place, n - place, start, length, &at);
        if (!load(type, file + place + at, length)) return 1;
    }
}
