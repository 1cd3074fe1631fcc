/* A UBF file: read whole, walked and listed. */
#include "loader.h"

static uint8_t file[524289]; /* one more than the largest has */
static size_t file_length;

static const char help[] =
    "usage: zrnkobal list FILE.ubf\n"
    "Lists the blocks of a UBF file, a line a block: type, address, length, start,\n"
    "texts and check; at a faulty block the reason and its place.\n"
    "\n"
    "  -h, --help   this text\n"
    "\n"
    "exit status: 0 the file is whole; 2 usage, or a faulty file\n";

/* A file that can't be read, or is larger than any that is taken, ends the program. */
void file_read(const char *name) {
    FILE *from = fopen(name, "rb");
    if (from != NULL) file_length = fread(file, 1, sizeof file, from);
    if (from == NULL || ferror(from)) exit(fail(WRONG, "%s: %s", name, strerror(errno)));
    if (file_length == sizeof file) exit(fail(WRONG, "%s: larger than 524,288 bytes, the largest file that is taken", name));
    fclose(from);
}

/* The n-th block, from 0: ZRN_FOUND, ZRN_PAST with how many there are, or a refusal with the place of the faulty one. */
uint8_t file_block(size_t n, struct block *block) {
    size_t at;
    uint8_t answer = zrn_ubf_block_at(file, file_length, n, &block->type, &block->length, &block->start, &block->check, &block->place,
                                      &block->count);
    block->bytes = file + block->place;
    block->left = file_length - block->place;
    zrn_type_address(block->type, &block->address);
    zrn_ubf_image(block->bytes, block->left, block->start, block->length, &at);
    block->image = block->bytes + at;
    return answer;
}

/* A text up to its first zero. A byte that no screen should get is a dot. */
static void show_text(const char *name, const struct block *block, size_t (*text)(const uint8_t *, size_t, size_t *)) {
    size_t place, length = text(block->bytes, block->left, &place);
    printf(", %s ", name);
    for (const uint8_t *c = block->bytes + place; length > 0 && *c != 0; c++, length--) putchar(*c < ' ' || *c > '~' ? '.' : *c);
}

static void show_block(size_t nth, const struct block *block) {
    printf("block %zu: %s, address 0x%08X, length %u, start %u", nth, kind_words(block->type), block->address, block->length, block->start);
    show_text("model", block, zrn_ubf_model);
    show_text("version", block, zrn_ubf_version);
    show_text("file", block, zrn_ubf_file_name);
    show_text("date", block, zrn_ubf_date);
    printf(", check 0x%08X\n", block->check);
}

int list_main(int argc, char **argv) {
    struct block block;
    uint8_t answer;
    take_options(argc, argv, "h", &(struct choice){0}, 1, help);
    file_read(argv[optind]);
    for (size_t n = 0; (answer = file_block(n, &block)) == ZRN_FOUND; n++) show_block(n + 1, &block);
    size_t good = block.count;
    if (answer == ZRN_PAST) return printf("%zu good, the file is whole\n", good), LOADED;
    printf("block %zu: %s, at byte %zu of the file\n%zu good before it\n", good + 1, refusal_words(answer), block.place, good);
    return WRONG;
}
