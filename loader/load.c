/* The blocks of a UBF file, one after another. */
#include "loader.h"

static const char help[] =
    "usage: zrnkobal load [options] PORT FILE.ubf\n"
    "Checks the file, opens the serial port and loads every block into the module.\n"
    "\n"
    "  -b, --baud RATE     the rate that the module has now: 4800 to 115200 (9600)\n"
    "  -r, --rate RATE     the highest rate asked for: 9600 to 115200 (115200)\n"
    "  -p, --piece BYTES   bytes a packet, 1 to 1024 (1024, or less at a low rate)\n"
    "  -s, --skip-start    the module is in its upgrade session: no start text\n"
    "  -o, --stop-same     stop if the module has the same version (it goes on)\n"
    "  -v, --verbose       what was resent or dropped, and why, on standard error\n"
    "  -h, --help          this text\n"
    "\n"
    "Ctrl-C restarts the module and gives the port back as it was.\n"
    "exit status: 0 all blocks loaded\n"
    "             1 refused, by the module or for want of an answer\n"
    "             2 usage, or a faulty file: nothing is sent\n"
    "             3 the port; 130 Ctrl-C\n"
    "\n"
    "  zrnkobal load /dev/ttyUSB0 app.ubf\n";

/* A block that is not done is the last one. */
static int load_blocks(struct talk *talk) {
    size_t packets = 0, resent = 0;
    int64_t begun = clock_us();
    for (talk->nth = 1; talk->nth <= talk->blocks; talk->nth++) {
        file_block(talk->nth - 1, &talk->block);
        printf("block %zu of %zu: %s, address 0x%08X, length %u\n", talk->nth, talk->blocks, kind_words(talk->block.type),
               talk->block.address, talk->block.length);
        fflush(stdout);
        uint8_t answer = talk_block(talk);
        packets += talk->accepted;
        resent += talk->resent_before + talk->resent;
        say_end_line();
        if (answer != ZRN_DONE) return say_failure(talk, answer), REFUSED;
    }
    printf("%zu of %zu blocks loaded: %zu packets, %zu resent, %.1f s\n", talk->blocks, talk->blocks, packets, resent,
           (double)(clock_us() - begun) / 1e6);
    return LOADED;
}

/* Nothing is sent of a file that has a faulty block. */
int load_main(int argc, char **argv) {
    static struct talk talk = {.base = 9600, .top = 115200};
    const struct choice choices[] = {
        {'b', "baud", &talk.base, 4800, 115200}, {'r', "rate", &talk.top, 9600, 115200}, {'p', "piece", &talk.piece, 1, 1024},
        {'s', "skip-start", &talk.skip, 1, 1},   {'o', "stop-same", &talk.stop_same, 1, 1}, {'v', "verbose", &talk.loud, 1, 1}, {0}};
    take_options(argc, argv, "b:r:p:sovh", choices, 2, help);
    rate_number(talk.base);
    rate_number(talk.top);
    const char *name = argv[optind + 1];
    file_read(name);
    uint8_t answer = file_block(SIZE_MAX, &talk.block);
    talk.blocks = talk.block.count;
    if (answer != ZRN_PAST)
        return fail(WRONG, "%s: block %zu: %s, at byte %zu of the file; nothing was sent", name, talk.blocks + 1, refusal_words(answer),
                    talk.block.place);
    catch_signals();
    port_open(&talk.port, argv[optind], talk.base);
    int status = load_blocks(&talk);
    port_close(&talk.port);
    return status;
}
