/* Words for a person: progress on standard output, details and failures on standard error. */
#include "loader.h"

#define SHOW_US 200000 /* between two looks of the progress line */

static bool standing; /* a progress line stands on the screen */

const char *kind_words(uint16_t type) {
    static const char *const words[] = {"unknown", "navigation code", "upgrade code", "working parameters"};
    return words[type <= 3 ? type : 0];
}

const char *refusal_words(uint8_t number) {
    static char words[96];
    uint8_t text[64];
    snprintf(words, sizeof words, "refused %d, %.*s", number, (int)zrn_words(number, text, sizeof text), (const char *)text);
    return words;
}

/* What is said next begins a line of its own. */
void say_end_line(void) {
    if (standing) putchar('\n');
    standing = false;
    fflush(stdout);
}

/* A line on standard error; answers the status. */
int fail(int status, const char *format, ...) {
    va_list values;
    va_start(values, format);
    say_end_line();
    fputs("zrnkobal: ", stderr);
    vfprintf(stderr, format, values);
    fputc('\n', stderr);
    va_end(values);
    return status;
}

/* How far the block is: a terminal has one line, rewritten five times a second; elsewhere there is a line a tenth. */
void say_progress(const struct talk *talk) {
    static size_t block, shown;
    bool terminal = isatty(STDOUT_FILENO);
    double seconds = (double)(clock_us() - talk->began) / 1e6 + 1e-6;
    double part = talk->total == 0 ? 0 : (double)talk->accepted / (double)talk->total;
    size_t now = terminal && part < 1 ? (size_t)(clock_us() / SHOW_US) : (size_t)(part * 10);
    if (now == (block == talk->nth || terminal ? shown : 0)) return;
    block = talk->nth;
    shown = now;
    standing = terminal;
    if (terminal) putchar('\r');
    if (talk->total == 0) printf("block %zu: waiting for the module", talk->nth);
    else
        printf("block %zu: packet %zu of %zu, %d %%, %.0f bytes/s, %zu resent, %.0f s left", talk->nth, talk->accepted, talk->total,
               (int)(part * 100), talk->block.length * part / seconds, talk->resent_before + talk->resent,
               part > 0 ? seconds / part - seconds : 0);
    fputs(terminal ? "\033[K" : "\n", stdout);
    fflush(stdout);
}

/* The module's byte in the words of document 001. */
static const char *passed_words(const struct talk *talk, uint8_t number) {
    static const char *const states[] = {"success", "wrong data received", "the flash could not be written", "the flash does not verify"};
    if (number == BAD_NOTICE) return talk->passed <= 3 ? states[talk->passed] : "a State that document 001 does not have";
    if (talk->stage == AT_RATE) return "rate not supported";
    if (talk->stage == AT_PARAMETERS) return talk->passed == 1 ? "wrong type" : "wrong length";
    return talk->passed == 1 ? "wrong program or version" : "same version";
}

#define ANEW "wait 7 seconds (the module closes an idle session) or power the jig, then load again"
#define UNHEARD "no module answers: check the plug, the power, the port's name and its rate (-b);\nafter a failed load " ANEW

/* What to do: when no answer came, by the stage; else by the number. */
static const char *advice(const struct talk *talk, uint8_t number) {
    static const char *const silence[] = {
        "", UNHEARD, UNHEARD,
        "the module has gone silent; nothing was written: check the plug and the power,\n" ANEW,
        "the module has gone silent; its image is not whole: check the plug and the power,\n" ANEW,
        "all packets were accepted, but the module has not said that they are right:\n" ANEW,
        "the image was accepted and is in the flash; only the answer to the restart was not heard:\n"
        "power the jig if the module does not start by itself"};
    if (number == NO_ANSWER) return silence[talk->stage];
    if (number == TOO_MANY_PIECES) return "these packets can't carry the image: give a larger piece (-p)";
    if (number == BAD_NOTICE) return "the module was told to restart: load again; if it fails again, its flash may be worn";
    if (number != MODULE_REFUSED) return "this is a fault of the program";
    if (talk->stage == AT_RATE) return "the module takes no rate, not even 9600: power the jig and load again";
    if (talk->stage == AT_PACKET && talk->passed == 2) return "the module has this version; without -o it is loaded all the same";
    return "the file is not for this module: look at it with 'zrnkobal list'; the module was told to restart";
}

void say_failure(const struct talk *talk, uint8_t number) {
    char passed[64] = "";
    if (number == MODULE_REFUSED || number == BAD_NOTICE)
        snprintf(passed, sizeof passed, ": %s %02X, %s", number == BAD_NOTICE ? "State" : "ACK", talk->passed, passed_words(talk, number));
    fail(REFUSED, "block %zu of %zu: %s%s", talk->nth, talk->blocks, refusal_words(number), passed);
    fprintf(stderr, "%s\n", advice(talk, number));
}
