/* zrnkobal: loads firmware into a GNSS module over a serial port; every rule of the protocol is in the proved library. */
#include "loader.h"

static const char help[] =
    "usage: zrnkobal COMMAND [options] ...\n"
    "\n"
    "  load PORT FILE.ubf   load a UBF file into the module on a serial port\n"
    "  list FILE.ubf        list the blocks of a UBF file\n"
    "  simulate FLASH       be a module on a pseudo-terminal, over a flash file\n"
    "\n"
    "  zrnkobal COMMAND --help   the options of a command\n"
    "  zrnkobal --version        the version\n"
    "\n"
    "exit status: 0 done; 1 refused; 2 usage or file; 3 port\n";

/* A number in digits, or -1. */
static long number_in(const char *text) {
    char *end;
    long number = strtol(text, &end, 10);
    return *text >= '0' && *text <= '9' && *end == 0 && number < 1000000000 ? number : -1;
}

/* Help, a wrong option and a wrong number of words end the program. */
void take_options(int argc, char **argv, const char *letters, const struct choice *choices, int words, const char *usage) {
    struct option longs[9] = {{"help", no_argument, NULL, 'h'}};
    for (size_t i = 0; choices[i].name != NULL; i++)
        longs[i + 1] = (struct option){choices[i].name, choices[i].most > 1, NULL, choices[i].letter};
    for (int letter; (letter = getopt_long(argc, argv, letters, longs, NULL)) != -1;) {
        const struct choice *choice = choices;
        while (choice->name != NULL && choice->letter != letter) choice++;
        if (letter == 'h') exit((fputs(usage, stdout), LOADED));
        if (choice->name == NULL) exit(fail(WRONG, "try 'zrnkobal %s --help'", argv[0]));
        *choice->to = optarg == NULL ? 1 : number_in(optarg);
        if (*choice->to < choice->least || *choice->to > choice->most)
            exit(fail(WRONG, "-%c: %ld to %ld, not %s", letter, choice->least, choice->most, optarg));
    }
    if (argc - optind != words) exit((fputs(usage, stderr), WRONG));
}

int main(int argc, char **argv) {
    const char *name = argc > 1 ? argv[1] : "";
    if (strcmp(name, "load") == 0) return load_main(argc - 1, argv + 1);
    if (strcmp(name, "list") == 0) return list_main(argc - 1, argv + 1);
    if (strcmp(name, "simulate") == 0) return simulate_main(argc - 1, argv + 1);
    if (strcmp(name, "--version") == 0) return puts("zrnkobal 1.0"), LOADED;
    if (strcmp(name, "--help") == 0 || strcmp(name, "-h") == 0) return fputs(help, stdout), LOADED;
    return fputs(help, stderr), WRONG;
}
