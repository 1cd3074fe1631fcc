/* A module on a pseudo-terminal, over a flash that is a file. */
#include "loader.h"

#define FLASH 262144   /* the largest flash */
#define UNDER_WAY 8192 /* bytes on a way of the line, at most */
#define TURN_US 10000  /* between two looks, when nothing is under way */

static const char help[] =
    "usage: zrnkobal simulate [options] FLASH\n"
    "A module on a new pseudo-terminal, whose name is printed. FLASH is a file of 1\n"
    "to 262,144 bytes; if it is not there, 262,144 bytes of FF are made. What is\n"
    "acknowledged stands in the file. The line takes its time, ten bits a byte, and\n"
    "bytes at another rate than the module's are noise.\n"
    "\n"
    "  -b, --baud RATE    the module's own rate: 4800 to 115200 (9600)\n"
    "  -d, --delay MS     wait before each reply (0)\n"
    "  -n, --noise COUNT  of 100,000 bytes so many are hit, lost or inserted (0)\n"
    "  -e, --seed SEED    of the noise (1): the same seed gives the same noise\n"
    "  -h, --help         this text\n"
    "\n"
    "Ends by Ctrl-C. exit status: 0; 2 usage, or the flash file\n";

/* One way of the line: bytes under way, each with the rate it was sent at (0: one that no module has) and when it has arrived. */
struct passing {
    uint8_t byte;
    long baud;
    int64_t due;
};
struct way {
    struct passing under_way[UNDER_WAY];
    int64_t last;
    size_t head, count;
    unsigned short noise[3]; /* its own, so that neither way depends on when the other is used */
};
struct view {
    uint8_t stand;
    uint16_t type;
    size_t base, length, written, dropped;
    bool idle;
};
static struct {
    int master, slave, file;
    uint8_t post[ZRN_POST_BYTES], flash[FLASH], reply[64];
    size_t size, count, packets, replies;
    struct way in, out;
    struct view view;
    long own, delay, noise, seed, baud, next; /* next: the rate once the reply has left */
    int64_t mark;
} module = {.own = 9600, .seed = 1};

/* A byte begins its way at this time, or behind the last one. What finds no room is lost. */
static void put(struct way *way, uint8_t byte, long baud, int64_t from) {
    if (way->count == UNDER_WAY) return;
    way->last = clock_later(way->last, from) + rate_us(baud != 0 ? baud : 9600, 1);
    way->under_way[(way->head + way->count++) % UNDER_WAY] = (struct passing){byte, baud, way->last};
}

/* What arrives of the byte that is due, at an end with this rate: at another one it is noise; else it may be hit, lost or inserted to. */
static size_t take(struct way *way, long baud, uint8_t out[2]) {
    long chance = nrand48(way->noise), random = nrand48(way->noise);
    struct passing next = way->under_way[way->head];
    way->head = (way->head + 1) % UNDER_WAY;
    way->count--;
    out[0] = out[1] = next.byte;
    if (next.baud != baud) return out[0] = (uint8_t)random, 1;
    if (chance % 100000 >= module.noise) return 1;
    if (random % 3 == 0) return out[0] ^= (uint8_t)(1 + random / 3 % 255), 1; /* a hit byte is always another one */
    return out[0] = (uint8_t)(random / 3), random % 3 == 1 ? 0 : 2;
}

/* The rate that the other end has set, 0 for one that no module has. */
static long host_baud(void) {
    struct termios modes;
    if (tcgetattr(module.slave, &modes) != 0) return 0;
    for (uint8_t i = 0; i <= 5; i++)
        if (rate_speed(rate_baud(i)) == cfgetospeed(&modes)) return rate_baud(i);
    return 0;
}

/* What has changed since the last look. */
static void tell(const struct view *now) {
    if (module.view.dropped != now->dropped) fputs("simulate: a frame was dropped\n", stderr);
    if (module.view.stand == now->stand) return;
    const char *why = now->idle ? "after 7,000 ms of silence" : "by a restart";
    if (now->stand == 0) fprintf(stderr, "simulate: closed %s, waiting for the start text\n", why);
    if (now->stand == 1) fputs("simulate: session open\n", stderr);
    if (now->stand == 2) fprintf(stderr, "simulate: parameters accepted: %s, length %zu\n", kind_words(now->type), now->length);
    if (now->stand == 4) fputs("simulate: done, all packets are in the flash\n", stderr);
    if (now->stand == 0 && now->idle) ioctl(module.slave, TIOCNXCL); /* a loader that was killed has left the port taken */
}

/* What a packet has written goes into the file, before anything is answered. */
static void keep(const struct view *now) {
    if (now->written <= module.view.written) return;
    size_t at = now->base + module.view.written, count = now->written - module.view.written;
    if (pwrite(module.file, module.flash + at, count, (off_t)at) != (ssize_t)count)
        exit(fail(WRONG, "the flash file could not be written; nothing was answered"));
    module.packets++;
}

/* After a call of the post: words, file, reply, and the rate that the module has once the reply has left. */
static void after(int64_t when) {
    struct view now;
    now.stand = zrn_post_view(module.post, sizeof module.post, &now.type, &now.base, &now.length, &now.written, &now.dropped, &now.idle);
    uint8_t agreed = zrn_rate_agreed(module.reply, module.count);
    tell(&now);
    keep(&now);
    for (size_t i = 0; i < module.count; i++) put(&module.out, module.reply[i], module.baud, when + module.delay * 1000);
    if (module.count > 0) module.replies++;
    if (agreed != 0) module.next = rate_baud(agreed);
    if (now.stand == 0) module.next = module.own;
    module.view = now;
}

/* The post hears what has arrived, and how much time has passed. */
static void hear(int64_t now) {
    uint8_t bytes[2];
    int64_t ms = (now - module.mark) / 1000;
    while (module.in.count > 0 && module.in.under_way[module.in.head].due <= now) {
        int64_t when = module.in.under_way[module.in.head].due;
        for (size_t i = 0, heard = take(&module.in, module.baud, bytes); i < heard; i++) {
            zrn_post_hear(module.post, sizeof module.post, bytes[i], module.flash, module.size, module.reply, sizeof module.reply,
                          &module.count);
            after(when);
        }
    }
    if (ms < 1) return;
    module.mark += ms * 1000;
    zrn_post_wait(module.post, sizeof module.post, (uint32_t)ms, module.flash, module.size, module.reply, sizeof module.reply,
                  &module.count);
    after(now);
}

/* Replies whose bits have left go to the other end. A line does not wait for anybody: what finds no room is lost. */
static void speak(int64_t now) {
    uint8_t bytes[2];
    long baud = module.out.count > 0 ? host_baud() : 0;
    while (module.out.count > 0 && module.out.under_way[module.out.head].due <= now) {
        size_t count = take(&module.out, baud, bytes);
        if (count > 0 && write(module.master, bytes, count) < 0 && errno != EAGAIN) return;
    }
    if (module.out.count == 0) module.baud = module.next;
}

/* Waits for bytes, or until what is under way has arrived; what the other end has sent begins its way now. */
static void listen(void) {
    uint8_t bytes[512];
    int64_t now = clock_us(), until = now + TURN_US;
    if (module.in.count > 0 && module.in.last < until) until = module.in.last;
    if (module.out.count > 0 && module.out.last < until) until = module.out.last;
    struct timespec time = {0, until > now ? (until - now) * 1000 : 0};
    struct pollfd ready = {.fd = module.master, .events = UNDER_WAY - module.in.count < sizeof bytes ? 0 : POLLIN};
    if (ppoll(&ready, 1, &time, NULL) <= 0) return;
    ssize_t n = read(module.master, bytes, sizeof bytes);
    long baud = host_baud();
    for (ssize_t i = 0; i < n; i++) put(&module.in, bytes[i], baud, clock_us());
}

/* The flash: a file of 1 to 262,144 bytes, made if it is not there. */
static void open_flash(const char *name) {
    memset(module.flash, 0xFF, FLASH);
    module.file = open(name, O_RDWR | O_CLOEXEC);
    if (module.file < 0 && errno == ENOENT) {
        module.file = open(name, O_RDWR | O_CREAT | O_EXCL | O_CLOEXEC, 0666);
        if (module.file >= 0 && write(module.file, module.flash, FLASH) != FLASH) exit(fail(WRONG, "%s: can't be written", name));
    }
    if (module.file < 0) exit(fail(WRONG, "%s: %s", name, strerror(errno)));
    off_t size = lseek(module.file, 0, SEEK_END);
    if (size < 1 || size > FLASH) exit(fail(WRONG, "%s: a flash has 1 to 262,144 bytes", name));
    if (pread(module.file, module.flash, (size_t)size, 0) != size) exit(fail(WRONG, "%s: can't be read", name));
    module.size = (size_t)size;
}

/* The slave is kept open here too, so that the other end may come and go. */
static void open_line(void) {
    struct termios modes;
    module.master = posix_openpt(O_RDWR | O_NOCTTY | O_NONBLOCK | O_CLOEXEC);
    if (module.master < 0 || grantpt(module.master) != 0 || unlockpt(module.master) != 0
        || (module.slave = open(ptsname(module.master), O_RDWR | O_NOCTTY | O_CLOEXEC)) < 0 || tcgetattr(module.slave, &modes) != 0)
        exit(fail(WRONG, "no pseudo-terminal: %s", strerror(errno)));
    cfmakeraw(&modes);
    cfsetspeed(&modes, rate_speed(module.own));
    tcsetattr(module.slave, TCSANOW, &modes);
    puts(ptsname(module.master));
    fflush(stdout);
}

int simulate_main(int argc, char **argv) {
    const struct choice choices[] = {{'b', "baud", &module.own, 4800, 115200}, {'d', "delay", &module.delay, 0, 100000},
                                     {'n', "noise", &module.noise, 0, 100000}, {'e', "seed", &module.seed, 0, 999999999}, {0}};
    take_options(argc, argv, "b:d:n:e:h", choices, 1, help);
    rate_number(module.own);
    for (int i = 0; i < 2; i++) module.in.noise[i] = module.out.noise[i] = (unsigned short)(module.seed >> 16 * i);
    module.out.noise[2] = 1;
    module.baud = module.next = module.own;
    catch_signals();
    open_flash(argv[optind]);
    open_line();
    fprintf(stderr, "simulate: flash of %zu bytes, waiting for the start text\n", module.size);
    zrn_post_new(module.post, sizeof module.post);
    module.mark = clock_us();
    while (!caught) {
        int64_t now = clock_us();
        hear(now);
        speak(now);
        listen();
    }
    fprintf(stderr, "simulate: ended: %zu packets written, %zu replies, %zu frames dropped\n", module.packets, module.replies,
            module.view.dropped);
    return LOADED;
}
