/* A serial port: opened for this process alone, set, written to and read, and given back as it was. */
#include "loader.h"

#define TURN_MS 5        /* how long a read waits for bytes */
#define STUCK_US 5000000 /* how long a port may take no byte */
#define SETTLE_US 20000  /* a moment for adapters that drain too early, and for both ends at a new rate */
#define VANISHED "the port has vanished: check the plug, then load again"
#define IN_USE "in use by another program"
#define NOT_ALLOWED "no permission; are you in the group that owns the port?"

static const long bauds[] = {4800, 9600, 19200, 38400, 57600, 115200};
static const speed_t speeds[] = {B4800, B9600, B19200, B38400, B57600, B115200};

volatile sig_atomic_t caught;

uint8_t rate_number(long baud) {
    for (uint8_t i = 0; i < 6; i++)
        if (bauds[i] == baud) return i;
    exit(fail(WRONG, "a rate is 4800, 9600, 19200, 38400, 57600 or 115200, not %ld", baud));
}

long rate_baud(uint8_t number) {
    return bauds[number];
}

speed_t rate_speed(long baud) {
    return speeds[rate_number(baud)];
}

int64_t rate_us(long baud, size_t bytes) {
    return (int64_t)bytes * 10 * 1000000 / baud;
}

static void catch (int number) {
    caught = number;
}

/* The first signal is answered in turn, so that the port is given back; a second one ends the program at once. What nohup ignores stays. */
void catch_signals(void) {
    struct sigaction action = {.sa_handler = catch, .sa_flags = (int)SA_RESETHAND}, old;
    const int numbers[] = {SIGINT, SIGTERM, SIGHUP};
    for (size_t i = 0; i < 3; i++)
        if (sigaction(numbers[i], NULL, &old) == 0 && old.sa_handler != SIG_IGN) sigaction(numbers[i], &action, NULL);
    signal(SIGPIPE, SIG_IGN);
}

static void give_back(struct port *port) {
    tcsetattr(port->fd, TCSANOW, &port->old);
    ioctl(port->fd, TIOCNXCL);
    close(port->fd);
}

/* The port has failed: what can be given back is, and the program ends. */
static _Noreturn void broken(struct port *port, const char *what) {
    give_back(port);
    exit(fail(NO_PORT, "%s: %s", port->name, what));
}

/* Two programs on one port would spoil each other's load. Root is not stopped by TIOCEXCL, so a lock stands beside it. */
void port_open(struct port *port, const char *name, long baud) {
    *port = (struct port){.name = name, .fd = open(name, O_RDWR | O_NOCTTY | O_NONBLOCK | O_CLOEXEC)};
    const char *why = NULL;
    if (port->fd < 0) why = errno == EBUSY ? IN_USE : errno == EACCES ? NOT_ALLOWED : strerror(errno);
    else if (!isatty(port->fd)) why = "not a serial port";
    else if (flock(port->fd, LOCK_EX | LOCK_NB) != 0) why = IN_USE;
    else if (tcgetattr(port->fd, &port->old) != 0) why = strerror(errno);
    if (why != NULL) exit(fail(NO_PORT, "%s: %s", name, why));
    ioctl(port->fd, TIOCEXCL);
    port_rate(port, baud);
    tcflush(port->fd, TCIFLUSH);
}

/* Raw, eight bits, no parity, one stop bit, at this rate. Not before what was sent at another one has left. */
void port_rate(struct port *port, long baud) {
    if (port->baud == baud) return;
    clock_until(port->clear + SETTLE_US);
    struct termios set = port->old, is;
    cfmakeraw(&set);
    set.c_cflag = (set.c_cflag & ~(tcflag_t)(CSTOPB | CRTSCTS)) | CLOCAL | CREAD;
    set.c_iflag &= ~(tcflag_t)(IXOFF | IXANY);
    set.c_cc[VMIN] = 1;
    set.c_cc[VTIME] = 0;
    cfsetspeed(&set, rate_speed(baud));
    if (tcsetattr(port->fd, TCSANOW, &set) != 0) broken(port, errno == EIO ? VANISHED : "can't be set");
    if (tcgetattr(port->fd, &is) != 0 || cfgetospeed(&is) != rate_speed(baud)) broken(port, "does not take this rate");
    if (port->baud != 0) clock_until(clock_us() + SETTLE_US);
    port->baud = baud;
}

/* Sends all bytes. They have left when the system says so, and not before their bits can have: some adapters drain too early. */
void port_send(struct port *port, const uint8_t *bytes, size_t count) {
    struct pollfd room = {.fd = port->fd, .events = POLLOUT};
    int64_t begun = clock_us(), start = clock_later(begun, port->clear);
    for (size_t sent = 0; sent < count;) {
        ssize_t n = write(port->fd, bytes + sent, count - sent);
        if (n > 0) sent += (size_t)n;
        else if (n < 0 && errno != EAGAIN && errno != EINTR) broken(port, VANISHED);
        else if (clock_us() - begun > STUCK_US) broken(port, "the port takes no bytes");
        else poll(&room, 1, TURN_MS);
    }
    while (tcdrain(port->fd) != 0)
        if (errno != EINTR) broken(port, VANISHED);
    port->clear = clock_later(clock_us(), start + rate_us(port->baud, count));
}

/* Reads what has come, or waits a moment for it. All that came up to *when is read, however long the process was stopped. */
size_t port_hear(struct port *port, uint8_t *bytes, size_t room, int64_t *when) {
    struct pollfd ready = {.fd = port->fd, .events = POLLIN};
    poll(&ready, 1, TURN_MS);
    *when = clock_us();
    ssize_t n = read(port->fd, bytes, room);
    if (n == 0 || (n < 0 && errno != EAGAIN && errno != EINTR)) broken(port, VANISHED);
    return n > 0 ? (size_t)n : 0;
}

/* Gives the port back as it was, once all has left. */
void port_close(struct port *port) {
    clock_until(port->clear + SETTLE_US);
    give_back(port);
}
