/* zrnkobal: what its files share. Every rule of the protocol is in the proved calls of zrnkobal.h; here are a port, a clock and words. */
#ifndef LOADER_H
#define LOADER_H

#define _GNU_SOURCE
#include <errno.h>
#include <fcntl.h>
#include <getopt.h>
#include <poll.h>
#include <signal.h>
#include <stdarg.h>
#include <stdio.h>
#include <stdlib.h>
#include <string.h>
#include <sys/file.h>
#include <sys/ioctl.h>
#include <termios.h>
#include <time.h>
#include <unistd.h>

#include "zrnkobal.h"

/* Exit status; refusal numbers that have words of their own; the stages of zrn_caller_view. */
enum { LOADED, REFUSED, WRONG, NO_PORT };
enum { TOO_MANY_PIECES = 11, NO_ANSWER = 20, MODULE_REFUSED, BAD_NOTICE };
enum { AT_START = 1, AT_RATE, AT_PARAMETERS, AT_PACKET, AT_NOTICE, AT_RESTART };

/* main.c: an option of a command; its number goes to a place, 1 where it takes none. */
struct choice {
    char letter;
    const char *name;
    long *to, least, most;
};
void take_options(int argc, char **argv, const char *letters, const struct choice *choices, int words, const char *usage);

/* clock.c: a clock that never goes back, in microseconds. */
int64_t clock_us(void);
void clock_until(int64_t us);
int64_t clock_later(int64_t a, int64_t b);

/* port.c: rates, and a serial port that this process has for itself. */
struct port {
    int fd;
    const char *name;
    struct termios old;
    long baud;
    int64_t clear; /* when the last byte sent has left */
};
extern volatile sig_atomic_t caught; /* the signal that ends the program, or 0 */
uint8_t rate_number(long baud);      /* 1 to 5, or 0 for 4800; any other ends the program */
long rate_baud(uint8_t number);
speed_t rate_speed(long baud);
int64_t rate_us(long baud, size_t bytes); /* ten bits a byte */
void catch_signals(void);
void port_open(struct port *port, const char *name, long baud);
void port_rate(struct port *port, long baud);
void port_send(struct port *port, const uint8_t *bytes, size_t count);
size_t port_hear(struct port *port, uint8_t *bytes, size_t room, int64_t *when);
void port_close(struct port *port);

/* file.c: the UBF file and its blocks. */
struct block {
    uint16_t type;
    uint32_t length, start, check, address;
    const uint8_t *bytes, *image;
    size_t place, left, count; /* where it begins, bytes from there to the file's end; good blocks before a faulty one, or in all */
};
void file_read(const char *name);
uint8_t file_block(size_t n, struct block *block);
int list_main(int argc, char **argv);

/* load.c, talk.c: the blocks of a file, and one block over the port. */
struct talk {
    struct port port;
    struct block block;
    size_t nth, blocks;                           /* this block, from 1, and how many the file has */
    long base, top, piece, skip, stop_same, loud; /* the options; a piece of 0: as fits the rate */
    long own;                                     /* the rate that 0 stands for */
    size_t wish;                                  /* bytes a packet */
    uint8_t caller[ZRN_CALLER_BYTES], out[2080];  /* more than any message takes */
    size_t count;                                 /* of the message in out */
    int64_t mark, began;                          /* time is handed over up to mark */
    uint8_t stage, rate, passed;
    size_t accepted, total, resent, dropped, resent_before; /* before: in sessions of this block that were begun again */
};
int load_main(int argc, char **argv);
uint8_t talk_block(struct talk *talk);

/* say.c: words for a person. */
const char *kind_words(uint16_t type);
const char *refusal_words(uint8_t number);
void say_progress(const struct talk *talk);
void say_failure(const struct talk *talk, uint8_t number);
void say_end_line(void);
int fail(int status, const char *format, ...) __attribute__((format(printf, 2, 3)));
#define say_detail(talk, ...) ((talk)->loud ? (void)fail(0, __VA_ARGS__) : (void)0)

/* simulate.c: a module on a pseudo-terminal. */
int simulate_main(int argc, char **argv);

#endif
