/* One block over the port: bytes and time go to the proved calls, and what they write goes to the port at the rate they say. */
#include "loader.h"

/* What the caller's view says now. An ended session keeps the stage that it ended in. */
static void look(struct talk *talk, const char *why) {
    static const char *const messages[] = {"", "start text", "rate", "parameters", "packet", "last packet", "restart"};
    size_t accepted, total, resent, dropped;
    uint8_t stage = zrn_caller_view(talk->caller, sizeof talk->caller, &talk->rate, &accepted, &total, &resent, &dropped);
    if (stage >= AT_PACKET && talk->stage < AT_PACKET) talk->began = clock_us();
    if (stage != 0) talk->stage = stage, talk->accepted = accepted, talk->total = total;
    if (resent > talk->resent && talk->stage == AT_PACKET) say_detail(talk, "packet %zu resent: %s", talk->accepted + 1, why);
    else if (resent > talk->resent) say_detail(talk, "%s resent: %s", messages[talk->stage], why);
    if (dropped > talk->dropped) say_detail(talk, "a damaged frame was dropped");
    talk->resent = resent;
    talk->dropped = dropped;
}

static void send(struct talk *talk) {
    long baud = talk->rate == 0 ? talk->own : rate_baud(talk->rate);
    if (talk->count == 0) return;
    if (baud != talk->port.baud) say_detail(talk, "the port is set to %ld baud", baud);
    port_rate(&talk->port, baud);
    port_send(&talk->port, talk->out, talk->count);
}

static uint8_t begin(struct talk *talk, uint8_t first, uint8_t start) {
    talk->resent_before += talk->resent;
    talk->resent = talk->dropped = 0;
    uint8_t answer = zrn_caller_open(talk->caller, sizeof talk->caller, talk->block.type, talk->block.image, talk->block.length, first,
                                     talk->wish, start, !talk->stop_same, talk->out, sizeof talk->out, &talk->count);
    look(talk, "");
    return answer;
}

/* Where it helps, the block is begun again without the start text: with a shorter piece, as a lower rate was agreed; or as the module may
 * have heard the start text, and only its answer was lost. */
static uint8_t again(struct talk *talk, uint8_t answer) {
    if (answer == ZRN_WRITTEN && talk->piece == 0 && talk->stage == AT_PARAMETERS && talk->rate != 0
        && zrn_piece_for((uint32_t)rate_baud(talk->rate)) < talk->wish) {
        talk->own = rate_baud(talk->rate);
        talk->wish = zrn_piece_for((uint32_t)talk->own);
        say_detail(talk, "the module takes %ld baud: packets of %zu bytes", talk->own, talk->wish);
        return begin(talk, talk->rate, 0);
    }
    if (answer != NO_ANSWER || talk->stage != AT_START) return answer;
    say_detail(talk, "no answer to the start text: trying without it");
    return begin(talk, rate_number(talk->top), 0);
}

/* After a call: what it wrote goes out. */
static uint8_t after(struct talk *talk, uint8_t answer, const char *why) {
    look(talk, why);
    answer = again(talk, answer);
    send(talk);
    say_progress(talk);
    return answer;
}

/* The time from the last look to this one; while what we sent is leaving it does not count. */
static uint8_t pass_time(struct talk *talk, int64_t when) {
    int64_t since = clock_later(talk->mark, talk->port.clear), ms = (when - since) / 1000;
    if (ms < 1) return ZRN_NOTHING;
    talk->mark = since + ms * 1000;
    uint8_t answer = zrn_caller_wait(talk->caller, sizeof talk->caller, ms > 60000 ? 60000 : (uint32_t)ms, talk->block.image,
                                     talk->block.length, talk->out, sizeof talk->out, &talk->count, &talk->passed);
    return after(talk, answer, "no answer in time");
}

static bool is_going(uint8_t answer) {
    return answer == ZRN_NOTHING || answer == ZRN_WRITTEN;
}

/* Bytes that have come are heard first, then the time is handed over. */
static uint8_t turn(struct talk *talk) {
    uint8_t bytes[4096], answer = ZRN_NOTHING; /* as many as a terminal keeps */
    int64_t when;
    size_t count = port_hear(&talk->port, bytes, sizeof bytes, &when);
    for (size_t i = 0; i < count && is_going(answer); i++) {
        answer = zrn_caller_hear(talk->caller, sizeof talk->caller, bytes[i], talk->block.image, talk->block.length, talk->out,
                                 sizeof talk->out, &talk->count, &talk->passed);
        answer = after(talk, answer, "asked for again by the module");
    }
    return is_going(answer) ? pass_time(talk, when) : answer;
}

/* A signal: the module is restarted, the port given back. */
static _Noreturn void break_off(struct talk *talk) {
    const char *image = talk->stage < AT_PACKET    ? "nothing was written"
                        : talk->stage < AT_RESTART ? "its image is not whole"
                                                   : "the image is in its flash";
    zrn_restart_write(talk->out, sizeof talk->out, &talk->count);
    port_send(&talk->port, talk->out, talk->count);
    port_close(&talk->port);
    exit(fail(128 + caught, "block %zu of %zu: broken off; the module was told to restart, %s", talk->nth, talk->blocks, image));
}

/* Answers ZRN_DONE, or the refusal. */
uint8_t talk_block(struct talk *talk) {
    talk->stage = talk->passed = 0;
    talk->accepted = talk->total = talk->resent = talk->dropped = talk->resent_before = 0;
    talk->own = talk->base;
    talk->wish = talk->piece != 0 ? (size_t)talk->piece : zrn_piece_for((uint32_t)talk->top);
    uint8_t answer = begin(talk, rate_number(talk->top), !talk->skip);
    send(talk);
    while (is_going(answer)) {
        if (caught) break_off(talk);
        answer = turn(talk);
    }
    return answer;
}
