/* The worked case from C: two ports at 1,000 Mb/s, a cycle of 1,000,000 ns, and flows 7 and 9. */
#include "givrethans.h"

#include <inttypes.h>
#include <stdio.h>
#include <string.h>

/* The kinds of calls. */
enum { SET_UP = 1, OFFER = 2, WITHDRAWAL = 3, START = 4, FLOWSPAN = 5, GATE_LIST = 6 };

/* The kinds of answers. */
enum { DONE = 0, A_START = 1, A_FLOWSPAN = 2, A_GATE_LIST = 3 };

enum { GATE_RECORD = 5, MOST_CALLS = 8, UNTOUCHED = 0xa5 };

/* Two port records: propagation delay 100, processing delay 1,000, best effort up to 1,522 octets. */
static const uint8_t ports[] = {
    0x00, 0x32, 0x00, 0x1f, 0x40, 0xbe, 0x40, 0x00, /* port 0 */
    0x00, 0x32, 0x00, 0x1f, 0x40, 0xbe, 0x40, 0x00, /* port 1 */
};

/*
 * Two flow records. Flow 7: length 100, period 500,000, deadline 20,000, over ports 0 and 1.
 * Flow 9: length 1,000, period 1,000,000, deadline 20,000, on port 1. Neither start is chosen.
 */
static const uint8_t flows[] = {
    0x00, 0x07, 0x01, 0x90, 0x00, 0x7a, 0x12, 0x00, 0x00, 0x13, 0x88,
    0x00, 0x00, 0x00, 0x00, 0x10, 0x02, 0x00, 0x00, 0x00, 0x00,
    0x00, 0x09, 0x0f, 0xa0, 0x00, 0xf4, 0x24, 0x00, 0x00, 0x13, 0x88,
    0x00, 0x00, 0x00, 0x00, 0x08, 0x40, 0x00, 0x00, 0x00, 0x00,
};

/* A list of calls that is being written. */
struct calls {
    uint8_t octets[256];
    size_t len;
};

static void put_number(struct calls *calls, uint64_t value, int octets) {
    for (int i = octets - 1; i >= 0; i--)
        calls->octets[calls->len++] = (uint8_t)(value >> (8 * i));
}

static void put_sheet(struct calls *calls, const uint8_t *sheet, size_t len) {
    put_number(calls, len, 2);
    memcpy(calls->octets + calls->len, sheet, len);
    calls->len += len;
}

static void put_set_up(struct calls *calls, uint32_t cycle) {
    put_number(calls, SET_UP, 1);
    put_number(calls, cycle, 4);
    put_sheet(calls, ports, sizeof ports);
}

static void put_offer(struct calls *calls, uint64_t index) {
    put_number(calls, OFFER, 1);
    put_number(calls, index, 8);
    put_sheet(calls, flows, sizeof flows);
}

static void put_gate_list(struct calls *calls, uint8_t port) {
    put_number(calls, GATE_LIST, 1);
    put_number(calls, port, 1);
}

static uint64_t number(const uint8_t *octets, size_t len) {
    uint64_t value = 0;
    for (size_t i = 0; i < len; i++)
        value = value << 8 | octets[i];
    return value;
}

static void print_octets(const uint8_t *octets, size_t len) {
    for (size_t i = 0; i < len; i++)
        printf("%s%02x", i == 0 ? "" : " ", octets[i]);
}

static void print_answer(const uint8_t *answer) {
    uint64_t value = number(answer + 8, 8);
    printf("  ");
    print_octets(answer, GIVRETHANS_ANSWER);
    printf("  ");
    switch (answer[0]) {
    case DONE:
        printf("done\n");
        break;
    case A_START:
        printf("start %" PRIu64 "\n", value);
        break;
    case A_FLOWSPAN:
        printf("flowspan %" PRIu64 " ns\n", value);
        break;
    case A_GATE_LIST:
        printf("%" PRIu64 " gate records\n", value);
        break;
    default:
        printf("refused %u, layer %u, record %" PRIu64 ", bit %" PRIu64 ", hop %u\n", answer[1], answer[2], value,
               number(answer + 4, 2), answer[3]);
    }
}

static void print_gates(const uint8_t *records, size_t count) {
    for (size_t i = 0; i < count; i++) {
        const uint8_t *record = records + i * GATE_RECORD;
        uint64_t duration = number(record + 1, 4);
        const char *state = record[0] == 0x80 ? "scheduled" : record[0] == 0x7f ? "best effort" : "closed";
        printf("  ");
        print_octets(record, GATE_RECORD);
        printf("  %s for %" PRIu64 " ns\n", state, duration);
    }
}

static uint8_t answers[MOST_CALLS * GIVRETHANS_ANSWER];
static uint8_t buffer[GIVRETHANS_LONGEST_GATE_LIST];

/* Fills both buffers with an octet to be found again where nothing is written. */
static void clear(void) {
    memset(answers, UNTOUCHED, sizeof answers);
    memset(buffer, UNTOUCHED, sizeof buffer);
}

static int untouched(const uint8_t *octets, size_t from, size_t len) {
    for (size_t i = from; i < len; i++)
        if (octets[i] != UNTOUCHED)
            return 0;
    return 1;
}

/* Prints what the calls came to. Only the last of them may have asked for a gate list. */
static void print_outcome(int64_t returned) {
    size_t count = returned > 0 ? (size_t)returned : 0;
    size_t gates = 0;
    printf("  returned %" PRId64 "\n", returned);
    for (size_t i = 0; i < count; i++) {
        const uint8_t *answer = answers + i * GIVRETHANS_ANSWER;
        print_answer(answer);
        if (answer[0] == A_GATE_LIST)
            gates = (size_t)number(answer + 8, 8);
    }
    print_gates(buffer, gates);
    if (untouched(answers, count * GIVRETHANS_ANSWER, sizeof answers)
        && untouched(buffer, gates * GATE_RECORD, sizeof buffer))
        printf("  nothing written behind\n");
}

static void on_ethernet(const char *title, const uint8_t *codes, size_t codes_len, const struct calls *calls,
                        size_t answers_len) {
    printf("%s\n", title);
    clear();
    print_outcome(givrethans_perform_ethernet(codes, codes_len, calls->octets, calls->len, answers, answers_len,
                                              buffer, sizeof buffer));
}

static void on_cells(const char *title, uint8_t count, uint16_t size, uint32_t time, const struct calls *calls) {
    printf("%s\n", title);
    clear();
    print_outcome(givrethans_perform_cells(count, size, time, calls->octets, calls->len, answers, sizeof answers,
                                           buffer, sizeof buffer));
}

/* The calls of the worked case: set-up, both offers, the flowspan, and the gate list of a port. */
static struct calls worked(uint8_t port) {
    struct calls calls = {.len = 0};
    put_set_up(&calls, 1000000);
    put_offer(&calls, 0);
    put_offer(&calls, 1);
    put_number(&calls, FLOWSPAN, 1);
    put_gate_list(&calls, port);
    return calls;
}

/* Calls that are refused, a withdrawal, and the question for a start. */
static struct calls refused(void) {
    struct calls calls = {.len = 0};
    put_number(&calls, FLOWSPAN, 1);
    put_set_up(&calls, 1000000);
    put_offer(&calls, 0);
    put_offer(&calls, 2);
    put_number(&calls, START, 1);
    put_number(&calls, 7, 2);
    put_number(&calls, WITHDRAWAL, 1);
    put_number(&calls, 7, 2);
    put_number(&calls, START, 1);
    put_number(&calls, 7, 2);
    put_gate_list(&calls, 2);
    return calls;
}

int main(void) {
    static const uint8_t codes[] = {3, 3};
    static const uint8_t no_codes[] = {3, 4};
    struct calls first = worked(0);
    struct calls second = worked(1);
    struct calls third = refused();
    struct calls cut = second;
    cut.len--;

    on_ethernet("ethernet, gate list of port 0", codes, sizeof codes, &first, sizeof answers);
    on_ethernet("ethernet, gate list of port 1", codes, sizeof codes, &second, sizeof answers);
    on_ethernet("ethernet, refusals", codes, sizeof codes, &third, sizeof answers);
    on_cells("cells of 64 octets and 680 ns, gate list of port 1", 2, 64, 680, &second);
    on_ethernet("a rate code that is none", no_codes, sizeof no_codes, &second, sizeof answers);
    on_cells("cells of 63 octets", 2, 63, 680, &second);
    on_ethernet("the last call cut short", codes, sizeof codes, &cut, sizeof answers);
    on_ethernet("room for four answers", codes, sizeof codes, &second, 4 * GIVRETHANS_ANSWER);
    return 0;
}
