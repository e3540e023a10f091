/*
 * A payer: pays each payment of a script over the map of the lines before, in parts where that helps (docs/paying.md). What
 * becomes of a part is made up: a channel of an odd block carries no HTLC of more than 10,000,000 msat, and the payee takes the
 * whole once all parts have come. The payer has one channel, to PEER, which can always send 100,000,000 msat.
 *
 *     payer CHAIN PAYER PEER < SCRIPT
 *
 * SCRIPT has lines `m` and `route` (docs/script.md); others are skipped. A payment has a line for each part, and one for its end.
 */
#define _POSIX_C_SOURCE 200809L

#include "script.h"

#include <inttypes.h>

enum { HEIGHT = 699979, TEMPORARY_CHANNEL_FAILURE = 0x1007, MPP_TIMEOUT = 23 };

static void check(uint32_t number) {
    if (number == LGM_OK) return;
    fprintf(stderr, "payer: %s\n", lgm_text(number));
    exit(1);
}

/* Sends a part: returns the place of the node that couldn't forward it, or how many hops it has if the payee holds it. */
static size_t send_part(const lgm_part *part, const lgm_hop *hops) {
    printf("%" PRIu64 " msat over %zu channels\n", hops[0].amount_msat, part->lengths.hops);
    size_t place = 1;
    while (place < part->lengths.hops && ((hops[place].scid >> 40) % 2 == 0 || hops[place].amount_msat <= 10000000)) place++;
    return place;
}

/* Pays an invoice, and returns LGM_WHOLE, or why it can't be paid. */
static uint32_t pay(lgm_payer *payer, lgm_map *map, const lgm_invoice *invoice, const lgm_edge *channel) {
    lgm_sight sight = {.channels = channel, .channels_len = 1, .reckoned = lgm_payer_sent(payer), .height = HEIGHT};
    lgm_bounds bounds = {.most_fee_msat = invoice->amount_msat / 100, .least_part_msat = 1000000, .most_tries = 20,
                         .most_parts = 8, .most_blocks = 2016};
    uint64_t payment;
    lgm_part part;
    lgm_part_info held;
    lgm_hop hops[LGM_MOST_HOPS];
    uint8_t payloads[LGM_MOST_PAYLOADS];
    uint32_t number = lgm_payer_begin(payer, invoice, &bounds, &payment);
    if (number != LGM_OK) return number;
    while ((number = lgm_payer_next(payer, map, payment, &sight, &part, hops, LGM_MOST_HOPS, payloads, sizeof payloads)) == LGM_OK) {
        size_t place = send_part(&part, hops);
        if (place < part.lengths.hops)
            check(lgm_payer_failed(payer, payment, part.part, (uint8_t)place, TEMPORARY_CHANNEL_FAILURE, false));
    }
    if (number == LGM_WHOLE) check(lgm_payer_fulfilled(payer, payment));
    /* Otherwise the payee gives back what it holds. */
    for (size_t at = 0; number != LGM_WHOLE && lgm_payer_part(payer, payment, at, &held, hops, LGM_MOST_HOPS) == LGM_OK; at++)
        if (held.ending == LGM_PART_HELD)
            check(lgm_payer_failed(payer, payment, held.part, (uint8_t)held.hops, MPP_TIMEOUT, false));
    check(lgm_payer_forget(payer, payment));
    return number;
}

int main(int argc, char **argv) {
    static uint8_t bytes[MOST_BYTES];
    uint8_t chain[32];
    lgm_map map = {0};
    lgm_estimates nothing = {0};
    lgm_payer payer = {0};
    lgm_edge channel = {.scid = 1, .htlc_maximum_msat = 100000000};
    if (argc != 4 || !read_exactly(argv[1], chain, 32) || !read_exactly(argv[2], channel.from, 33)
        || !read_exactly(argv[3], channel.to, 33) || lgm_version() != LGM_VERSION) {
        fputs("usage: payer CHAIN PAYER PEER < SCRIPT\n", stderr);
        return 2;
    }
    open_map(&map, chain);
    check(lgm_payer_open(&payer, channel.from, &nothing));
    char *line = NULL, *fields[7];
    size_t capacity = 0;
    for (ssize_t len; (len = getline(&line, &capacity, stdin)) > 0;) {
        if (line[len - 1] == '\n') line[len - 1] = 0;
        size_t count = split(line, fields, 7);
        item it = {0};
        lgm_payment asked;
        if (count == 4 && strcmp(fields[0], "m") == 0 && read_verdicts(fields[2], fields[3], &it)) {
            it.len = read_hex(fields[1], bytes, sizeof bytes);
            offer(&map, &it, bytes); /* what is refused changes nothing */
        } else if (count == 6 && strcmp(fields[0], "route") == 0 && read_payment(fields + 1, &asked)) {
            lgm_invoice invoice = {.amount_msat = asked.amount_msat, .min_final_cltv_expiry_delta = 18, .basic_mpp = true};
            memcpy(invoice.payee, asked.payee, 33), memcpy(invoice.secret, asked.secret, 32);
            puts(lgm_text(pay(&payer, &map, &invoice, &channel)));
        }
    }
    lgm_payer_free(&payer), lgm_free(&map), free(line);
    return 0;
}
