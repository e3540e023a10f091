/*
 * A node's day: it synchronizes its map with simulated peers (gossip/peer.py), verifies what they send, serves them, prunes and
 * saves. docs/node.md explains it.
 *
 *     node CHAIN FILE PORT..
 */
#define _POSIX_C_SOURCE 200809L

#include "script.h"
#include "simulated.h" /* what a node has of BOLT 8, of secp256k1 and of the chain */

enum { MOST_PEERS = 8, MOST_LACKING = 100000, TWO_WEEKS = 1209600, NOW = 1760000000, HEIGHT = 917000, ALL_BLOCKS = 1 << 24 };

typedef struct {
    int fd;
    uint64_t covered; /* the block up to which its replies have covered all */
    lgm_lacking_info *lacking;
    size_t asked, count;
} peer;

static uint8_t message[MOST_MESSAGE], *replies;
static size_t room = 1 << 16;

/* Calls with a buffer that grows to what the call needs, and is kept. */
#define WRITTEN(CALL, NEEDED)                                                                     \
    while ((CALL) == LGM_ROOM) {                                                                  \
        room = (NEEDED);                                                                          \
        if (!(replies = realloc(replies, room))) exit(1);                                         \
    }

/* Offers a message that is worth it, once its signatures and its funding output are verified. */
static void offer_verified(lgm_map *map, size_t len) {
    lgm_signed read;
    uint8_t key[33];
    if (lgm_wanted(map, message, len, key) != LGM_OK || lgm_reads(message, len, &read) != LGM_OK) return;
    const uint8_t *keys[] = {read.key_1, read.key_2, read.key_3, read.key_4};
    if (read.type != 256) keys[0] = key;
    bool is_right = true;
    for (size_t at = 0; at < read.signatures; at++)
        is_right &= has_signed(keys[at], message + read.signed_from, len - read.signed_from, message + 2 + 64 * at);
    if (read.type != 256) {
        lgm_offer(map, message, len, is_right ? LGM_SIG_BY : LGM_SIG_NOBODY, key, LGM_FUNDING_NOT_ASKED, 0);
        return;
    }
    uint64_t sat = funding(read.block, read.output);
    lgm_offer(map, message, len, is_right ? LGM_SIG_ALL_FOUR : LGM_SIG_NOT_ALL_FOUR, key, sat ? LGM_FUNDING_UNSPENT : LGM_FUNDING_SPENT, sat);
}

/* Asks for what is lacking, and once nothing is for what comes from now on. */
static void ask(lgm_map *map, peer *from) {
    size_t needed;
    if (from->asked == from->count) {
        WRITTEN(lgm_ask_filter(map, NOW, UINT32_MAX, replies, room, &needed), needed)
    } else {
        WRITTEN(lgm_ask_ids(map, from->lacking + from->asked, from->count - from->asked, replies, room, &needed), needed)
        from->asked = from->count - from->asked > LGM_MOST_IDS ? from->asked + LGM_MOST_IDS : from->count;
    }
    send_message(from->fd, replies, needed);
}

/* Takes a reply to the query of all blocks: what it tells is lacking, unless a peer tells of too much. */
static void take_reply(lgm_map *map, peer *from, size_t len) {
    size_t more;
    bool was_covered = from->covered >= ALL_BLOCKS;
    if (lgm_lacking(map, message, len, from->lacking + from->count, MOST_LACKING - from->count, &more) == LGM_OK) from->count += more;
    lgm_covered(map, message, len, &from->covered);
    if (from->covered >= ALL_BLOCKS && !was_covered) ask(map, from);
}

/* Takes a message of a peer. */
static void take(lgm_map *map, peer *from, size_t len) {
    size_t needed = 0;
    switch (len < 2 ? 0 : message[0] << 8 | message[1]) {
    case 264: take_reply(map, from, len); break;
    case 262: ask(map, from); break;
    case 261: case 263: WRITTEN(lgm_query(map, message, len, replies, room, &needed), needed) send_framed(from->fd, replies, needed); break;
    case 265: WRITTEN(lgm_filter(map, message, len, replies, room, &needed), needed) send_framed(from->fd, replies, needed); break;
    default: offer_verified(map, len);
    }
}

/* Saves the map to a file. */
static void save(lgm_map *map, const char *path) {
    size_t needed = 0;
    WRITTEN(lgm_save(map, replies, room, &needed), needed)
    FILE *file = fopen(path, "wb");
    if (!file || fwrite(replies, 1, needed, file) != needed || fclose(file)) exit(1);
}

int main(int argc, char **argv) {
    static peer peers[MOST_PEERS];
    static lgm_pruned pruned[MOST_LACKING];
    uint8_t chain[32], seed[16] = {0}; /* a node takes random bytes */
    lgm_map map = {0};
    size_t needed, len, count = 0;
    if (argc < 3 || argc > 3 + MOST_PEERS || !read_exactly(argv[1], chain, 32) || !(replies = malloc(room))) return 2;
    uint8_t *saved = read_file(argv[2], &len);
    if (!saved || lgm_load(&map, chain, true, NULL, 0, seed, saved, len) != LGM_OK) open_map(&map, chain);
    for (; argv[3 + count]; count++) {
        peers[count] = (peer){.fd = connect_to(argv[3 + count]), .lacking = malloc(MOST_LACKING * sizeof *peers->lacking)};
        if (peers[count].fd < 0 || !peers[count].lacking) return 1;
        WRITTEN(lgm_ask_range(&map, 0, UINT32_MAX, replies, room, &needed), needed)
        send_message(peers[count].fd, replies, needed);
    }
    for (size_t at = 0; at < count; at++) { /* a node polls; here one peer comes after the other */
        while (receive(peers[at].fd, message, &len)) take(&map, &peers[at], len);
        free(peers[at].lacking);
    }
    while (lgm_prune(&map, NOW - TWO_WEEKS / 2, HEIGHT - 2016, pruned, MOST_LACKING, &needed) == LGM_NO_MEMORY) {}
    save(&map, argv[2]);
    printf("%zu channels, %zu pruned\n", lgm_count(&map), needed);
    lgm_free(&map), free(saved), free(replies);
    return 0;
}
