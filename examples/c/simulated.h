/*
 * What a node has beside the library, as gossip/peer.py simulates it: connections with messages behind their lengths, signatures,
 * and funding outputs.
 */
#ifndef SIMULATED_H
#define SIMULATED_H

#include <arpa/inet.h>
#include <netinet/in.h>
#include <stdbool.h>
#include <stdint.h>
#include <stdio.h>
#include <stdlib.h>
#include <string.h>
#include <sys/socket.h>
#include <unistd.h>

enum { MOST_MESSAGE = 65535, SPENT_OUTPUT = 9 };

/* A connection to a port of this machine, or -1. */
static int connect_to(const char *port) {
    struct sockaddr_in to = {.sin_family = AF_INET, .sin_port = htons((uint16_t)atoi(port)), .sin_addr.s_addr = htonl(INADDR_LOOPBACK)};
    int fd = socket(AF_INET, SOCK_STREAM, 0);
    return fd >= 0 && connect(fd, (struct sockaddr *)&to, sizeof to) == 0 ? fd : -1;
}

static bool read_all(int fd, uint8_t *bytes, size_t len) {
    for (ssize_t got; len > 0; bytes += got, len -= (size_t)got)
        if ((got = read(fd, bytes, len)) <= 0) return false;
    return true;
}

static void write_all(int fd, const uint8_t *bytes, size_t len) {
    for (ssize_t put; len > 0; bytes += put, len -= (size_t)put)
        if ((put = send(fd, bytes, len, MSG_NOSIGNAL)) <= 0) return; /* the peer has hung up */
}

/* The next message, or false at the end. */
static bool receive(int fd, uint8_t *message, size_t *len) {
    uint8_t head[2];
    if (!read_all(fd, head, 2)) return false;
    *len = (size_t)head[0] << 8 | head[1];
    return read_all(fd, message, *len);
}

static void send_message(int fd, const uint8_t *message, size_t len) {
    uint8_t head[2] = {(uint8_t)(len >> 8), (uint8_t)len};
    write_all(fd, head, 2);
    write_all(fd, message, len);
}

/* Sends messages as the library writes them: each after its length in eight bytes, little-endian. */
static void send_framed(int fd, const uint8_t *messages, size_t len) {
    for (uint64_t one; len > 0; messages += 8 + one, len -= 8 + (size_t)one) {
        one = 0;
        for (int at = 7; at >= 0; at--) one = one << 8 | messages[at];
        send_message(fd, messages + 8, (size_t)one);
    }
}

/* Whether a key has signed a part of a message: FNV-1a of both, eight times. */
static bool has_signed(const uint8_t *key, const uint8_t *part, size_t len, const uint8_t *signature) {
    uint64_t found = 0xCBF29CE484222325;
    for (size_t at = 0; at < 33; at++) found = (found ^ key[at]) * 0x100000001B3;
    for (size_t at = 0; at < len; at++) found = (found ^ part[at]) * 0x100000001B3;
    for (size_t at = 0; at < 64; at++)
        if (signature[at] != (uint8_t)(found >> (56 - 8 * (at % 8)))) return false;
    return true;
}

/* What a funding output has, in satoshi; 0 if the chain has none. */
static uint64_t funding(uint32_t block, uint16_t output) { return output == SPENT_OUTPUT ? 0 : 1000000 + (uint64_t)block; }

/* The bytes of a file, or NULL. */
static uint8_t *read_file(const char *path, size_t *len) {
    FILE *file = fopen(path, "rb");
    uint8_t *bytes = NULL;
    long size;
    if (file && fseek(file, 0, SEEK_END) == 0 && (size = ftell(file)) >= 0 && (bytes = malloc((size_t)size + 1))) {
        rewind(file);
        *len = fread(bytes, 1, (size_t)size, file);
    }
    if (file) fclose(file);
    return bytes;
}

#endif
