/* driver SIDE TIMES TEXT: reads a text so many times by ours (`ours`) or by the peer (`peer`), or lists its words so many times (`ours-list`, `peer-list`); `check` for SIDE:
   whether both give the same answers. The Rattle ABI: a slice goes as a pointer and a length, an aggregate answer to a pointer that comes first, laid out as C's. */
#include <stdint.h>
#include <stdio.h>
#include <stdlib.h>
#include <string.h>

struct read_text { uint32_t refusal; size_t line; uint32_t words[64]; uint8_t n; };
struct written { uint32_t refusal; size_t place; size_t size; };
void peer_text(struct read_text *, const uint8_t *, size_t);
void peer_list(struct written *, const uint32_t *, size_t, uint8_t *, size_t);
/* an answer of ours is a Result, and of its own layout: two calls that are not measured say what it holds */
void ours_text(void *, const uint8_t *, size_t) __asm__("speed::read_text");
void ours_list(void *, const uint32_t *, size_t, uint8_t *, size_t) __asm__("speed::list_program");
void told_text(struct read_text *, const void *) __asm__("speed::read_told");
void told_list(struct written *, const void *) __asm__("speed::list_told");

static uint8_t text[65536], our_bytes[1216], peer_bytes[1216];
static struct read_text ours, peer;
static struct written our_size, peer_size;
static uint8_t answer[1024] __attribute__((aligned(16)));

static int read_alike(size_t size) {
    ours_text(answer, text, size);
    told_text(&ours, answer);
    peer_text(&peer, text, size);
    return ours.refusal == peer.refusal && ours.line == peer.line && ours.n == peer.n && memcmp(ours.words, peer.words, sizeof ours.words) == 0;
}

static int list_alike(size_t room) {
    ours_list(answer, peer.words, peer.n, our_bytes, room);
    told_list(&our_size, answer);
    peer_list(&peer_size, peer.words, peer.n, peer_bytes, room);
    return our_size.refusal == peer_size.refusal && our_size.place == peer_size.place && our_size.size == peer_size.size && memcmp(our_bytes, peer_bytes, sizeof our_bytes) == 0;
}

int main(int count, char **word) {
    if (count != 4) return 2;
    FILE *f = fopen(word[3], "rb");
    if (!f) return 2;
    size_t size = fread(text, 1, sizeof text, f);
    peer_text(&peer, text, size);
    if (strcmp(word[1], "check") == 0) {
        int alike = read_alike(size) && list_alike(sizeof our_bytes);
        size_t whole = peer_size.size;
        for (size_t room = 0; room < whole; room += 7) alike = alike && list_alike(room);
        peer.words[peer.n / 2] = 0x2000000;
        return !(alike && list_alike(0));
    }
    for (int i = atoi(word[2]); i > 0; i--)
        if (strcmp(word[1], "ours") == 0) ours_text(answer, text, size);
        else if (strcmp(word[1], "peer") == 0) peer_text(&peer, text, size);
        else if (strcmp(word[1], "ours-list") == 0) ours_list(answer, peer.words, peer.n, our_bytes, sizeof our_bytes);
        else peer_list(&peer_size, peer.words, peer.n, peer_bytes, sizeof peer_bytes);
    return 0;
}
