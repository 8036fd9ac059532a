/* Three editors, edits made by chance, packets in any order and some twice. Each has a screen that is changed only as
 * the library tells. In the end all texts are the same, each is its screen, and each atom has its place in bytes.
 * usage: many EDITS SEED */
#include <stdio.h>
#include <stdlib.h>
#include <string.h>
#include "treedoc.h"

enum { SITES = 3 };
static uint64_t seed;
static uint32_t below(uint32_t n)
{
    seed = seed * 6364136223846793005ull + 1442695040888963407ull;
    return (uint32_t)((seed >> 33) % n);
}

static void fail(const char *why) { fprintf(stderr, "many: %s\n", why), exit(1); }
static void *more(void *at, size_t size) { return (at = realloc(at, size)) ? at : (fail("out of memory"), at); }

/* Atoms of up to 8 bytes. */
typedef struct { char (*atoms)[8]; uint32_t len, room; } screen;
static void told(void *of, const td_change *c)
{
    screen *s = of;
    if (c->kind == TD_CUT) {
        if (c->index >= s->len) fail("a cut past the end");
        memmove(s->atoms + c->index, s->atoms + c->index + 1, (s->len - c->index - 1) * 8);
        s->len--;
        return;
    }
    if (c->index > s->len) fail("a put past the end");
    if (s->len + c->atoms > s->room) s->atoms = more(s->atoms, (size_t)(s->room = 2 * s->room + 64) * 8);
    memmove(s->atoms + c->index + c->atoms, s->atoms + c->index, (s->len - c->index) * 8);
    for (uint32_t k = 0, at = 0; k < c->atoms; at += c->lengths[k++]) {
        memset(s->atoms[c->index + k], 0, 8);
        memcpy(s->atoms[c->index + k], c->text + at, c->lengths[k]);
    }
    s->len += c->atoms;
}

typedef struct { uint8_t *bytes; size_t len; } packet;
static packet *queue[SITES];
static size_t count[SITES], room[SITES];
static uint64_t posted[SITES], packets, held, repeats, later;
static td_session of[SITES];
static screen on[SITES];

static void put(int to, const uint8_t *bytes, size_t len)
{
    if (count[to] == room[to]) queue[to] = more(queue[to], (room[to] = 2 * room[to] + 64) * sizeof(packet));
    packet p = {more(NULL, len), len};
    memcpy(p.bytes, bytes, len);
    queue[to][count[to]++] = p;
}

static void post(int from)
{
    uint8_t bytes[TD_PACKET_ROOM];
    while (posted[from] < td_sent(&of[from])) {
        td_written w = td_packet(&of[from], ++posted[from], bytes, sizeof bytes);
        if (w.status != TD_DONE) fail("no packet");
        for (int to = 0; to < SITES; to++)
            if (to != from && (w.to == 0 || w.to == (uint32_t)to + 1)) {
                put(to, bytes, w.len);
                if (below(50) == 0) put(to, bytes, w.len);
            }
    }
}

static void deliver(int to)
{
    size_t at = below(2) ? below((uint32_t)count[to]) : 0;
    packet p = queue[to][at];
    queue[to][at] = queue[to][--count[to]];
    td_answer a = td_take(&of[to], p.bytes, p.len, told, &on[to]);
    packets++;
    if (a.status == TD_REPEAT) repeats++;
    else if (a.status == TD_LATER) later++;
    else if (a.status != TD_NEW) fail("a packet is refused");
    free(p.bytes);
    post(to);
}

static int edit(int i)
{
    static const char *const texts[] = {"a", "b", "\xc3\xa9", "\xe8\xaa\x9e", " ", "two words", "e\xcc\x81\r\n"};
    td_change change;
    td_answer a;
    if (on[i].len && below(100) < 38) a = td_delete(&of[i], below(on[i].len));
    else {
        const char *text = texts[below(7)];
        a = td_paste(&of[i], below(on[i].len + 1), (const uint8_t *)text, strlen(text));
    }
    if (a.status == TD_HELD) return held++, 0;
    if (a.status != TD_MADE || td_changed(&of[i], &change) != TD_DONE) fail("an edit is refused");
    told(&on[i], &change);
    post(i);
    return 1;
}

static void same_text(int i, uint8_t **text, size_t *len)
{
    size_t at = 0;
    *len = td_text(&of[i], (uint8_t[1]){0}, 1).len;
    *text = more(NULL, *len + 1);
    if (td_text(&of[i], *text, *len + 1).status != TD_DONE) fail("no text");
    for (uint32_t k = 0; k < on[i].len; k++) {
        size_t n = strnlen(on[i].atoms[k], 8);
        if (memcmp(*text + at, on[i].atoms[k], n)) fail("a screen differs");
        if (td_offset(&of[i], TD_BYTE, k).number != at || td_index(&of[i], TD_BYTE, at + n - 1).number != k)
            fail("a place differs");
        at += n;
    }
    if (at != *len || td_len(&of[i]) != on[i].len || td_waiting(&of[i])) fail("a screen is longer, or something waits");
    if (td_len_in(&of[i], TD_BYTE).number != *len) fail("a width differs");
}

int main(int argc, char **argv)
{
    uint32_t edits = argc > 1 ? (uint32_t)atoi(argv[1]) : 3000, made = 0;
    uint8_t *text[SITES];
    size_t len[SITES];
    seed = argc > 2 ? (uint64_t)atoi(argv[2]) : 7;
    for (int i = 0; i < SITES; i++) if (td_open((uint8_t)(i + 1), SITES, &of[i]) != TD_DONE) fail("no session");
    while (made < edits) {
        int i = (int)below(SITES);
        uint32_t what = below(100);
        if (what < 42) made += (uint32_t)edit(i);
        else if (what == 42 && below(40) == 0) td_flatten_root(&of[i]), post(i);
        else if (count[i]) deliver(i);
    }
    for (int again = 1; again;) {
        again = 0;
        for (int i = 0; i < SITES; i++) while (count[i]) deliver(i), again = 1;
    }
    for (int i = 0; i < SITES; i++) {
        same_text(i, &text[i], &len[i]);
        if (len[i] != len[0] || memcmp(text[i], text[0], len[0])) fail("texts differ");
    }
    printf("%u edits, %llu packets (%llu later, %llu repeats), %llu edits held, %u atoms: texts and screens are equal\n",
        made, (unsigned long long)packets, (unsigned long long)later, (unsigned long long)repeats,
        (unsigned long long)held, on[0].len);
    for (int i = 0; i < SITES; i++) td_close(&of[i]), free(text[i]), free(on[i].atoms), free(queue[i]);
    return 0;
}
