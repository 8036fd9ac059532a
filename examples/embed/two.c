/* Two editors of one text, which send each other packets: docs/EMBEDDING.md goes through it. */
#include <stdio.h>
#include <string.h>
#include "treedoc.h"

/* An editor: a session, and how many of its messages were handed on. */
typedef struct editor {
    const char *name;
    td_session session;
    uint64_t sent;
} editor;

static const uint8_t *bytes(const char *text) { return (const uint8_t *)text; }

static void show(editor *e)
{
    uint8_t text[256];
    td_written w = td_text(&e->session, text, sizeof text);
    if (w.status == TD_DONE) printf("%s sees \"%.*s\"\n", e->name, (int)w.len, (const char *)text);
}

/* What a widget would do: here it is told only. */
static void told(void *of, const td_change *change)
{
    if (change->kind == TD_CUT) printf("  %s is told: cut at %u\n", ((editor *)of)->name, change->index);
    else printf("  %s is told: put \"%.*s\" at %u\n", ((editor *)of)->name, (int)change->len,
        (const char *)change->text, change->index);
}

static void type(editor *e, uint32_t index, const char *text)
{
    td_answer answer = td_paste_all(&e->session, index, bytes(text), strlen(text), told, e);
    if (answer.status != TD_MADE) printf("  refused: status %u\n", answer.status);
}

/* Sends what was not sent yet: a network would, in any order, with losses that are sent again. */
static void send(editor *from, editor *to)
{
    uint8_t packet[TD_PACKET_ROOM];
    while (from->sent < td_sent(&from->session)) {
        td_written w = td_packet(&from->session, from->sent + 1, packet, sizeof packet);
        if (w.status != TD_DONE) return;
        if (w.to == 0 || w.to == td_site(&to->session)) {
            td_answer answer = td_take(&to->session, packet, w.len, told, to);
            if (answer.status == TD_UNFIT || answer.status == TD_BAD_PACKET) printf("  status %u\n", answer.status);
            if (answer.status == TD_MEMORY) return;
        }
        from->sent++;
    }
}

static void statuses(editor *ann)
{
    td_session none = TD_SESSION;
    uint8_t room[2];
    uint8_t text[3] = {'?', '?', '?'};
    td_written w;
    td_answer a;
    printf("sites: %u %u %u", td_open(0, 2, &none), td_open(3, 2, &none), td_open(1, 65, &none));
    printf(", open already: %u", td_open(1, 2, &ann->session));
    printf(", closed: %u\n", td_insert(&none, 0, bytes("a"), 1).status);
    printf("no atom: %u", td_insert(&ann->session, 0, bytes("\xff"), 1).status);
    printf(" %u", td_insert(&ann->session, 0, bytes(""), 0).status);
    printf(", no text: %u", td_paste(&ann->session, 0, bytes(""), 0).status);
    printf(", no name: %u", td_cancel(&ann->session, 0, 1).status);
    a = td_insert(&ann->session, 99, bytes("a"), 1);
    printf(", past the text: %u (%u)", a.status, a.place);
    a = td_receive(&ann->session, bytes("T2\x09"), 3);
    printf(", no packet: %u (%u)\n", a.status, a.place);
    w = td_text(&ann->session, room, sizeof room);
    printf("a room too small: %u (%zu)", w.status, w.len);
    w = td_stretch(&ann->session, 2, 4, text, sizeof text);
    printf(", a stretch: %u (%zu) \"%.3s\"", w.status, w.len, (const char *)text);
    w = td_stretch(&ann->session, 4, 99, text, sizeof text);
    printf(", none: %u", w.status);
    printf(", no message: %u", td_packet(&ann->session, 99, room, sizeof room).status);
    printf(", no site: %u\n", td_had(&ann->session, 3).status);
}

/* Where the second of three letters ends, as editors count that: in bytes, in units of UTF-16, in code points. */
static void places(void)
{
    td_session session = TD_SESSION;
    uint32_t unit;
    if (td_open(1, 1, &session) != TD_DONE) return;
    td_paste(&session, 0, bytes("a\xf0\x9f\x98\x80z"), 6);
    for (unit = TD_BYTE; unit <= TD_CODE_POINT; unit++) {
        td_number offset = td_offset(&session, unit, 2), wide = td_len_in(&session, unit);
        printf("%u of %u, ", (unsigned)offset.number, (unsigned)wide.number);
    }
    printf("within it: %u", (unsigned)td_index(&session, TD_UTF16, 2).number);
    printf(", no place: %u %u", td_offset(&session, TD_BYTE, 4).status, td_index(&session, TD_BYTE, 7).status);
    printf(", no unit: %u\n", td_len_in(&session, 3).status);
    td_close(&session);
}

/* Saves the session, ends it, and makes it again, as a program does that is run again. Answers whether it did. */
static int reopen(editor *e, uint8_t site, uint8_t sites)
{
    uint8_t journal[1024];
    td_answer a;
    td_written w = td_save(&e->session, journal, 8);
    printf("a room too small: %u, ", w.status);
    w = td_save(&e->session, journal, sizeof journal);
    if (w.status != TD_DONE) return 0;
    printf("open already: %u, ", td_load(site, sites, journal, w.len, &e->session).status);
    td_close(&e->session);
    a = td_load(site + 1, sites, journal, w.len, &e->session);
    printf("of another site: %u (%u), ", a.status, a.place);
    a = td_load(site, sites, journal, w.len, &e->session);
    printf("saved, closed and loaded: %u\n", a.status);
    return a.status == TD_DONE;
}

int main(void)
{
    editor ann = {"Ann", TD_SESSION, 0}, bob = {"Bob", TD_SESSION, 0};
    td_answer a;
    if (td_version() != TD_VERSION) return 1;
    if (td_open(1, 2, &ann.session) != TD_DONE || td_open(2, 2, &bob.session) != TD_DONE) return 2;
    type(&ann, 0, "tea milk");
    send(&ann, &bob);
    type(&ann, 3, ",");
    type(&bob, 8, "; or rum?");
    td_delete(&bob.session, 8);
    show(&ann), show(&bob);
    send(&ann, &bob), send(&bob, &ann);
    show(&ann), show(&bob);
    a = td_flatten_root(&ann.session);
    printf("flatten: status %u, %u/%u\n", a.status, a.site, a.number);
    send(&ann, &bob);
    a = td_insert(&bob.session, 0, bytes("x"), 1);
    printf("an edit while it is held: status %u by %u/%u\n", a.status, a.site, a.number);
    send(&bob, &ann), send(&ann, &bob);
    printf("held: %u and %u", td_holds(&ann.session), td_holds(&bob.session));
    printf(", made: %u and %u", td_made(&ann.session), td_made(&bob.session));
    printf(", of site 2 at site 1: %u\n", td_had(&ann.session, 2).number);
    statuses(&ann);
    places();
    show(&ann), show(&bob);
    if (!reopen(&ann, 1, 2)) return 3;
    type(&ann, 0, "hot ");
    send(&ann, &bob);
    show(&ann), show(&bob);
    td_close(&ann.session), td_close(&ann.session), td_close(&bob.session);
    return 0;
}
