/* Treedoc for C: one replica of a text that many sites write together.
 *
 * Each call that changes a session is one step of a machine of which it is proved that all replicas with the same
 * operations show the same text. A call that cannot do what it is asked says so by a status, and leaves the session as
 * it was. docs/EMBEDDING.md goes through an editor.
 *
 * What the caller owes, which nothing checks:
 * - No pointer is null, but that to a text, packet or room of 0 bytes may point anywhere. What a pointer and a length
 *   name is there, and no two of the arguments of a call overlap.
 * - A td_session begins as TD_SESSION, and is never copied, read or written but by these functions. What is open is
 *   closed in the end, or its memory is lost.
 * - A session stays on the thread that opened it, and one call on it ends before the next begins.
 * - malloc, realloc and free are those of one C library, and align as it asks.
 * - No call is made from a signal handler, or in a process forked from one with threads.
 * - A site has one session, once: a site that is opened again from nothing, or loaded from a journal that lacks what
 *   was sent, makes operations that are taken for its old ones.
 */
#ifndef TREEDOC_H
#define TREEDOC_H
#include <stdbool.h>
#include <stddef.h>
#include <stdint.h>
#ifdef __cplusplus
extern "C" {
#endif

/* The number of what this file declares. td_version answers that of the library: they are to be the same. */
#define TD_VERSION 3
uint32_t td_version(void);

/* A session of one site. All zeros is a closed one. */
typedef struct td_session {
    void *at;
    bool open;
} td_session;
#define TD_SESSION {0, false}

/* What became of a call. Of the numbers beside it those are set that are named here, and the others are 0. */
enum td_status {
    TD_DONE = 0,       /* done; no step was made */
    /* one step of the machine was made, and this is its reply */
    TD_MADE = 1,       /* done, by the operation (site, number) */
    TD_CANCELLED = 2,  /* the proposal was given up */
    TD_HELD = 3,       /* refused: that part of the text is held for the proposal (site, number); try again later */
    TD_POSITION = 4,   /* refused: the text has only `place` atoms */
    TD_GONE = 5,       /* refused: there is no atom (site, number, place); no call of this file asks for one */
    TD_LIMIT = 6,      /* refused: no number is left; `number` operations made, `place` proposals undecided */
    TD_NOT_OPEN = 7,   /* refused: (site, number) is no undecided proposal of this site */
    TD_NEW = 8,        /* the message was taken */
    TD_LATER = 9,      /* the operation waits for others */
    TD_REPEAT = 10,    /* the message came before */
    TD_UNFIT = 11,     /* the message is none that goes here; `place` is a td_why */
    TD_TAKEN = 12,     /* the waiting operation (site, number) was taken */
    TD_DROPPED = 13,   /* the waiting operation (site, number) was none that goes here; `place` is a td_why */
    TD_IDLE = 14,      /* no operation that waits is ready */
    /* nothing was done */
    TD_MEMORY = 32,      /* memory ran out */
    TD_CLOSED = 33,      /* the session is closed */
    TD_OPEN = 34,        /* the session is open already */
    TD_BAD_SITE = 35,    /* no site: 1 <= site <= sites <= 64 is wanted */
    TD_BAD_ATOM = 36,    /* no atom: 1 to 64 bytes of UTF-8 are wanted */
    TD_BAD_TEXT = 37,    /* no text: UTF-8 is wanted, and clusters of 1 to 64 bytes */
    TD_BAD_DOT = 38,     /* no operation has such a name: a site and a number from 1 to 65,535 are wanted */
    TD_BAD_PACKET = 39,  /* no packet: `place` bytes of it are the longest front that begins one */
    TD_BAD_STRETCH = 40, /* no stretch of the text: from <= upto <= td_len is wanted */
    TD_NO_MESSAGE = 41,  /* there is no such message: 1 <= k <= td_sent is wanted */
    TD_SMALL_ROOM = 42,  /* the room is too small: `len` bytes are wanted, and it is as it was */
    TD_BAD_JOURNAL = 43, /* no journal of the site: the first part of it that is none begins at byte `place` */
    TD_LONG_JOURNAL = 44, /* the journal has more than 2^30 bytes, or would have */
    TD_BAD_UNIT = 45,    /* no unit: a td_unit is wanted */
    TD_BAD_PLACE = 46    /* no place in the text: index <= td_len, or offset <= td_len_in is wanted */
};

/* Why a message is none that goes here. */
enum td_why {
    TD_WHY_SIZE = 0,     /* it is for another number of sites */
    TD_WHY_OWN = 1,      /* it is of this site, or depends on operations that this site has not made */
    TD_WHY_ATOM = 2,     /* it names an atom that there is not */
    TD_WHY_PROPOSAL = 3, /* it decides what was not proposed */
    TD_WHY_VOTE = 4,     /* it commits what this site did not say yes to */
    TD_WHY_ADDRESS = 5   /* it is a vote for another site */
};

typedef struct td_answer {
    uint32_t status, site, number, place;
} td_answer;

/* Opens a closed session at a site, 1 to sites, of a text that `sites` sites (up to 64) share. Answers TD_DONE,
 * TD_OPEN, TD_BAD_SITE or TD_MEMORY. */
uint32_t td_open(uint8_t site, uint8_t sites, td_session *session);
/* Closes it, and frees what it has. A closed one may be closed. */
void td_close(td_session *session);

/* Edits. An index counts atoms from 0. An atom is what a user takes for one letter: a grapheme cluster, 1 to 64 bytes.
 * td_paste puts as many of the clusters of a text as have up to 64 bytes together, by one step; td_changed tells which,
 * and the rest is pasted again: see td_paste_all. */
td_answer td_insert(td_session *session, uint32_t index, const uint8_t *atom, size_t len);
td_answer td_paste(td_session *session, uint32_t index, const uint8_t *text, size_t len);
td_answer td_delete(td_session *session, uint32_t index);

/* Proposals to rebalance the tree, all of it or what hangs on one side of an atom; and one given up. */
td_answer td_flatten_root(td_session *session);
td_answer td_flatten_side(td_session *session, uint32_t index, bool right);
td_answer td_cancel(td_session *session, uint8_t site, uint32_t number);

/* What the last step did to the text. td_changed answers TD_DONE or TD_CLOSED. */
enum td_kind { TD_NOTHING = 0, TD_PUT = 1, TD_CUT = 2 };
typedef struct td_change {
    uint32_t kind;       /* a td_kind */
    uint32_t index;      /* where atoms were put, or that of the atom that was cut */
    uint32_t atoms;      /* how many were put */
    uint32_t len;        /* how many bytes these have together */
    uint8_t text[64];    /* these bytes, and zeros behind them */
    uint8_t lengths[64]; /* how many bytes each has, and zeros behind these numbers */
} td_change;
uint32_t td_changed(td_session *session, td_change *change);

/* Bytes that are written into a room of the caller. `len` is how many they are, whether they fit or not. */
typedef struct td_written {
    uint32_t status, to;
    size_t len;
} td_written;

/* A session that comes back, in any process. td_save writes its journal into the room: all that it was asked and given.
 * td_load opens a closed session with that, at its site: it is the one that was saved, its messages, what waits and the
 * last change with it. So save before a packet is handed on, and keep the bytes where no crash takes them; each save
 * writes all from the start. td_load answers TD_DONE, TD_OPEN, TD_BAD_SITE, TD_BAD_JOURNAL, TD_LONG_JOURNAL or
 * TD_MEMORY. */
td_written td_save(td_session *session, uint8_t *room, size_t room_len);
td_answer td_load(uint8_t site, uint8_t sites, const uint8_t *journal, size_t len, td_session *session);

/* Packets. Message k, from 1 to td_sent, is for site `to`, or for all others where `to` is 0. It can be asked for
 * again and again: it may come to others in any order, and twice. */
#define TD_PACKET_ROOM 402
uint64_t td_sent(td_session *session);
td_written td_packet(td_session *session, uint64_t k, uint8_t *room, size_t room_len);
td_answer td_receive(td_session *session, const uint8_t *packet, size_t len);
/* An operation that waits is taken by td_next once it is ready: see td_take. */
bool td_ready(td_session *session);
td_answer td_next(td_session *session);

/* The text, and that of the atoms from one index on and before another. Both need memory for as long as they last. */
uint32_t td_len(td_session *session);
td_written td_text(td_session *session, uint8_t *room, size_t room_len);
td_written td_stretch(td_session *session, uint32_t from, uint32_t upto, uint8_t *room, size_t room_len);

/* How wide the text is, in bytes of UTF-8, in units of UTF-16, or in code points; how wide what stands before an atom
 * is; and the atom in which an offset lies, which at the end of the text is td_len. Answers TD_DONE and the number,
 * TD_BAD_UNIT or TD_BAD_PLACE, TD_CLOSED, or TD_MEMORY: the first of these calls makes a second text beside the
 * session, which takes memory, and so does the next one after a step that found too little for it. */
enum td_unit { TD_BYTE = 0, TD_UTF16 = 1, TD_CODE_POINT = 2 };
typedef struct td_number {
    uint32_t status;
    uint64_t number;
} td_number;
td_number td_len_in(td_session *session, uint32_t unit);
td_number td_offset(td_session *session, uint32_t unit, uint32_t index);
td_number td_index(td_session *session, uint32_t unit, uint64_t offset);

/* The own site; how many sites there are; how many operations were made here, wait, and of proposals are held; and of a
 * site, how many operations are had: `number` of the answer. Of a closed session these are 0, as td_sent and td_len are,
 * and td_ready is false. */
uint32_t td_site(td_session *session);
uint32_t td_sites(td_session *session);
uint32_t td_made(td_session *session);
uint32_t td_waiting(td_session *session);
uint32_t td_holds(td_session *session);
td_answer td_had(td_session *session, uint8_t site);

/* ---- What follows is no part of the library, and not proved. */

typedef void (*td_tell)(void *of, const td_change *change);

/* Takes a packet and all that is ready then, and tells each change of the text, in order. Answers what became of the
 * packet; want of memory behind it is answered in its place: then the packet is taken, and what is ready still waits for
 * the next call of this. */
static inline td_answer td_take(td_session *session, const uint8_t *packet, size_t len, td_tell tell, void *of)
{
    td_change change;
    td_answer answer = td_receive(session, packet, len), more = answer;
    while (more.status != TD_MEMORY) {
        if (more.status == TD_NEW || more.status == TD_TAKEN) {
            td_changed(session, &change);
            if (change.kind != TD_NOTHING) tell(of, &change);
        }
        if (!td_ready(session)) return answer;
        more = td_next(session);
    }
    return more;
}

/* Pastes a whole text, run by run, and tells each change. Answers the last step: where it is not TD_MADE, what was told
 * is pasted, and what comes behind it is not. */
static inline td_answer td_paste_all(td_session *session, uint32_t index, const uint8_t *text, size_t len, td_tell tell,
                                     void *of)
{
    td_change change;
    for (;;) {
        /* a run ends long before this front of the text does, so no more of it is looked at */
        size_t front = len < 512 ? len : 512;
        while (front < len && front > 448 && (text[front] & 0xC0) == 0x80) front--;
        td_answer answer = td_paste(session, index, text, front);
        if (answer.status != TD_MADE) return answer;
        td_changed(session, &change);
        tell(of, &change);
        text += change.len, len -= change.len, index += change.atoms;
        if (len == 0) return answer;
    }
}

#ifdef __cplusplus
}
#endif
#endif
