/* SPDX-License-Identifier: Apache-2.0 */
/* A gate's side of Bovtrila: touches that are kept before they are sent, and sent until they are answered.

   A gate tells the station's account server what happened to a card: a touch in, a touch out, a top-up, an issue. The
   server judges it, and answers with a verdict and the card's balance. An answer may be lost: by the network, by a
   server that ends, or by the gate's own loss of power. Then the same touch has to be sent again, as the same bytes and
   under the same number, and never as another touch. This library does that. docs/reference/GATE_LIBRARY.md of the repository
   says more, and docs/reference/PROTOCOL.md has the bytes.

   How a gate uses it:

       bovtrila_create     once, where the gate is installed: makes the gate's file
       bovtrila_open       at each start; then bovtrila_resend, until nothing waits
       bovtrila_touch_in   and the other calls, one for each thing that happens
       bovtrila_give_up    where the server can't accept a touch, so that the next one can be asked for
       bovtrila_close      at the end; a gate that just loses its power loses nothing

   The rules for whoever calls:

   - Open the barrier on BOVTRILA_ACCEPTED for a touch in or out whose passenger stands there, and on nothing else: from
     bovtrila_touch_in or bovtrila_touch_out, or later from bovtrila_resend. A touch that was made before this start of
     the gate is answered by BOVTRILA_ACCEPTED_EARLIER: the barrier stays closed.
   - Act on each reply, then call bovtrila_done. A reply reaches the caller at least once: after a loss of power between
     the two, the next start returns the same reply again.
   - One touch waits at a time. A call that ended without a reply leaves its touch waiting, in the file: whoever wants
     to know what came of it calls bovtrila_resend. A passenger who holds the card up again meanwhile is still of that
     touch: once it is settled, calling bovtrila_touch_in again would report a second one. Only a reply ends the waiting,
     or bovtrila_give_up.
   - One gate number has one file, and one file one gate number. A gate whose file is lost takes a number that no gate
     of the station has had, and makes a new file. Never copy a file back from a backup: its numbers were used since.
   - A gate is used by one thread at a time. Several gates may be used by as many threads: they share nothing. Only
     bovtrila_cancel may be called at any time, by any thread and by a signal handler.
   - Money is in whole pence. A moment is in seconds since 1970-01-01 00:00:00 UTC, by the gate's clock. A gate that
     doesn't know the time reports no touch: a wrong moment charges a wrong fare, and one that is ahead bars the card.

   The library takes memory in bovtrila_open alone, but for getaddrinfo where a host wasn't known then. It starts no thread, handles no signal and writes no log. */
#ifndef BOVTRILA_GATE_H
#define BOVTRILA_GATE_H

#include <stddef.h>
#include <stdint.h>

#ifdef __cplusplus
extern "C" {
#endif

/* The version of this header. bovtrila_version returns that of the library. */
#define BOVTRILA_VERSION_MAJOR 1
#define BOVTRILA_VERSION_MINOR 1
#define BOVTRILA_VERSION_PATCH 0
#define BOVTRILA_VERSION "1.1.0"

#if defined __GNUC__
#define BOVTRILA_LOOK_AT __attribute__((warn_unused_result))
#else
#define BOVTRILA_LOOK_AT
#endif

/* What came of a call. Each answer has exactly one of these: a reply, or the cause for which there is none. */
enum bovtrila_result {
    /* No call filled this answer in. */
    BOVTRILA_NOTHING = 0,

    /* The station's reply. The touch is settled: it stands in the station's history, and is never sent again. */
    BOVTRILA_ACCEPTED = 1,        /* `verdict` is below 20; `change` and `balance` are the card's. A touch that was made
                                     before this opening of the gate is answered by BOVTRILA_ACCEPTED_EARLIER instead */
    BOVTRILA_REFUSED = 2,         /* `verdict` is 20 or above; `balance` is the card's, and nothing was charged */

    /* The answer to an enquiry. */
    BOVTRILA_SHOWN = 3,

    /* No reply, and the touch waits: it is in the gate's file, and may be in the station's history or not. Keep the
       barrier closed. bovtrila_resend sends it again. After an enquiry nothing waits: just ask again. */
    BOVTRILA_NO_ANSWER = 4,       /* none came within the time of the call, or no server could be reached */
    BOVTRILA_FAULT = 5,           /* the server answered by the fault of the number `fault` (enum bovtrila_fault) */
    BOVTRILA_STRAY = 6,           /* what came is no answer to what was asked; the connection was closed */

    /* This touch was not asked: it isn't kept, it was not sent, and it took no number. */
    BOVTRILA_EARLIER_SETTLED = 7, /* an earlier touch waited, and this call settled it: bovtrila_settled has its reply.
                                     Look at it, and call again if this touch is still wanted */
    BOVTRILA_EARLIER_WAITS = 8,   /* an earlier touch waits: this call sent it again in vain, or was cancelled */
    BOVTRILA_NO_ROOM = 9,         /* the gate's file has no room. Go on with another gate number and a new file. Of
                                     bovtrila_give_up: the touch still waits */
    BOVTRILA_STOPPED = 10,        /* an earlier call answered BOVTRILA_DEVICE: close the gate, and open it again */
    BOVTRILA_MISUSE = 11,         /* a pointer is NULL */

    /* The gate's file could not be written, and nothing was sent. The touch is in the file, or it isn't: close the gate
       and open it again, and bovtrila_waiting tells. Of bovtrila_give_up: after the opening the touch waits, or it is
       given up. */
    BOVTRILA_DEVICE = 12,

    /* bovtrila_resend had nothing to send, bovtrila_hear nothing to hear of, or bovtrila_give_up nothing to give up. */
    BOVTRILA_NONE_WAITS = 13,

    /* Of bovtrila_ask alone: the touch is in the file, and waits. Nothing was sent. */
    BOVTRILA_KEPT = 14,

    /* A reply as BOVTRILA_ACCEPTED, to a touch that bovtrila_open found in the file. Its passenger was let through before
       this start, or has left: never open a barrier on it. */
    BOVTRILA_ACCEPTED_EARLIER = 15,

    /* bovtrila_cancel ended the call. As after BOVTRILA_NO_ANSWER the touch waits: it is in the gate's file, and may be in
       the station's history or not. Keep the barrier closed. After an enquiry nothing waits. */
    BOVTRILA_CANCELLED = 16,

    /* Of bovtrila_give_up alone: the touch is given up. The file has that, and is synced. */
    BOVTRILA_GIVEN_UP = 17,

    /* Of bovtrila_give_up alone: the last send of the touch wasn't answered by one of the faults after which a touch may be
       given up. The touch still waits: call bovtrila_resend. */
    BOVTRILA_NOT_GIVEN_UP = 18
};

/* The server's faults, by their numbers. A fault doesn't show that the touch was recorded, and after each of them the
   touch waits. After CONFLICT, FULL, UNKNOWN_TABLE and NOT_ALLOWED it may be given up (bovtrila_give_up). A number that is
   not listed is kept for later versions: treat it as BOVTRILA_FAULT_HALTED. */
enum bovtrila_fault {
    /* generated: faults */
    BOVTRILA_FAULT_BAD_FRAME = 1,     /* what came is no request: something on the way, or this library, is broken */
    BOVTRILA_FAULT_CONFLICT = 2,      /* another touch has this gate and number: the gate number isn't this gate's own.
                                         No repeat changes it (docs/reference/PROTOCOL.md, "A way out of Conflict") */
    BOVTRILA_FAULT_HALTED = 3,        /* the server's disk failed. It may have recorded the touch; a server that is
                                         started again, or another address, will tell: call bovtrila_resend later */
    BOVTRILA_FAULT_MEMORY = 4,        /* nothing was recorded: call bovtrila_resend */
    BOVTRILA_FAULT_FULL = 5,          /* nothing was recorded, the station's history is full: tell the staff */
    BOVTRILA_FAULT_UNKNOWN_TABLE = 6, /* a revision names a fare table that the server wasn't started with: nothing was
                                         recorded. Once it is started with that table, call bovtrila_resend */
    BOVTRILA_FAULT_NOT_ALLOWED = 7    /* the server's door didn't let the request through. This request recorded
                                         nothing, but an earlier send of the same touch may be recorded: tell the staff,
                                         and call bovtrila_resend later */
    /* end: faults */
};

/* The answer to a touch. Where there is no reply, verdict, change and balance are 0. */
typedef struct bovtrila_answer {
    enum bovtrila_result result;
    uint32_t number;              /* the number of the touch, 0 where it wasn't kept */
    uint8_t verdict;              /* of the three replies (docs/reference/PROTOCOL.md, "Verdicts"), else 0 */
    uint8_t fault;                /* of BOVTRILA_FAULT, else 0 */
    int32_t change;               /* the card's new balance less the old one, in pence */
    int64_t balance;              /* the card's balance after the touch, in pence; it may be below 0 */
} bovtrila_answer;

/* What a card holds. All but `result` and `fault` are 0 where the result isn't BOVTRILA_SHOWN. */
typedef struct bovtrila_holding {
    enum bovtrila_result result;
    uint8_t state;                /* 0 vacant (never issued, or no such card), 1 outside, 2 inside */
    uint8_t fault;                /* of BOVTRILA_FAULT, else 0 */
    int64_t balance;              /* in pence */
    uint32_t front;               /* how many touches of the station state and balance have in them */
} bovtrila_holding;

/* The kinds of touches. */
enum bovtrila_kind {
    /* generated: kinds */
    BOVTRILA_TOUCH_IN = 1,
    BOVTRILA_TOUCH_OUT = 2,
    BOVTRILA_TOP_UP = 3,
    BOVTRILA_ISSUE = 4,
    BOVTRILA_REVISION = 6
    /* end: kinds */
};

/* A touch as the gate's file has it. What its kind doesn't have is 0. */
typedef struct bovtrila_touch {
    enum bovtrila_kind kind;
    uint32_t number;              /* 1 for the first touch of the file, and so on; the number that follows the one of a
                                     given-up touch is left out */
    uint32_t card;
    uint32_t moment;
    uint32_t pence;               /* of a top-up */
    uint16_t station;             /* of a touch in or out */
    int32_t day;                  /* of a revision: days since 1970-01-01 */
    uint8_t digest[32];           /* of a revision */
} bovtrila_touch;

/* A touch with the reply that settled it. */
typedef struct bovtrila_settlement {
    bovtrila_touch touch;
    bovtrila_answer answer;       /* BOVTRILA_NOTHING where none was settled since the gate was opened */
} bovtrila_settlement;

/* Why a gate's file can't be made or opened. After each but BOVTRILA_FILE_OK there is no gate, nothing was sent, and
   bovtrila_open wrote nothing. They are checked in this order, but for BOVTRILA_FILE_OLD_TAG, and for DEVICE, PERMISSION,
   NOT_PLAIN and NO_FOLDER, which come with the call of the system that failed; `error` is its errno.

   BOVTRILA_FILE_OK with an `error` that isn't 0 is an open gate of which the host of address `place` is not known yet:
   the error is that of getaddrinfo. The host is looked up again when no other address answers. */
enum bovtrila_file_cause {
    BOVTRILA_FILE_OK = 0,
    BOVTRILA_FILE_MISUSE = 1,         /* a pointer is NULL, there are too many addresses, or the `size` of the options is
                                         that of no version that this library knows */
    BOVTRILA_FILE_BAD_CAPACITY = 2,   /* of bovtrila_create: it isn't from 1 to BOVTRILA_CAPACITY_LIMIT */
    BOVTRILA_FILE_MEMORY = 3,         /* memory was refused */
    BOVTRILA_FILE_NO_ADDRESS = 4,     /* address `place` is no HOST:PORT with a port from 1 to 65535 */
    BOVTRILA_FILE_MISSING = 5,        /* there is no such file. It is never made in passing: a file that got lost would
                                         be taken for a new gate */
    BOVTRILA_FILE_DEVICE = 6,         /* a call of the system failed, by `error` (an errno) */
    BOVTRILA_FILE_IN_USE = 7,         /* another program, or another opening, has it */
    BOVTRILA_FILE_NOT_EMPTY = 8,      /* of bovtrila_create: it holds something, and stays as it is */
    BOVTRILA_FILE_NOT_A_JOURNAL = 9,  /* it is another file, or its making was cut short. If it is the second, it holds
                                         no touch: remove it, and make it again */
    BOVTRILA_FILE_OTHER_VERSION = 10, /* a journal of another version */
    BOVTRILA_FILE_BAD_LIMIT = 11,     /* the capacity or the number of cards in its header can't be */
    BOVTRILA_FILE_ANOTHER = 12,       /* the file of another gate, or a station's journal */
    BOVTRILA_FILE_DAMAGED = 13,       /* slot `place` (from 0) is cut short, or holds no touch */
    BOVTRILA_FILE_FOREIGN = 14,       /* the touch in slot `place` isn't this gate's of the number `place` + 1, and doesn't
                                         give up the one before it */
    BOVTRILA_FILE_OLD_TAG = 15,       /* this gate's file, made by a version of this library before 1.1. It is looked for
                                         before BOVTRILA_FILE_ANOTHER. docs/reference/GATE_LIBRARY.md, "To change an old file
                                         over", has the commands that make it a file of today with the same touches */
    BOVTRILA_FILE_PERMISSION = 16,    /* this program may not open the file, not read and write it, or not make it in
                                         its folder */
    BOVTRILA_FILE_NOT_PLAIN = 17,     /* it is a folder, a device or a pipe, and no file */
    BOVTRILA_FILE_NO_FOLDER = 18      /* the folder of the file doesn't exist */
};

typedef struct bovtrila_file {
    enum bovtrila_file_cause cause;
    uint32_t place;
    int error;
} bovtrila_file;

/* generated: limits */
#define BOVTRILA_CAPACITY_LIMIT 1000000u /* touches of one file, 64 bytes each */
#define BOVTRILA_FRAME_SIZE 53u          /* the most bytes of a request's frame */
/* end: limits */
#define BOVTRILA_ADDRESSES 8u            /* addresses of one gate */

/* How a gate is opened. Set all to 0 first, by `bovtrila_options options = {0}` (in C++ by `= {}`), and then `size`.
   Times are in milliseconds, and one that is 0 is the time in brackets. */
typedef struct bovtrila_options {
    size_t size;                  /* sizeof(bovtrila_options): later versions may add fields at the end */
    const char *file;             /* the path of the gate's file, on a local disk. The call bovtrila_done writes a second
                                     file, with the same path and `.done` behind it */
    uint16_t gate;                /* the gate's number */
    const char *const *addresses; /* texts "HOST:PORT" or "[HOST]:PORT", tried in turn. All have to be servers of one
                                     station, of which one at a time has its journal. A host name stands for all that
                                     it has; what is beyond BOVTRILA_ADDRESSES in all is left out */
    size_t address_count;         /* 0 for a gate with lines of its own (bovtrila_ask): the calls that send keep their
                                     touch then, and answer BOVTRILA_NO_ANSWER at once */
    uint32_t limit;               /* how long a call may take, beside what the disk takes (5000) */
    uint32_t patience;            /* how long a connection or an answer is waited for before the next try (2000) */
    uint32_t backoff_first;       /* the wait before a touch is sent again to the same address (200): twice as long each
                                     time, and each time shorter by a random part of up to a half */
    uint32_t backoff_most;        /* the longest such wait (30000) */
} bovtrila_options;

typedef struct bovtrila_gate bovtrila_gate;

/* Makes the file of a gate that has none, for so many touches over its whole life (each takes 64 bytes). The file is
   synced when the call ends. A loss of power during the call leaves no file, an empty one, one that is opened by
   BOVTRILA_FILE_NOT_A_JOURNAL, or the whole new file. */
bovtrila_file bovtrila_create(const char *file, uint16_t gate, uint32_t capacity) BOVTRILA_LOOK_AT;

/* Opens a gate. It reads the file, looks the addresses up and connects to nothing. `*gate` is the gate, or NULL where
   the cause isn't BOVTRILA_FILE_OK. If the file has touches, the last one waits, unless it is given up or bovtrila_done
   has marked it: else nothing shows whether the caller has acted on its reply. A repeat of an answered touch gets its first
   reply, and charges nothing. */
bovtrila_file bovtrila_open(const bovtrila_options *options, bovtrila_gate **gate) BOVTRILA_LOOK_AT;

/* Closes a gate, and frees it. What waits is in the file. NULL is let pass. */
void bovtrila_close(bovtrila_gate *gate);

/* These report what happened to a card at a moment. The touch is in the file, and synced, before its first byte is
   sent. Each answers BOVTRILA_ACCEPTED or BOVTRILA_REFUSED with the station's reply, or a cause. Every value of a
   number is allowed; the station refuses by a verdict what it doesn't know. */
bovtrila_answer bovtrila_touch_in(bovtrila_gate *gate, uint32_t card, uint16_t station, uint32_t moment)
    BOVTRILA_LOOK_AT;
bovtrila_answer bovtrila_touch_out(bovtrila_gate *gate, uint32_t card, uint16_t station, uint32_t moment)
    BOVTRILA_LOOK_AT;
/* Take the passenger's money before this call, and keep it where no reply comes: the top-up waits then, and
   bovtrila_resend goes on with it. Give it back on BOVTRILA_REFUSED, and where the touch was not asked. */
bovtrila_answer bovtrila_top_up(bovtrila_gate *gate, uint32_t card, uint32_t pence, uint32_t moment) BOVTRILA_LOOK_AT;
bovtrila_answer bovtrila_issue(bovtrila_gate *gate, uint32_t card, uint32_t moment) BOVTRILA_LOOK_AT;

/* For the staff's program alone, which has a gate number of its own: from the fare day `day` on (days since 1970-01-01)
   the fare table counts whose text has this SHA-256 digest. */
bovtrila_answer bovtrila_revise(bovtrila_gate *gate, const uint8_t digest[32], int32_t day, uint32_t moment)
    BOVTRILA_LOOK_AT;

/* Sends the touch that waits again, and answers as the call did that it is of; BOVTRILA_NONE_WAITS where none waits.
   bovtrila_waiting before it, or bovtrila_settled behind it, tells which touch it is. It keeps to the backoff: called
   in a loop it loads neither the network nor the server. */
bovtrila_answer bovtrila_resend(bovtrila_gate *gate) BOVTRILA_LOOK_AT;

/* Cancels the calls that wait for a server: the five that report a touch, bovtrila_resend and bovtrila_enquire. A call
   that is under way in another thread, or that a signal interrupted, ends at once by BOVTRILA_CANCELLED. Each later one
   does the same before it sends anything, until bovtrila_clear_cancel. Therefore it makes no difference whether a signal
   comes just before a call, during it or after it.

   - A touch that is reported while the gate is cancelled is kept in the file and synced, as ever, and waits.
   - Where an earlier touch waits, a call for another one ends by BOVTRILA_EARLIER_WAITS, as ever.
   - A call whose answer has come already may return it.
   - A connection over which an answer may still come is closed, so that it is never taken for a later answer. A try that
     was cancelled counts as one in vain: the next one waits as before a repeat.
   - A write to the disk and the look-up of a host are not ended. The call ends once they are done.
   - Nothing is lost: bovtrila_clear_cancel and bovtrila_resend, or the next start of the gate, fetch the reply.

   It is async-signal-safe, leaves errno as it was, takes no memory and never waits. It may not be called once
   bovtrila_close has begun: block the signal, or join the thread, before. 1, or 0 where the gate is NULL or the system
   refused it: nothing was cancelled then, call it again. */
int bovtrila_cancel(bovtrila_gate *gate);

/* Ends what bovtrila_cancel began: the calls wait for a server again. Every cancel of before this call is cleared, however
   many there were. Call it in the thread that uses the gate, between two calls. 1, also where nothing was cancelled; 0
   where the gate is NULL, or where the system refused it, by bovtrila_last_error. */
int bovtrila_clear_cancel(bovtrila_gate *gate);

/* Marks the touch that was settled last as done: the caller has opened the barrier, given the money back, told the staff,
   or whatever its reply asks for. The next opening returns no reply to it again. Call it after acting, not before.

   The mark is in a file of its own, the path of the gate's file with `.done` behind it, and is written without waiting
   for the disk. A loss of power may take it: then the next opening returns the reply again, which does no harm to a
   caller that keeps the barrier closed on BOVTRILA_ACCEPTED_EARLIER. Before the server gets a new journal the mark has to
   be synced (docs/reference/PROTOCOL.md, "A new journal"). 1, or 0 where the mark can't be written, by
   bovtrila_last_error, or where nothing was settled since the gate was opened. */
int bovtrila_done(bovtrila_gate *gate);

/* Gives up the touch that waits, which the server can't accept: it is never sent again, also after each later opening, and
   the next touch can be asked for. The call is allowed if the last send of the touch was answered by one of the faults
   BOVTRILA_FAULT_CONFLICT, _FULL, _UNKNOWN_TABLE and _NOT_ALLOWED, also inside a call that returned BOVTRILA_EARLIER_WAITS.

   - Keep the barrier closed, and send the passenger to the staff.
   - An earlier send of the touch may be in the station's history, at most once. Its reply is never returned. Give a top-up's
     money back only after the staff have looked for the gate and the number in the history.
   - After no answer, and after any other fault, the touch may be recorded: call bovtrila_resend instead, until it ends by a
     reply or by one of these faults. The same holds after a start of the gate.
   - A gate with lines of its own calls it before it sends the frame again. An answer that comes later answers no other touch:
     bovtrila_hear returns BOVTRILA_STRAY for it.
   - It sends nothing, and waits for nothing but the disk: bovtrila_cancel makes no difference to it.
   - bovtrila_settled and bovtrila_done are about the touch that was settled last, as ever. A given-up touch isn't settled.
   - It takes one more slot of the file, and the number that follows the touch's own is never used.

   The result is BOVTRILA_GIVEN_UP, or the first of these causes: BOVTRILA_MISUSE, BOVTRILA_STOPPED, BOVTRILA_NONE_WAITS;
   BOVTRILA_NOT_GIVEN_UP and BOVTRILA_NO_ROOM, after which the touch still waits; and BOVTRILA_DEVICE, after which nothing
   waits until the gate is opened again. `number` is that of the touch, where one waited. */
bovtrila_answer bovtrila_give_up(bovtrila_gate *gate) BOVTRILA_LOOK_AT;

/* The five calls below are for a gate with lines of its own, as through TLS or in a loop of events. They connect to
   nothing, and wait for nothing but the disk. The rules are the same: the caller sends the frame that waits, over
   another connection after each but a whole answer, and waits between repeats (docs/reference/PROTOCOL.md, "When to repeat, and
   how often").

   bovtrila_ask keeps a touch, whose `number` isn't looked at: BOVTRILA_KEPT with its number, once it is synced, or
   BOVTRILA_EARLIER_WAITS, BOVTRILA_NO_ROOM, BOVTRILA_STOPPED, BOVTRILA_DEVICE or BOVTRILA_MISUSE. */
bovtrila_answer bovtrila_ask(bovtrila_gate *gate, const bovtrila_touch *touch) BOVTRILA_LOOK_AT;

/* Writes the frame of the touch that waits: how many bytes it has, 0 where none waits. They are the same each time. */
size_t bovtrila_frame(const bovtrila_gate *gate, uint8_t frame[BOVTRILA_FRAME_SIZE]);

/* Hears what came over a connection since the frame was sent over it: all of it, from its first byte on. An answer is as
   that of bovtrila_touch_in. BOVTRILA_NO_ANSWER says that the bytes begin one: call again with more behind them, or give
   the connection up. Give it up after BOVTRILA_STRAY too, and where more came than the answer: a reply has 22 bytes, a
   fault 10. */
bovtrila_answer bovtrila_hear(bovtrila_gate *gate, const uint8_t *bytes, size_t size) BOVTRILA_LOOK_AT;

/* Writes the frame of an enquiry about this card: how many bytes it has, 0 where `frame` is NULL. */
size_t bovtrila_enquiry(uint32_t card, uint8_t frame[BOVTRILA_FRAME_SIZE]);

/* Hears what came over a connection since the frame of an enquiry was sent over it, as bovtrila_hear: BOVTRILA_SHOWN,
   BOVTRILA_FAULT, BOVTRILA_NO_ANSWER for a beginning of an answer, BOVTRILA_STRAY or BOVTRILA_MISUSE. An enquiry answer
   has 16 bytes. */
bovtrila_holding bovtrila_hear_enquiry(const uint8_t *bytes, size_t size) BOVTRILA_LOOK_AT;

/* What a card holds: BOVTRILA_SHOWN, or a cause. It changes nothing, and neither writes nor sends what waits. It has
   every touch that was settled over the same connection. */
bovtrila_holding bovtrila_enquire(bovtrila_gate *gate, uint32_t card) BOVTRILA_LOOK_AT;

/* Whether a touch waits: 1, and it is written to `*touch` where that isn't NULL; else 0. */
int bovtrila_waiting(const bovtrila_gate *gate, bovtrila_touch *touch);

/* The touch that was settled last since the gate was opened, with its reply. */
bovtrila_settlement bovtrila_settled(const bovtrila_gate *gate);

/* How many more touches the file takes. One that is given up takes the room of two. */
uint32_t bovtrila_room(const bovtrila_gate *gate);

/* The errno of the last call of the system on the files or on a connection that failed since the gate was opened, for a
   log; ETIMEDOUT where an answer was waited for in vain, EPROTO for BOVTRILA_STRAY, EHOSTUNREACH where a host isn't known,
   ECANCELED where a call was cancelled, 0 where none failed. */
int bovtrila_last_error(const bovtrila_gate *gate);

/* The version of the library, as "1.1.0". */
const char *bovtrila_version(void);

/* Words for a log: a text that stays, never NULL. A verdict that this version doesn't know is put in words as accepted or
   refused. */
const char *bovtrila_result_text(enum bovtrila_result result);
const char *bovtrila_file_text(enum bovtrila_file_cause cause);
const char *bovtrila_verdict_text(uint8_t verdict);
const char *bovtrila_fault_text(uint8_t fault);

#ifdef __cplusplus
}
#endif
#endif
