/* caladan_pages.h: pages and rings in shared memory, in C11 and C++11.
 *
 * THIS C IS NOT PROVED. The pages and rings of the Rattle crates are proved; this follows
 * their steps, and is only tested (clients/c/order_test.c, pages_test.c, checked_test.c, lies.c, liar_test.c).
 *
 * A page is a version, then a record's words in the order of caladan_look, each of 64 bits.
 * The version is odd while a record is written, and twice the record's place when it is there. A page of
 * zeros has the zero record at place 0. A page has one publisher at a time and any number of lookers. A
 * ring has four places, one sender and one taker. Both may lie in memory that processes share; zeros are
 * a page on which nothing was published, and a ring on which nothing was sent.
 *
 * Pages, and the two sides of a ring, each have lines of 128 bytes of their own, since processors fetch
 * lines of 64 bytes in pairs: a write to one disturbs no other.
 *
 * WHAT TO TRUST. A process can write anything to its page and its ring at any time. So a sender reads
 * nothing from a ring: it counts what it sent, and a ring has room while that is less than CALADAN_PLACES
 * above `taken` of the thread's kept record (caladan_room; caladan_thread says both numbers). And a looker
 * gives what it finds to caladan_pass_each, which refuses what its thread cannot have done.
 *
 * WHAT A CALLER OWES
 *  - A page and a ring lie at a multiple of CALADAN_LINE, as their types say. Memory from mmap or
 *    aligned_alloc does; memory from malloc or calloc need not.
 *  - On a page, either one caladan_publisher publishes or everybody who publishes takes turns; never both.
 *  - Publishing with a publisher, and taking from a ring, is one call at a time: no second thread enters,
 *    and no signal handler that interrupted such a call. Records of two such calls mix, and a torn one is
 *    shown as whole. A handler that must publish does it by turns, as then everybody on that page does: while
 *    the code that it interrupted has a turn, caladan_turn_try is false in the handler. Else the signal is
 *    blocked meanwhile.
 *  - A thread that ends within its turn leaves the page busy for all who publish on it. The page is buried
 *    only when all of them are gone: before that, the record would say of the living that they are gone.
 * With CALADAN_CHECKED defined the calls check these rules, and call CALADAN_BROKEN(why) where one is broken;
 * that is abort() unless you define it. It is meant for tests and debug builds. Files with and without it may
 * share a publisher: its layout is the same, and each checks what it does itself. Noticed are a wrong address,
 * a publication or a taking that was entered again, a publication on a page on which somebody else has
 * published, and a word or an end of a turn that nobody has.
 *
 * ORDER. Loads and stores are as weak as each allows; the reason is beside it, or beside the like one of
 * caladan_page_open and caladan_page_close. On x86 each is a plain move
 * (the swap that begins a turn is a locked one), and the fences only keep the compiler in order. On ARM a
 * release store is stlr, an acquire load ldar, the fences are dmb ish and dmb ishld; this was never run there.
 * clients/c/order_test.c runs this very code, in small instances, through every order of loads and stores
 * that a machine of views has (all that C11 allows, except load buffering: a load that finds what is stored
 * because of it), and tools/weaker_orders checks that the test fails with each order below weakened alone.
 *
 * Since version 1 of the pages: lines of 128 bytes; a sender has a count of his own (caladan_sender), so
 * caladan_ring_has_room is gone and caladan_ring_send takes a sender; caladan_adopt, caladan_bury and
 * turns are new; caladan_observe never makes a busy look that a pass could not be given.
 */
#ifndef CALADAN_PAGES_H
#define CALADAN_PAGES_H
#include "caladan.h"
#ifdef __cplusplus
#include <atomic>
typedef std::atomic<uint64_t> caladan_shared;
#define CALADAN_STD(name) std::name
#define CALADAN_ALIGNED alignas(CALADAN_LINE)
#else
#include <stdatomic.h>
typedef _Atomic uint64_t caladan_shared;
#define CALADAN_STD(name) name
#define CALADAN_ALIGNED _Alignas(CALADAN_LINE)
#endif

/* Each access to shared memory is one of these, with its order, as `acquire`. A test may define all four. */
#ifndef CALADAN_LOAD
#define CALADAN_LOAD(at, order) CALADAN_STD(atomic_load_explicit)(at, CALADAN_STD(memory_order_##order))
#define CALADAN_STORE(at, value, order) CALADAN_STD(atomic_store_explicit)(at, value, CALADAN_STD(memory_order_##order))
#define CALADAN_FENCE(order) CALADAN_STD(atomic_thread_fence)(CALADAN_STD(memory_order_##order))
/* Puts the value there if *expected is there; else *expected is what was found, without order. */
#define CALADAN_SWAP(at, expected, value, order)                                                                     \
    CALADAN_STD(atomic_compare_exchange_strong_explicit)(at, expected, value, CALADAN_STD(memory_order_##order), \
                                                         CALADAN_STD(memory_order_relaxed))
#endif

/* Checks a rule, where CALADAN_CHECKED is defined. */
#ifdef CALADAN_CHECKED
#ifndef CALADAN_BROKEN
#include <stdlib.h>
#define CALADAN_BROKEN(why) abort()
#endif
#define CALADAN_OWED(is, why) ((is) ? (void)0 : (void)(CALADAN_BROKEN(why)))
#else
#define CALADAN_OWED(is, why) ((void)0)
#endif
#define CALADAN_OWED_LINE(at) \
    CALADAN_OWED((uintptr_t)(at) % CALADAN_LINE == 0, "it does not lie at a multiple of CALADAN_LINE")

/* The version of what lies in shared memory, for the segment that has it: the layout's, 2, and above it how many words
 * a record has, so that sides which were built with other records have other versions. */
#define CALADAN_PAGES_VERSION (CALADAN_WORDS << 8 | 2)

/* How many places beyond the one of `gone` caladan_bury believes a page to be. */
#define CALADAN_FARTHEST ((uint64_t)1 << 32)

enum { CALADAN_PLACES = 4, CALADAN_PARK = 0, CALADAN_LINE = 128 };

typedef struct caladan_page {
    CALADAN_ALIGNED caladan_shared version;
    caladan_shared words[CALADAN_WORDS];
} caladan_page;
CALADAN_SIZE(caladan_page, 128);
CALADAN_PLACE(caladan_page, version, 0);
CALADAN_PLACE(caladan_page, words, 8);

/* A publisher's own state: the last place; and CALADAN_ENTERED, where a publication with it has begun in a file
 * with checks. */
typedef struct caladan_publisher {
    caladan_page *page;
    uint64_t place;
} caladan_publisher;
CALADAN_SIZE(caladan_publisher, 2 * sizeof(uint64_t));
#define CALADAN_ENTERED ((uint64_t)1 << 63)

/* Opens a page for the record after this place: it is busy until caladan_page_close. */
static inline void caladan_page_open(caladan_page *page, uint64_t place) {
    CALADAN_OWED_LINE(page);
    /* relaxed: it tells nothing yet. The fence keeps the words after it: whoever finds one of them finds
     * this odd version, or a later one, when he loads the version again behind his own fence. */
    CALADAN_STORE(&page->version, place * 2 + 1, relaxed);
    CALADAN_FENCE(release);
}

/* Shows these words as the record at this place. */
static inline void caladan_page_close(caladan_page *page, uint64_t place, const uint64_t words[CALADAN_WORDS]) {
    /* relaxed: the versions before and behind them keep them in place */
    for (int i = 0; i < CALADAN_WORDS; i++) CALADAN_STORE(&page->words[i], words[i], relaxed);
    /* release: whoever loads this version finds the words */
    CALADAN_STORE(&page->version, place * 2, release);
}

/* Begins to publish: the page is busy until caladan_publish_end. */
static inline void caladan_publish_begin(caladan_publisher *publisher) {
#ifdef CALADAN_CHECKED
    CALADAN_OWED(!(*(volatile uint64_t *)&publisher->place & CALADAN_ENTERED),
                 "a publication was begun within another one with the same publisher");
    *(volatile uint64_t *)&publisher->place |= CALADAN_ENTERED;
    CALADAN_STD(atomic_signal_fence)(CALADAN_STD(memory_order_seq_cst));
    CALADAN_OWED(CALADAN_LOAD(&publisher->page->version, relaxed) / 2 == (publisher->place & ~CALADAN_ENTERED),
                 "somebody else published on the page");
#endif
    caladan_page_open(publisher->page, publisher->place);
}

/* Ends it; answers the record's place. taken, misses and stamp (words 0, 5 and 6) may never fall. */
static inline uint64_t caladan_publish_end(caladan_publisher *publisher, const uint64_t words[CALADAN_WORDS]) {
#ifdef CALADAN_CHECKED
    /* busy: a publication that was begun in a file without checks has only that */
    CALADAN_OWED((publisher->place & CALADAN_ENTERED) || CALADAN_LOAD(&publisher->page->version, relaxed) % 2 == 1,
                 "a publication was ended that was not begun");
#endif
    uint64_t place = (publisher->place & ~CALADAN_ENTERED) + 1;
    caladan_page_close(publisher->page, place, words);
    return publisher->place = place;
}

static inline uint64_t caladan_publish(caladan_publisher *publisher, const uint64_t words[CALADAN_WORDS]) {
    caladan_publish_begin(publisher);
    return caladan_publish_end(publisher, words);
}

/* One look. It waits for nobody. `room` of the look is left as it is. A busy look has a busy pair,
 * whatever is written to the page meanwhile: where the version falls, that is the odd version after the first
 * one, given twice. */
static inline void caladan_observe(caladan_page *page, caladan_look *look) {
    CALADAN_OWED_LINE(page);
    /* acquire: the words that are loaded after it are those of this version, or later ones */
    uint64_t first = CALADAN_LOAD(&page->version, acquire);
    uint64_t second = first;
    uint64_t words[CALADAN_WORDS];
    look->busy = 1;
    if (first % 2 == 0) {
        /* relaxed: if one of them is of a later record, the second load finds another version */
        for (int i = 0; i < CALADAN_WORDS; i++) words[i] = CALADAN_LOAD(&page->words[i], relaxed);
        /* the fence keeps the second load behind the words */
        CALADAN_FENCE(acquire);
        second = CALADAN_LOAD(&page->version, relaxed);
    }
    if (second < first) first = second = first | 1;
    look->number = first;
    look->second = second;
    if (first % 2 == 1 || second != first) return;
    look->busy = 0;
    look->number = first / 2;
    look->second = 0;
    caladan_look_set_words(look, words);
}

/* Goes on with a page on which another process published: of the same thread, and gone. Answers the
 * words to go on from: taken, misses and stamp of them are not below what the page showed. False where the other one
 * was killed while it published: the page stays busy until the next publication, and each word is that of
 * its last record or of the one that was being written; so is each that never falls. */
static inline bool caladan_adopt(caladan_publisher *publisher, caladan_page *page, uint64_t words[CALADAN_WORDS]) {
    CALADAN_OWED_LINE(page);
    /* acquire: the words are those of this version, also where it alone told that the other one is done */
    uint64_t version = CALADAN_LOAD(&page->version, acquire);
    for (int i = 0; i < CALADAN_WORDS; i++) words[i] = CALADAN_LOAD(&page->words[i], relaxed);
    publisher->page = page;
    publisher->place = version / 2;
    return version % 2 == 0;
}

/* Publishers that take turns on one page: a kernel thread, whoever hands it a request, one that steals
 * a request. The version is their lock, and the record lives on the page between their turns. A turn is
 * tried, so that nobody waits for one that died in his. False: somebody else has the page, or died with it. */
static inline bool caladan_turn_try(caladan_page *page) {
    CALADAN_OWED_LINE(page);
    uint64_t version = CALADAN_LOAD(&page->version, relaxed);
    /* acquire: the words are those that the last turn left. The fence: as in caladan_page_open */
    if (version % 2 == 1 || !CALADAN_SWAP(&page->version, &version, version + 1, acquire)) return false;
    CALADAN_FENCE(release);
    return true;
}

/* In a turn: a word of the record. */
static inline uint64_t caladan_turn_word(caladan_page *page, int word) {
    CALADAN_OWED(CALADAN_LOAD(&page->version, relaxed) % 2 == 1, "a word was asked for outside of a turn");
    return CALADAN_LOAD(&page->words[word], relaxed);
}

static inline void caladan_turn_set(caladan_page *page, int word, uint64_t value) {
    CALADAN_OWED(CALADAN_LOAD(&page->version, relaxed) % 2 == 1, "a word was set outside of a turn");
    CALADAN_STORE(&page->words[word], value, relaxed);
}

/* Ends the turn: what is in the words is the record at the next place. */
static inline void caladan_turn_end(caladan_page *page) {
    uint64_t version = CALADAN_LOAD(&page->version, relaxed);
    CALADAN_OWED(version % 2 == 1, "a turn was ended that was not had");
    CALADAN_STORE(&page->version, version + 1, release); /* as in caladan_page_close */
}

/* A ring of commands. A command is CALADAN_PARK, or the number of a core plus one. */
typedef struct caladan_ring {
    CALADAN_ALIGNED caladan_shared sent; /* the sender's line */
    caladan_shared commands[CALADAN_PLACES];
    CALADAN_ALIGNED caladan_shared taken; /* the taker's line */
} caladan_ring;
CALADAN_SIZE(caladan_ring, 256);
CALADAN_PLACE(caladan_ring, sent, 0);
CALADAN_PLACE(caladan_ring, commands, 8);
CALADAN_PLACE(caladan_ring, taken, 128);

/* Whether a ring has room: `sent` as the sender counts it, `taken` of the thread's kept record. */
static inline bool caladan_room(uint64_t sent, uint64_t taken) { return sent - taken < CALADAN_PLACES; }

/* A sender's own state: how many commands he sent. He reads nothing from the ring. */
typedef struct caladan_sender {
    caladan_ring *ring;
    uint64_t sent;
} caladan_sender;

/* Sends a command. The caller knows that there is room. */
static inline void caladan_ring_send(caladan_sender *sender, uint64_t command) {
    CALADAN_OWED_LINE(sender->ring);
    /* relaxed: the taker reads the place only after the count behind it; what was there he has taken,
     * since his record says so */
    CALADAN_STORE(&sender->ring->commands[sender->sent % CALADAN_PLACES], command, relaxed);
    sender->sent++;
    /* release: whoever loads this count finds the command */
    CALADAN_STORE(&sender->ring->sent, sender->sent, release);
}

/* False where the ring is empty. */
static inline bool caladan_ring_take(caladan_ring *ring, uint64_t *command) {
    CALADAN_OWED_LINE(ring);
    uint64_t taken = CALADAN_LOAD(&ring->taken, relaxed); /* the taker's own */
    /* acquire: with the count comes the command */
    if (taken == CALADAN_LOAD(&ring->sent, acquire)) return false;
    *command = CALADAN_LOAD(&ring->commands[taken % CALADAN_PLACES], relaxed);
#ifdef CALADAN_CHECKED
    uint64_t found = taken;
    CALADAN_OWED(CALADAN_SWAP(&ring->taken, &found, taken + 1, relaxed), "the ring was taken from within a taking");
#else
    /* relaxed: nobody else goes by it. The sender goes by the record, which is published behind it; a taker
     * of another process that goes on, by the end of this one */
    CALADAN_STORE(&ring->taken, taken + 1, relaxed);
#endif
    return true;
}

/* Publishes for a thread that is gone what caladan_gone tells, and empties its ring, whatever was written to
 * it: `sent` and `taken` become the number of commands that the thread was sent. The host calls it once nobody
 * publishes on the page or takes from the ring any more (the process has ended and was waited for), and goes
 * on sending from that count. Whatever the page shows, it then shows that record; whoever finds it
 * (caladan_adopt) finds the ring empty.
 *
 * Anybody may look meanwhile, also lookers that saw other records of the thread than the scheduler did. The
 * page is busy until the record is there, and the record gets the place of `gone` or, where the page has shown
 * that place already, the first one after it that the page has not shown; so no place ever has two records.
 * A version that is more than CALADAN_FARTHEST places beyond `gone` is a lie and is ignored (the record gets
 * the place of `gone`), so that no lie uses up the places of a page. misses and stamp of the record are those
 * that the scheduler saw last: to a looker that saw later ones they fell. Where there are such lookers, the
 * scheduler makes one more pass with a look at the page after the thread has ended, and then asks for `gone`.
 *
 * False where a page has no such place (2^63 and above): the look itself may be given to the next pass. */
static inline bool caladan_bury(caladan_page *page, caladan_ring *ring, const caladan_look *gone) {
    CALADAN_OWED_LINE(page);
    CALADAN_OWED_LINE(ring);
    if (gone->number == 0 || gone->number >> 63) return false;
    uint64_t words[CALADAN_WORDS], place = gone->number;
    caladan_look_words(gone, words);
    /* relaxed: what was stored here is known, since whoever stored it is gone */
    uint64_t next = CALADAN_LOAD(&page->version, relaxed) / 2 + 1;
    if (next > place && next - place <= CALADAN_FARTHEST && !(next >> 63)) place = next;
    /* relaxed: the record behind them brings them along */
    CALADAN_STORE(&ring->sent, gone->taken, relaxed);
    CALADAN_STORE(&ring->taken, gone->taken, relaxed);
    caladan_page_open(page, place - 1);
    caladan_page_close(page, place, words);
    return true;
}
#endif
