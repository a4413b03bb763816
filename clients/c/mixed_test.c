/* A publisher that files with and without CALADAN_CHECKED share. Compiled twice: with it, which gives what stands
 * first, and without, which gives the test. A publication is begun in one file and ended in the other, both ways, and
 * nothing is broken; the file with checks still sees that one was entered again. Prints 'mixed_test: ok'. */
#include <stddef.h>
#include <stdint.h>
extern const char *broken;
#define CALADAN_BROKEN(why) (broken = (why))
#include "caladan_pages.h"
void begin_with_checks(caladan_publisher *publisher);
uint64_t end_with_checks(caladan_publisher *publisher, const uint64_t words[CALADAN_WORDS]);
size_t size_with_checks(void);

#ifdef CALADAN_CHECKED
const char *broken;
void begin_with_checks(caladan_publisher *publisher) { caladan_publish_begin(publisher); }
uint64_t end_with_checks(caladan_publisher *publisher, const uint64_t words[CALADAN_WORDS]) {
    return caladan_publish_end(publisher, words);
}
size_t size_with_checks(void) { return sizeof(caladan_publisher); }
#else
#include "check.h"

static caladan_page page;

/* A publisher among others, as an object of another layout would write beside it. */
static struct {
    uint64_t before;
    caladan_publisher publisher;
    uint64_t behind;
} it = {77, {&page, 0}, 77};

int main(void) {
    const uint64_t words[CALADAN_WORDS] = {1, 2, 3};
    caladan_look look = {0};
    CHECK(size_with_checks() == sizeof(caladan_publisher));
    for (uint64_t place = 1; place < 12; place += 4) {
        CHECK(caladan_publish(&it.publisher, words) == place);
        begin_with_checks(&it.publisher);
        CHECK(caladan_publish_end(&it.publisher, words) == place + 1);
        caladan_publish_begin(&it.publisher);
        CHECK(end_with_checks(&it.publisher, words) == place + 2);
        begin_with_checks(&it.publisher);
        CHECK(end_with_checks(&it.publisher, words) == place + 3 && it.publisher.place == place + 3);
        caladan_observe(&page, &look);
        CHECK(!look.busy && look.number == place + 3 && look.queued == 3);
    }
    CHECK(!broken && it.before == 77 && it.behind == 77);
    begin_with_checks(&it.publisher);
    begin_with_checks(&it.publisher);
    CHECK(broken);
    caladan_publish_end(&it.publisher, words);
    broken = NULL;
    end_with_checks(&it.publisher, words);
    CHECK(broken);
    puts(failed ? "mixed_test: failed" : "mixed_test: ok");
    return failed;
}
#endif
