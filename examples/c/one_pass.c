/* One pass by caladan.h: of two cores and one kernel thread, which has a request queued. Prints what the pass
 * decides, 'core 0 to thread 0'. */
#include "caladan.h"
#include <stdio.h>

static const char TABLE[] = "cores = 2\nbandwidth_limit = 1000\n\n"
                            "[[task]]\nkind = \"lc\"\nguaranteed = 1\nlimit = 1\ndelay = 10\nrequest = 50\n";

/* begin */
int main(void) {
    if (!CALADAN_IS_THIS_VERSION()) return 3; /* the header is of another library */
    caladan handle = CALADAN_CLOSED;
    uint8_t answer = caladan_open((const uint8_t *)TABLE, strlen(TABLE), &handle);
    if (answer != CALADAN_DONE) return fprintf(stderr, "%s\n", caladan_answer_text(answer)), 2;

    /* one look for each thread: here a record at place 1, with a request that came at 100 */
    caladan_look looks[1] = {{.room = 1, .number = 1, .queued = 1, .oldest = 100, .stamp = 105}};
    uint8_t judged[1];
    caladan_action actions[CALADAN_MOST_ACTIONS];
    size_t made;
    answer = caladan_pass_each(&handle, 111, 0, looks, 1, judged, 1, actions, CALADAN_MOST_ACTIONS, &made);
    for (size_t i = 0; i < made; i++)
        if (actions[i].kind == CALADAN_GRANT) printf("core %d to thread %d\n", actions[i].core, actions[i].thread);
    caladan_close(&handle);
    return answer;
}
/* end */
