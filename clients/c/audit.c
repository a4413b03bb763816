/* Reads a task table, a line ---, and a history (docs/FORMATS.md) on standard input, hands its passes to
 * an audit one after the other, and prints 'legal', or 'illegal pass' and the first that is not, as
 * caladan_sim audit does. Exits with 1 where one is not legal, with 2 where the input is refused.
 *
 *   audit [--policy NAME] [FILE..]      reads each file as such an input, and prints its line, or 'refused'
 */
#include "trace.h"

/* Hands over each pass: 0 where the history has ended as it should. */
static int hand_over(trace *from, caladan_audit *audit) {
    static recorded pass;
    int is_read;
    while ((is_read = next_pass(from, &pass)) == 1)
        if (caladan_audit_pass(audit, pass.now, pass.bandwidth, pass.looks, pass.count, pass.judged, pass.count,
                               pass.actions, pass.made))
            return -1;
    return is_read;
}

/* The status of an input; where it is 1 *first is the first pass that is not legal. */
static int audited(const input *in, uint32_t policy, uint64_t *first) {
    const uint8_t *table = (const uint8_t *)in->text;
    caladan handle = CALADAN_CLOSED;
    caladan_audit audit = CALADAN_AUDIT_CLOSED;
    caladan_machine machine;
    trace from;
    int status = 2;
    if (caladan_open(table, in->table_length, &handle) == CALADAN_DONE) {
        caladan_table(&handle, &machine);
        caladan_close(&handle);
        if (caladan_audit_open_policy(table, in->table_length, policy, &audit)) return 2;
        if (begin_trace(&from, in, true, machine) && hand_over(&from, &audit) == 0)
            status = caladan_audit_verdict(&audit, first) == CALADAN_ILLEGAL;
        caladan_audit_close(&audit);
    }
    return status;
}

static int audit_file(FILE *file, uint32_t policy, uint64_t *first) {
    input in;
    int status = file && read_input(file, &in) ? audited(&in, policy, first) : 2;
    if (file) free(in.text);
    return status;
}

static void print_line(int status, uint64_t first) {
    if (status == 2) puts("refused");
    if (status == 1) printf("illegal pass %llu\n", (unsigned long long)first);
    if (status == 0) puts("legal");
}

int main(int argc, char **argv) {
    uint64_t first = 0;
    uint32_t policy = policy_asked(argc, argv);
    int status = 0, files = argc > 1 && !strcmp(argv[1], "--policy") ? 3 : 1;
    if (argc <= files) {
        status = audit_file(stdin, policy, &first);
        if (status == 2) fputs("audit: the input is refused\n", stderr);
        else print_line(status, first);
        return status;
    }
    for (int k = files; k < argc; k++) {
        FILE *file = fopen(argv[k], "rb");
        int is = audit_file(file, policy, &first);
        if (file) fclose(file);
        print_line(is, first);
        if (is > status) status = is;
    }
    return status;
}
