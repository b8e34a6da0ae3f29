/* Tonight's harbour planned under every method, then the three answers that are no plan: a refusal in four ways; and
 * tonight's tables as a file, kept where the program's word says, and handed to the desk. */
#include <inttypes.h>
#include <stdio.h>

#include "chart.h"
#include "desk.h"
#include "savings.h"
#include "say.h"

static problem made;

static int plan_tonight(void) {
    uint8_t plan[HARBOUR_BOATS];
    make_problem(&made, &tonight);
    puts("THE HARBOUR TONIGHT: ten boats, quays North, South and Inner, 17:00 to 21:00");
    draw_port(&made);
    puts("\nEVERY METHOD, each held to the plain one above it");
    int as_promised = show_savings(&made, plan);
    puts("\nTHE PLAN, the first by the order of boats and berths");
    draw_plan(&made, plan);
    harbour_reply lawful = harbour_lawful_t(made.draft.made, plan, made.draft.made.n);
    printf("  Asked again, as a given plan: %s.\n", harbour_say_lawful(lawful).text);
    return as_promised && lawful.answer == HARBOUR_LAWFUL;
}

/* Runs a method, says the reply and holds it to the answer that is due. */
static int answered(uint64_t method, uint64_t checks, uint64_t due) {
    harbour_reply reply = run(&made.draft, method, checks, HARBOUR_AMPLE).reply;
    say(&made, reply);
    return reply.answer == due;
}

static int run_out_of_checks(void) {
    const uint64_t allowed = 500;
    make_problem(&made, &tonight);
    printf("\nTHE SAME HARBOUR, by BT with an allowance of %" PRIu64 " checks\n", allowed);
    return answered(HARBOUR_BT, allowed, HARBOUR_UNDECIDED_BY_CHECKS);
}

static int too_many_boats(void) {
    make_problem(&made, &fuel_pier);
    puts("\nTHE FUEL PIER: Heron, Merlin and Osprey at 06:00, and two berths, East and West");
    return answered(HARBOUR_CBJ, HARBOUR_AMPLE, HARBOUR_NO_PLAN);
}

/* The pair of Heron and Osprey, bytes 2 and 3, as a tired clerk writes it. */
static int a_slip_of_the_pen(const char *slip, uint8_t first, uint8_t second, uint64_t due) {
    make_problem(&made, &fuel_pier);
    made.draft.pairs[2] = first;
    made.draft.pairs[3] = second;
    printf("\nTHE FUEL PIER, with %s\n", slip);
    return answered(HARBOUR_CBJ, HARBOUR_AMPLE, due);
}

static int four_slips_of_the_pen(void) {
    int as_promised = a_slip_of_the_pen("a pair of a fourth boat", 0, 3, HARBOUR_REFUSED_PAIR_NO_BOAT);
    as_promised &= a_slip_of_the_pen("a pair of one boat", 0, 0, HARBOUR_REFUSED_PAIR_SAME_BOAT);
    as_promised &= a_slip_of_the_pen("a pair the wrong way round", 2, 0, HARBOUR_REFUSED_PAIR_HIGHER_FIRST);
    as_promised &= a_slip_of_the_pen("a pair written twice", 0, 1, HARBOUR_REFUSED_PAIR_NOT_RISING);
    return as_promised;
}

static int a_file_for_the_desk(const char *path) {
    static file kept;
    make_problem(&made, &tonight);
    const outcome planned = run(&made.draft, HARBOUR_FC_CBJ, HARBOUR_AMPLE, HARBOUR_AMPLE);
    puts("\nTONIGHT'S TABLES AS A FILE");
    int as_promised = show_file(&made, path, &kept);
    puts("\nTHE DESK, handed the file and a plan, and told one number");
    as_promised &= show_plans(&made, &kept, planned.plan);
    as_promised &= show_bad_files(&made, &kept, planned.plan);
    return as_promised;
}

int main(int count, char **word) {
    int as_promised = plan_tonight();
    as_promised &= run_out_of_checks();
    as_promised &= too_many_boats();
    as_promised &= four_slips_of_the_pen();
    as_promised &= a_file_for_the_desk(count > 1 ? word[1] : NULL);
    return as_promised ? 0 : 1;
}
