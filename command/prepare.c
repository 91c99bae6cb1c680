/* pool prepare: the plan that prepares a plan's triples. */
#include <stdlib.h>

#include "command.h"
#include "plan.h"

static void prepare(char **args)
{
    const char *path = NULL, *output = NULL;
    const struct operand operands[] = {{"plan", &path}, {"output file", &output}, {0}};
    const struct option options[] = {{0}};
    read_operands(args, operands, options);
    struct plan plan = open_plan(path);
    struct bytes file = preparing_file(&plan);
    if (!file.len)
        fail(NOT_UNDERSTOOD, "%s spends no triples: there is nothing to prepare", path);
    write_plan(output, file);
    free(file.at);
    close_plan(&plan);
}

const struct command prepare_command = {
    .name = "prepare",
    .line = "the plan that makes a plan's triples before the shift",
    .usage = "PLAN OUT",
    .help = "Reads a plan that spends triples (gates of kind 7) and writes the plan that prepares them, of\n"
            "the same version, seats, threshold, prime and points: for each triple two random wires and\n"
            "their product, and no outs. A run of it takes no figures but what the seats draw, so it can\n"
            "be made before the figures are known; what its seats hold in the end are the triples, which\n"
            "`pool triples` gives. OUT is the plan file that is written. Prints a line with its counts.\n",
    .run = prepare,
};
