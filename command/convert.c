/* pool convert: a plan file of version 1 or 2 becomes one of version 3. */
#include <stdlib.h>

#include "command.h"
#include "plan.h"
#include "pool.h"

static void convert(char **args)
{
    const char *path = NULL, *output = NULL;
    const struct operand operands[] = {{"plan", &path}, {"output file", &output}, {0}};
    const struct option options[] = {{0}};
    read_operands(args, operands, options);
    struct bytes old = input(path);
    struct bytes new = fresh_bytes(value(pool_convert_size(old.at, old.len)));
    value(pool_convert(old.at, old.len, new.at, new.len));
    write_plan(output, new);
    free(old.at);
    free(new.at);
}

const struct command convert_command = {
    .name = "convert",
    .line = "a plan of version 1 or 2 becomes one of version 3",
    .usage = "PLAN OUT",
    .help = "Reads a plan of version 1 or 2 and writes the same plan as a file of version 3: seats,\n"
            "threshold, prime, gates, outs and points stay, in order, so that every result and share is\n"
            "the same. Of a plan of version 1 the points are 1 to n. Another version is refused. OUT is the\n"
            "plan file that is written, and may be PLAN itself. Prints a line with the plan's counts.\n",
    .run = convert,
};
