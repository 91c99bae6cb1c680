/* pool check: whether a plan passes. */
#include "command.h"
#include "plan.h"

static void check(char **args)
{
    const char *path = NULL;
    const struct option options[] = {{0}};
    read_words(args, "plan", &path, options);
    struct plan plan = open_plan(path);
    struct report r;
    open_report(&r);
    fprintf(r.to, "The plan passes: ");
    print_counts(r.to, &plan);
    close_report(&r, NULL);
    close_plan(&plan);
}

const struct command check_command = {
    .name = "check",
    .line = "whether a plan passes, and if not, why",
    .usage = "PLAN",
    .help = "Checks a plan file. Prints a line with its counts where it passes; else the first refusal\n"
            "in checking order, with its place, and ends with status 1.\n",
    .run = check,
};
