/* What a text of the subset needs so that a compiler of C takes it. */
#define _SPM
#define main task_main
