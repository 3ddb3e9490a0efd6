/*
 * Job files of one end kind, in which byte 6 is 0, and what they were answered before there were several (document 02, (c)). Since
 * then only the choice among shortest failures has moved (document 02, (f)).
 */
#ifndef OUTSIDE_OLD_ANSWERS_H
#define OUTSIDE_OLD_ANSWERS_H

/*
 * Each side owes on all of them what they were answered then, but with the start compared last, and with end kind 0. A side that
 * differs is named, and counted.
 */
void compare_old_answers(void);

#endif
