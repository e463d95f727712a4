/* A run, a packer and an unpacker of the same rules directly in C: the same arguments, answers and memory as sam_run,
 * sam_pack and sam_unpack of sam.h. */
#ifndef PLAIN_H
#define PLAIN_H

#include "calls.h"

run_call plain_run;
writing_call plain_pack;
reading_call plain_unpack;

#endif
