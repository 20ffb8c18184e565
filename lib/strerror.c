/* strerror.c - the numbers of the calls in words. */
#include "pdic.h"

const char *pdic_strerror(uint32_t number)
{
    switch (number) {
    case PDIC_DONE: return "done";
    case PDIC_ABSENT: return "no such entry";
    case PDIC_BAD_LENGTH: return "its length is under 256 bytes or no multiple of 256: cut short, or another kind of file";
    case PDIC_SHORT_WORK: return "the working slice is shorter than the image slice";
    case PDIC_BAD_VERSION: return "no PDIC Hyper dictionary of version 4 or 5";
    case PDIC_LEFT_OUT:
        return "its header asks for what is left out: another order, type, system, block width or an extended header";
    case PDIC_BAD_AREAS: return "its header gives more blocks than the file or the format has";
    case PDIC_BAD_INDEX: return "its index breaks a rule";
    case PDIC_BAD_PLACE: return "a run's place or number of blocks is wrong";
    case PDIC_BAD_RUN: return "an entry or a run breaks a rule";
    case PDIC_BAD_BLOCKS: return "its free list breaks a rule, or a block is used twice or not at all";
    case PDIC_BAD_COUNTS: return "its header counts entries or blocks wrongly";
    case PDIC_READ_ONLY: return "this version may be read but not changed";
    case PDIC_BAD_HEADWORD: return "a headword has 1 to 248 bytes, none of them zero";
    case PDIC_BAD_TEXT: return "a text has at most 3,000 bytes, none of them zero, and an attribute has 0x80 set and 0x10 clear";
    case PDIC_SHORT_OUTPUT: return "an output slice is too short for the answer";
    case PDIC_FULL: return "the dictionary is full";
    default: return "no number of these calls";
    }
}
