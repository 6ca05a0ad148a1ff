/* SPDX-License-Identifier: MIT OR Apache-2.0 */
/* The texts of rrdi.h. */
#include "rrdi.h"

const char *rrdi_libversion(void) {
    return RRDI_VERSION;
}

const char *rrdi_strerror(uint32_t fault) {
    switch (fault) {
    case RRDI_OK: return "no fault";
    case RRDI_NO_ROOM: return "too little room";
    case RRDI_NO_MEMORY: return "out of memory";
    case RRDI_USAGE: return "usage";
    case RRDI_BAD_WORD: return "unreadable";
    case RRDI_REFUSED: return "refused";
    case RRDI_CANNOT_OPEN: return "cannot open";
    case RRDI_CANNOT_WRITE: return "cannot write";
    case RRDI_NOT_OURS: return "file: not ours";
    case RRDI_OTHER_VERSION: return "file: version";
    case RRDI_TRUNCATED: return "file: truncated";
    case RRDI_BAD_BLOCK: return "file: bad block";
    case RRDI_BAD_ENTRY: return "file: bad entry";
    case RRDI_TRAILING: return "file: trailing";
    case RRDI_READ: return "file: read failed";
    default: return "unknown fault";
    }
}
