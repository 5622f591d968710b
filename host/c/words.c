/* What the installed library has beside its proved functions: its version, and refusals in words. */
#include "swarmtempo.h"

const char *swarmtempo_version(void)
{
    return SWARMTEMPO_VERSION;
}

/* The words are those of the Rust crate's Refusal, ClockError and KeyboardFull. */
const char *swarmtempo_refusal(uint8_t number)
{
    switch (number) {
    case SWARMTEMPO_END: return "none";
    case SWARMTEMPO_REFUSED_CUT: return "record cut short";
    case SWARMTEMPO_REFUSED_KIND: return "unknown kind";
    case SWARMTEMPO_REFUSED_LENGTH: return "length wrong for the kind";
    case SWARMTEMPO_REFUSED_ADDRESS: return "address is none of the 32";
    case SWARMTEMPO_REFUSED_RANGE: return "line, drive, register, level or count out of range";
    case SWARMTEMPO_REFUSED_ROOM: return "no room for an answer";
    case SWARMTEMPO_REFUSED_STATE: return "image is none of an accepted state";
    case SWARMTEMPO_REFUSED_DISK: return "a disk is there already, or none is";
    case SWARMTEMPO_REFUSED_RETIRED: return "SN on this register has retired";
    case SWARMTEMPO_REFUSED_ENABLE: return "the clock's enable line is down";
    case SWARMTEMPO_REFUSED_KEY: return "eight key codes are held already";
    default: return "unknown number";
    }
}
