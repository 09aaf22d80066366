/* The look-up of bench/look_up.h behind a call, as one in a library would be. */
#include "look_up.h"

void look_up_in(const linkd_link *links, uint32_t site, uint32_t receiver, linkd_call_answer *answer) { look_up(links, site, receiver, answer); }
