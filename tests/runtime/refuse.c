/* Refuses the posts that VARUKONI_REFUSE names: `N M` the M posts from the Nth on. Linked with
 * -Wl,--wrap=varukoni_port_post. */
#include "varukoni_ports.h"
#include <stdio.h>

typedef const struct varukoni_message message;
uint8_t __real_varukoni_port_post(struct varukoni_port *port, message *posted, uint64_t *wake);

uint8_t __wrap_varukoni_port_post(struct varukoni_port *port, message *posted, uint64_t *wake)
{
    static unsigned posts;
    unsigned first = 0, count = 0, number = __atomic_add_fetch(&posts, 1, __ATOMIC_RELAXED);
    const char *which = getenv("VARUKONI_REFUSE");
    if (which != NULL && sscanf(which, "%u %u", &first, &count) == 2 && number >= first
        && number < first + count)
        return VARUKONI_PORT_NO_MEMORY;
    return __real_varukoni_port_post(port, posted, wake);
}
