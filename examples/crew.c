/* Sheet W through the calls that plan, printed as the planning program prints it.
 *
 *   gcc -std=c11 -Wall -Wextra -Werror -pedantic -Iinclude examples/crew.c target/staticlib/libfulmarinvar.a -o crew
 */
#include "listing.h"

int main(void) {
    struct sheet w;
    sheet_w(&w);
    return print_listing(&w);
}
