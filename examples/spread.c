/* A sheet whose work has to be spread over benches and shops, through the calls that plan, printed as the planning program
 * prints it.
 *
 *   gcc -std=c11 -Wall -Wextra -Werror -pedantic -Iinclude examples/spread.c target/staticlib/libfulmarinvar.a -o spread
 */
#include "listing.h"

int main(void) {
    struct sheet spread;
    sheet_of_spread(&spread);
    return print_listing(&spread);
}
