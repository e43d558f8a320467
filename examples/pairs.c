/* A sheet of version 2, with pairs within benches, through the calls that plan, printed as the planning program prints
 * it.
 *
 *   gcc -std=c11 -Wall -Wextra -Werror -pedantic -Iinclude examples/pairs.c target/staticlib/libfulmarinvar.a -o pairs
 */
#include "listing.h"

int main(void) {
    struct sheet pairs;
    sheet_of_pairs(&pairs);
    return print_listing(&pairs);
}
