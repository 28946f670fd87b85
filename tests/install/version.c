/* Prints the version of the header and that of the archive. docs/RULES.md, "Calls for C". */

#include <aldrynja.h>

#include <stdio.h>

int main(void)
{
    printf("%d %u\n", ALDRYNJA_VERSION, aldrynja_version());
    return 0;
}
