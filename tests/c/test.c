/* Calls every exported function as a program in C does, and counts what holds.
 *
 *     test DATA STDOUT PAGES [stacks]     the books of DATA, the lines that the program `verdicts` writes of them, and pages of books
 *
 * With a fourth word the stack of each call is measured too, which valgrind takes for wrong reads.
 */
#include "check.h"

#include <stdio.h>

int main(int count, char **words)
{
    unsigned books;
    if (count != 4 && count != 5) {
        fprintf(stderr, "usage: test DATA STDOUT PAGES [stacks]\n");
        return 2;
    }
    expect(ozp_version() == OZP_VERSION, "header", "version");
    books = judge_all(words[1], words[2]);
    reference(words[1]);
    nothing(words[1]);
    reading(words[1]);
    writing(words[1]);
    converting(words[1]);
    curve();
    make_whole();
    days(words[1]);
    comparing(words[1]);
    texts(words[1]);
    explaining(words[1], words[3]);
    threads(words[1]);
    if (count == 5)
        stacks(words[1]);
    printf("%u books, %u facts hold, %u fail\n", books, held, failed);
    return failed == 0 && books > 0 ? 0 : 1;
}
