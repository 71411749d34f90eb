/* Prints the constants of the header, the size and the alignment of every struct, and the offset of every field. */
#include <ozpinduru.h>

#include <stddef.h>
#include <stdio.h>

/* a type stands behind one byte where its alignment lets it */
#define STRUCT(type)                                                                             \
    do {                                                                                         \
        struct behind {                                                                          \
            char byte;                                                                           \
            type value;                                                                          \
        };                                                                                       \
        printf("%s %d %d", #type, (int)sizeof(type), (int)offsetof(struct behind, value));       \
    } while (0)
#define FIELD(type, field) printf(" %s %d", #field, (int)offsetof(type, field))
#define LAST(type, field) printf(" %s %d\n", #field, (int)offsetof(type, field))

static void constants(void)
{
    printf("constants %d %d %d %d %d", OZP_GIVEN, OZP_NONE, OZP_REFUSED, OZP_MISSING, OZP_DIFFERS);
    printf(" %d %d %d %d %d %d", OZP_BOOK_BYTES, OZP_ROWS, OZP_STEPS, OZP_REPORT_BYTES, OZP_WORDS_BYTES, OZP_PAGE_BYTES);
    printf(" %u %llu\n", (unsigned)OZP_NO_VALUE, (unsigned long long)OZP_NO_AMOUNT);
}

static void values(void)
{
    STRUCT(ozp_value);
    FIELD(ozp_value, kind);
    LAST(ozp_value, number);
    STRUCT(ozp_parameters);
    FIELD(ozp_parameters, year);
    FIELD(ozp_parameters, cost);
    FIELD(ozp_parameters, offset);
    FIELD(ozp_parameters, outage);
    FIELD(ozp_parameters, requirement);
    LAST(ozp_parameters, margin);
    STRUCT(ozp_row);
    FIELD(ozp_row, stamp);
    FIELD(ozp_row, resource);
    FIELD(ozp_row, seller);
    FIELD(ozp_row, quantity);
    FIELD(ozp_row, price);
    FIELD(ozp_row, block);
    LAST(ozp_row, step);
}

static void answers(void)
{
    STRUCT(ozp_answer);
    FIELD(ozp_answer, make_whole);
    FIELD(ozp_answer, daily);
    FIELD(ozp_answer, year);
    FIELD(ozp_answer, kind);
    FIELD(ozp_answer, total);
    FIELD(ozp_answer, price);
    FIELD(ozp_answer, rows);
    FIELD(ozp_answer, number);
    LAST(ozp_answer, place);
}

static void curves(void)
{
    STRUCT(ozp_curve_points);
    FIELD(ozp_curve_points, kind);
    FIELD(ozp_curve_points, p1);
    FIELD(ozp_curve_points, p2);
    FIELD(ozp_curve_points, p3);
    FIELD(ozp_curve_points, q1);
    FIELD(ozp_curve_points, q2);
    FIELD(ozp_curve_points, q3);
    FIELD(ozp_curve_points, number);
    LAST(ozp_curve_points, place);
    STRUCT(ozp_curve_price);
    FIELD(ozp_curve_price, kind);
    FIELD(ozp_curve_price, cents);
    FIELD(ozp_curve_price, remainder);
    FIELD(ozp_curve_price, divisor);
    FIELD(ozp_curve_price, number);
    LAST(ozp_curve_price, place);
}

static void contents(void)
{
    STRUCT(ozp_contents);
    FIELD(ozp_contents, kind);
    FIELD(ozp_contents, rows);
    FIELD(ozp_contents, edition);
    FIELD(ozp_contents, number);
    FIELD(ozp_contents, place);
    LAST(ozp_contents, parameters);
    STRUCT(ozp_comparison);
    FIELD(ozp_comparison, kind);
    FIELD(ozp_comparison, price);
    FIELD(ozp_comparison, shared);
    FIELD(ozp_comparison, field);
    FIELD(ozp_comparison, row);
    FIELD(ozp_comparison, other);
    FIELD(ozp_comparison, book);
    FIELD(ozp_comparison, number);
    LAST(ozp_comparison, place);
    STRUCT(ozp_text);
    FIELD(ozp_text, bytes);
    FIELD(ozp_text, kind);
    FIELD(ozp_text, number);
    LAST(ozp_text, place);
}

int main(void)
{
    constants();
    values();
    answers();
    curves();
    contents();
    return 0;
}
