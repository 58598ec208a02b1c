/* What the tests of the calls share. A lent list is filled with PATTERN before a call, so that every
 * place that keeps its content can be told. */
#ifndef CHECK_H
#define CHECK_H

#include <stddef.h>
#include <stdint.h>
#include <string.h>

#include "lanegravel.h"

#define PATTERN 0xa5

/* How many lists struct lanegravel_lists has. */
enum { LISTS = 45 };

#define COUNT(list) (sizeof(list) / sizeof(list)[0])
#define CHECK(condition) check((condition) != 0, #condition, __FILE__, __LINE__)
/* The answer stands at the front of the list, and the rest of the list is as it was. */
#define ANSWERED(list, answer) CHECK(answered((list), sizeof(list), (answer), sizeof(answer)))

void check(int holds, const char *condition, const char *file, int line);
int answered(const void *list, size_t list_bytes, const void *answer, size_t answer_bytes);
int kept(const void *lists, size_t bytes);

/* Settings that miss no question, each with another value than its neighbours. */
struct lanegravel_rulings_params settings(void);

void test_floats(void);
void test_settings(void);
void test_levelling(void);
void test_members_of(void);
void test_segments(void);
void test_tables(void);
void test_boxes(void);
void test_box_grids(void);
void test_findings(void);
void test_detect(void);
void test_lists_of_a_page(void);

#endif
