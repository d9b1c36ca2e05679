/* Names of events: one without an end is read as far as one can be long, and the longest one that a
 * unit has is known. */
#define _DEFAULT_SOURCE
#include "papi.h"
#include "wanted.h"
#include <string.h>
#include <sys/mman.h>
#include <unistd.h>

#define PART 64
#define MASKS 16
#define LETTERS 4096
#define WHOLE 13 /* umasks of the most letters that a name has room for */
#define MOST 1023 /* letters of a name that is called again */

static char unit[] = "/tmp/kistalub_names_XXXXXX";

/* A name of so many letters, of which the last ones are its number. */
static const char *part_of(int length, char letter, int number) {
    static char text[PART + 1];
    memset(text, letter, PART);
    text[length - 2] = (char)('0' + number / 10);
    text[length - 1] = (char)('0' + number % 10);
    text[length] = 0;
    return text;
}

static const char *part(char letter, int number) { return part_of(PART, letter, number); }

/* The umask after those of the most letters fills a name up, and the next one has a letter more. */
static const char *umask(int number) {
    const int left = MOST - (PART + 2 + PART + WHOLE * (1 + PART)) - 1;
    return number == WHOLE       ? part_of(left, 'M', number)
           : number == WHOLE + 1 ? part_of(left + 1, 'M', number)
                                 : part('M', number);
}

static void write_unit(void) {
    FILE *f = fdopen(mkstemp(unit), "w");
    WANT(f != NULL, 1);
    fprintf(f, "COMPONENT,cpu,%s\nCOUNTER,P0,48,P\n", part('p', 0));
    fprintf(f, "EVENT,%s,c0,P0,An event\n", part('E', 0));
    for (int i = 0; i < MASKS; i++) fprintf(f, "UMASK,%s,%02x,-,A part\n", umask(i), i + 1);
    WANT(fclose(f), 0);
}

/* The event with the first umasks. */
static char *write_name(char *to, int masks) {
    to += sprintf(to, "%s::", part('p', 0));
    to += sprintf(to, "%s", part('E', 0));
    for (int i = 0; i < masks; i++) to += sprintf(to, ":%s", umask(i));
    return to;
}

/* All umasks and modifiers: a name without an end begins with it, and is none. */
static void write_longest(char *to) { strcpy(write_name(to, MASKS), ":u=1:k=1:e=1:i=1:c=255"); }

/* A name that just has room is called again, and one with a letter more is not. */
static void is_called_again(void) {
    char name[2048];
    int event;
    char *end = write_name(name, WHOLE);
    sprintf(end, ":%s", umask(WHOLE));
    WANT(strlen(name), MOST);
    WANT(PAPI_event_name_to_code(name, &event), PAPI_OK);
    sprintf(end, ":%s", umask(WHOLE + 1));
    WANT(strlen(name), MOST + 1);
    WANT(PAPI_event_name_to_code(name, &event), PAPI_EBUF);
}

/* So many letters up to a page that can't be read, and no end. */
static char *without_end(void) {
    const size_t page = (size_t)sysconf(_SC_PAGESIZE), room = (LETTERS + page - 1) / page * page;
    char *at = mmap(NULL, room + page, PROT_READ | PROT_WRITE, MAP_PRIVATE | MAP_ANONYMOUS, -1, 0);
    WANT(at != MAP_FAILED, 1);
    WANT(mprotect(at + room, page, PROT_NONE), 0);
    memset(at + room - LETTERS, 'A', LETTERS);
    return at + room - LETTERS;
}

static void is_none(int set, const char *name, int code) {
    int event = 7;
    WANT(PAPI_add_named_event(set, name), code);
    WANT(PAPI_remove_named_event(set, name), code);
    WANT(PAPI_event_name_to_code(name, &event), code);
    WANT(PAPI_query_named_event(name), code);
    WANT(event, 7);
    WANT(PAPI_num_events(set), 0);
}

int main(void) {
    char longest[2048], *endless = without_end();
    int set = PAPI_NULL, event;
    write_unit();
    write_longest(longest);
    setenv("KISTALUB_UNIT", unit, 1);
    setenv("KISTALUB_STREAM", "/dev/null", 1);
    WANT(PAPI_disable_component_by_name(endless), PAPI_ENOCMP);
    WANT(PAPI_library_init(PAPI_VER_CURRENT), PAPI_VER_CURRENT);
    WANT(PAPI_create_eventset(&set), PAPI_OK);
    is_none(set, endless, PAPI_ENOEVNT);
    memcpy(endless, "PAPI_TOT_INS", strlen("PAPI_TOT_INS"));
    is_none(set, endless, PAPI_ENOEVNT);
    memcpy(endless, longest, strlen(longest));
    is_none(set, endless, PAPI_EATTR);
    WANT(PAPI_get_component_index(endless), PAPI_ENOCMP);
    /* What it would be called again has no room. */
    WANT(PAPI_event_name_to_code(longest, &event), PAPI_EBUF);
    is_called_again();
    WANT(PAPI_add_named_event(set, longest), PAPI_OK);
    WANT(PAPI_num_events(set), 1);
    WANT(PAPI_remove_named_event(set, longest), PAPI_OK);
    PAPI_shutdown();
    unlink(unit);
    puts("each name is read as far as it may be long");
    return 0;
}
