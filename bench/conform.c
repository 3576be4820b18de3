/* The check of event logs as a plain program, which bench/conform.py compares `dcr conform` with: it answers the same bytes.

       conform GRAPH < INPUT

   The first line of the input, the case, is passed over; the graph comes from the file, as conform.py writes it: the
   numbers of atoms and relations; for each atom its name and whether it is executed, pending and included; for each
   relation its kind (0 condition, 1 milestone, 2 response, 3 include, 4 exclude, 5 cancel) and the numbers of two atoms. */
#include <stdint.h>
#include <stdio.h>
#include <stdlib.h>
#include <string.h>

enum { ATOMS = 1024, WORDS = ATOMS / 64, NAME = 64, UNKNOWN = 0xFFFF, PLACES = 4096 };

typedef uint64_t Set[WORDS];
typedef struct { char *bytes; size_t length, room; } Text;
typedef struct { char name[NAME + 1]; uint8_t length; uint32_t count, room; uint16_t *events; } Trace;

static int atoms, words;
static char names[ATOMS][NAME + 1];
static uint16_t places[PLACES];
static Set rules[6][ATOMS], opening[3];

static Trace *traces;
static uint32_t *slots, trace_count, trace_room, slot_room, row;

static void *grown(void *old, size_t size) {
    void *made = realloc(old, size);
    if (made == NULL)
        exit(6);
    return made;
}

static uint64_t hash(const char *bytes, size_t length) {
    uint64_t found = 14695981039346656037u;
    for (size_t k = 0; k < length; k++)
        found = (found ^ (uint8_t)bytes[k]) * 1099511628211u;
    return found ^ found >> 32;
}

static int has(const uint64_t *set, int e) { return set[e / 64] >> e % 64 & 1; }
static void put(uint64_t *set, int e) { set[e / 64] |= (uint64_t)1 << e % 64; }

static void read_graph(const char *path) {
    FILE *file = fopen(path, "r");
    int relations, kind, a, b, marks[3];
    if (file == NULL || fscanf(file, "%d %d", &atoms, &relations) != 2 || atoms > ATOMS)
        exit(2);
    words = (atoms + 63) / 64;
    memset(places, 0xFF, sizeof places);
    for (int e = 0; e < atoms; e++) {
        if (fscanf(file, "%64s %d %d %d", names[e], marks, marks + 1, marks + 2) != 4)
            exit(2);
        for (int k = 0; k < 3; k++)
            if (marks[k])
                put(opening[k], e);
        uint64_t at = hash(names[e], strlen(names[e]));
        while (places[at % PLACES] != UNKNOWN)
            at++;
        places[at % PLACES] = e;
    }
    for (int k = 0; k < relations; k++) {
        if (fscanf(file, "%d %d %d", &kind, &a, &b) != 3)
            exit(2);
        if (kind < 2)
            put(rules[kind][b], a);
        else
            put(rules[kind][a], b);
    }
    fclose(file);
}

static uint16_t event_of(const Text *text) {
    uint64_t at = hash(text->bytes, text->length);
    for (;; at++) {
        uint16_t e = places[at % PLACES];
        if (e == UNKNOWN || (strlen(names[e]) == text->length && memcmp(names[e], text->bytes, text->length) == 0))
            return e;
    }
}

static void place_traces(void) {
    slot_room = slot_room ? 2 * slot_room : 1024;
    slots = grown(slots, slot_room * sizeof *slots);
    memset(slots, 0xFF, slot_room * sizeof *slots);
    for (uint32_t k = 0; k < trace_count; k++) {
        uint64_t at = hash(traces[k].name, traces[k].length);
        while (slots[at & (slot_room - 1)] != UINT32_MAX)
            at++;
        slots[at & (slot_room - 1)] = k;
    }
}

static Trace *trace_of(const Text *name) {
    static uint32_t last;
    if (last < trace_count && traces[last].length == name->length && memcmp(traces[last].name, name->bytes, name->length) == 0)
        return traces + last;
    if (2 * trace_count >= slot_room)
        place_traces();
    uint64_t at = hash(name->bytes, name->length);
    for (;; at++) {
        uint32_t k = slots[at & (slot_room - 1)];
        if (k == UINT32_MAX)
            break;
        if (traces[k].length == name->length && memcmp(traces[k].name, name->bytes, name->length) == 0)
            return traces + (last = k);
    }
    if (trace_count == trace_room)
        traces = grown(traces, (trace_room = trace_room ? 2 * trace_room : 256) * sizeof *traces);
    slots[at & (slot_room - 1)] = last = trace_count++;
    Trace *made = traces + last;
    memset(made, 0, sizeof *made);
    memcpy(made->name, name->bytes, name->length);
    made->length = name->length;
    return made;
}

static int is_name(const Text *text) {
    for (size_t k = 0; k < text->length; k++) {
        char c = text->bytes[k];
        if (!((c >= 'a' && c <= 'z') || (c >= 'A' && c <= 'Z') || (c >= '0' && c <= '9') || c == '_' || c == '-' || c == '.'))
            return 0;
    }
    return text->length >= 1 && text->length <= NAME;
}

static int is_utf8(const Text *text) {
    static const uint32_t least[] = {0, 0x80, 0x800, 0x10000};
    for (size_t k = 0; k < text->length;) {
        uint8_t c = text->bytes[k++];
        int more = c < 0x80 ? 0 : c >> 5 == 6 ? 1 : c >> 4 == 14 ? 2 : c >> 3 == 30 ? 3 : -1;
        uint32_t code = c & (more ? 0x3F >> more : 0x7F);
        if (more < 0 || k + more > text->length)
            return 0;
        for (int j = 0; j < more; j++, k++) {
            if ((text->bytes[k] & 0xC0) != 0x80)
                return 0;
            code = code << 6 | (text->bytes[k] & 0x3F);
        }
        if (code < least[more] || code > 0x10FFFF || (code >= 0xD800 && code < 0xE000))
            return 0;
    }
    return 1;
}

static int is(const Text *text, const char *word) { return text->length == strlen(word) && memcmp(text->bytes, word, text->length) == 0; }

static void refuse(void) {
    printf("refused 15 log %u\n", row);
    exit(3);
}

static void end_record(Text *fields, int count) {
    static int width;
    int is_good = row == 0 ? count >= 2 && is(fields, "case") && is(fields + 1, "event") : count == width && is_name(fields) && is_utf8(fields + 1);
    if (!is_good)
        refuse();
    if (row++ == 0) {
        width = count;
        return;
    }
    Trace *trace = trace_of(fields);
    if (trace->count == trace->room)
        trace->events = grown(trace->events, (trace->room = trace->room ? 2 * trace->room : 4) * sizeof *trace->events);
    trace->events[trace->count++] = event_of(fields + 1);
}

static int next(void) { return getc_unlocked(stdin); }

static void add(Text *text, int byte) {
    if (text->length == text->room)
        text->bytes = grown(text->bytes, text->room = text->room ? 2 * text->room : 64);
    text->bytes[text->length++] = byte;
}

/* Reads the records. Of each the first two fields are kept; what stands in the others is passed over. */
static void read_log(void) {
    static Text fields[3];
    int c = next(), count;
    if (c == 0xEF) {
        if (next() != 0xBB || next() != 0xBF)
            refuse();
        c = next();
    }
    for (;;) {
        while (c == '\n' || c == '\r')
            c = next();
        if (c == EOF) {
            if (row == 0)
                refuse();
            return;
        }
        for (count = 0;; c = next()) {
            Text *field = fields + (count < 2 ? count : 2);
            field->length = 0;
            count++;
            if (c == '"') {
                for (c = next(); c != EOF; c = next()) {
                    if (c == '"' && (c = next()) != '"')
                        break;
                    add(field, c);
                }
            }
            for (; c != ',' && c != '\n' && c != '\r' && c != EOF; c = next())
                add(field, c);
            if (c != ',')
                break;
        }
        end_record(fields, count);
    }
}

static int least(const uint64_t *a, const uint64_t *b, const uint64_t *c, uint64_t turned) {
    for (int k = 0; k < words; k++) {
        uint64_t found = a[k] & b[k] & (c[k] ^ turned);
        if (found)
            return 64 * k + __builtin_ctzll(found);
    }
    return -1;
}

static void judge(const Trace *trace) {
    Set executed, pending, included;
    memcpy(executed, opening[0], sizeof executed);
    memcpy(pending, opening[1], sizeof pending);
    memcpy(included, opening[2], sizeof included);
    for (uint32_t k = 0; k < trace->count; k++) {
        int e = trace->events[k], c;
        if (e == UNKNOWN) {
            printf("%s unknown %u\n", trace->name, k);
            return;
        }
        if (!has(included, e)) {
            printf("%s refused %u excluded\n", trace->name, k);
            return;
        }
        if ((c = least(rules[0][e], included, executed, ~(uint64_t)0)) >= 0) {
            printf("%s refused %u condition %s\n", trace->name, k, names[c]);
            return;
        }
        if ((c = least(rules[1][e], included, pending, 0)) >= 0) {
            printf("%s refused %u milestone %s\n", trace->name, k, names[c]);
            return;
        }
        put(executed, e);
        pending[e / 64] &= ~((uint64_t)1 << e % 64);
        for (int k = 0; k < words; k++) {
            pending[k] = (pending[k] & ~rules[5][e][k]) | rules[2][e][k];
            included[k] = (included[k] | rules[3][e][k]) & ~rules[4][e][k];
        }
    }
    int a = least(included, included, pending, 0);
    if (a >= 0)
        printf("%s waits %s %u\n", trace->name, names[a], trace->count);
    else
        printf("%s accepting %u\n", trace->name, trace->count);
}

int main(int count, char **given) {
    if (count != 2)
        return 2;
    read_graph(given[1]);
    for (int c = next(); c != '\n' && c != EOF;)
        c = next();
    read_log();
    for (uint32_t k = 0; k < trace_count; k++)
        judge(traces + k);
    printf("traces %u\n", trace_count);
    return 0;
}
