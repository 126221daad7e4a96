/* Random input texts for the listing program, good and damaged, each with the listing that it
   should give: read here once more, run by the simulator.
   texts FOLDER [TEXTS [SEED]]   writes FOLDER/000.txt, FOLDER/000.out and so on; fails where an
                                 answer came for no text */
#include <stdio.h>
#include <stdlib.h>
#include <string.h>

#include "draw.h"
#include "lists.h"
#include "simulator.h"

enum { TEXTS = 400, ROOM = 8192, MALFORMED = 14, REFUSALS = 15, IDLE = 65535 };

struct text {
    size_t len;
    uint8_t bytes[ROOM];
};

static struct {
    unsigned long run, far, refused[REFUSALS], verdicts[4], exactly, at_least;
    unsigned long suspended, waited, both, none;
} count;

static const char *const verdict_words[4] = {"met", "late", "ended", "open"};

/* ---- Reading ---- */

/* A line of so many numbers: 1 to 5 digits each, one space apart, a newline behind the last. Moves
   `at` behind it; 0 where anything else stands there. */
static int read_line(const struct text *text, size_t *at, uint32_t *numbers, size_t wanted) {
    size_t found = 0, digits = 0;
    uint32_t value = 0;
    while (*at < text->len && found < wanted) {
        uint8_t byte = text->bytes[(*at)++];
        if (byte >= '0' && byte <= '9' && digits < 5) {
            value = 10 * value + (uint32_t)(byte - '0');
            digits++;
        } else if (byte == (found + 1 < wanted ? ' ' : '\n') && digits > 0) {
            numbers[found++] = value;
            value = 0;
            digits = 0;
        } else {
            return 0;
        }
    }
    return found == wanted;
}

/* 1 where the text is well formed. The horizon may then be too large for a schedule. */
static int read_text(const struct text *text, struct lists *in) {
    uint32_t head[3], numbers[7];
    size_t at = 2;
    if (text->len < 2 || (text->bytes[0] != 'S' && text->bytes[0] != 'E') ||
        text->bytes[1] != ' ' || !read_line(text, &at, head, 3) || head[1] > 16 || head[2] > 64)
        return 0;
    clear(in, text->bytes[0] == 'E');
    for (uint32_t k = 0; k < head[1]; k++) {
        if (!read_line(text, &at, numbers, 7))
            return 0;
        add_task(in, numbers);
    }
    for (uint32_t k = 0; k < head[2]; k++) {
        if (!read_line(text, &at, numbers, 3))
            return 0;
        add_job(in, numbers[0], numbers[1], numbers[2]);
    }
    in->horizon = head[0];
    return at == text->len;
}

/* ---- The listing ---- */

static void list_stretches(FILE *out, const struct lists *in) {
    uint32_t from = 0;
    for (uint32_t t = 1; t <= in->horizon; t++) {
        uint32_t entry = get16(in->schedule, t - 1);
        if (t < in->horizon && get16(in->schedule, t) == entry)
            continue;
        fprintf(out, entry == IDLE ? "%lu %lu -\n" : "%lu %lu %lu\n", (unsigned long)from,
                (unsigned long)t, (unsigned long)entry);
        from = t;
    }
}

static void list_jobs(FILE *out, const struct lists *in) {
    struct sim_fate fates[64];
    sim_fates(in->mode, in->tasks, in->jobs, in->jobs_len, in->horizon, fates);
    for (uint32_t j = 0; j < jobs_in(in); j++) {
        int late = fates[j].verdict == SIM_LATE, known = fates[j].has_instant;
        count.verdicts[fates[j].verdict]++;
        count.exactly += late && known;
        count.at_least += late && !known;
        count.suspended += fates[j].suspended > 0;
        count.waited += fates[j].waited > 0;
        count.both += fates[j].suspended > 0 && fates[j].waited > 0;
        fprintf(out, known ? "job %lu %s %lu" : "job %lu %s -", (unsigned long)j,
                verdict_words[fates[j].verdict], (unsigned long)fates[j].instant);
        if (late)
            fprintf(out, known ? " =%lu" : " >=%lu", (unsigned long)fates[j].late);
        fprintf(out, " %lu %lu\n", (unsigned long)fates[j].suspended,
                (unsigned long)fates[j].waited);
    }
}

static void list(FILE *out, const struct text *text) {
    static struct lists in;
    uint32_t result = MALFORMED;
    if (read_text(text, &in))
        result = sim_run(in.mode, in.tasks, in.tasks_len, in.jobs, in.jobs_len, in.horizon,
                         in.schedule, 2 * (size_t)in.horizon);
    if (result != 0) {
        count.refused[result % 256]++;
        fprintf(out, "refused %lu %lu\n", (unsigned long)result % 256, (unsigned long)result / 256);
        return;
    }
    count.run++;
    count.far += in.horizon > 8192;
    fprintf(out, "run %c %lu\n", in.mode == 0 ? 'S' : 'E', (unsigned long)in.horizon);
    list_stretches(out, &in);
    list_jobs(out, &in);
}

/* ---- Good texts ---- */

static void put(struct text *text, const char *words) {
    while (*words != 0 && text->len < ROOM)
        text->bytes[text->len++] = (uint8_t)*words++;
}

/* With leading zeros to five digits where `wide`, and now and then in any text. */
static void put_number(struct text *text, uint32_t x, int wide, const char *behind) {
    char digits[16];
    int width = wide ? 5 : one_in(12) ? (int)between(1, 5) : 1;
    snprintf(digits, sizeof digits, "%0*lu", width, (unsigned long)x);
    put(text, digits);
    put(text, behind);
}

static void put_list(struct text *text, const uint8_t *list, uint32_t entries, size_t row,
                     int wide) {
    for (size_t k = 0; k < entries * row; k++)
        put_number(text, get32(list, k), wide, k % row + 1 < row ? " " : "\n");
}

static void put_lists(struct text *text, const struct lists *in) {
    int wide = one_in(8);
    text->len = 0;
    put(text, in->mode == 0 ? "S " : "E ");
    put_number(text, in->horizon, wide, " ");
    put_number(text, tasks_in(in), wide, " ");
    put_number(text, jobs_in(in), wide, "\n");
    put_list(text, in->tasks, tasks_in(in), 7, wide);
    put_list(text, in->jobs, jobs_in(in), 3, wide);
}

/* ---- Damaged texts ---- */

/* Puts n bytes of this value before the byte at `at`. */
static void insert(struct text *text, size_t at, uint8_t byte, size_t n) {
    n = n < ROOM - text->len ? n : ROOM - text->len;
    memmove(text->bytes + at + n, text->bytes + at, text->len - at);
    memset(text->bytes + at, byte, n);
    text->len += n;
}

static void erase(struct text *text, size_t at, size_t n) {
    n = n < text->len - at ? n : text->len - at;
    memmove(text->bytes + at, text->bytes + at + n, text->len - at - n);
    text->len -= n;
}

static uint8_t odd_byte(void) {
    static const uint8_t bytes[] = {' ', '\n', '\t', '\r', '-', '+', '.', ',', 'S', 'x',
                                    '/', ':',  '0',  '9',  0,   11,  128, 160, 176, 255};
    return bytes[below(sizeof bytes)];
}

static size_t some_place(const struct text *text) {
    return below((uint32_t)text->len);
}

static int is_digit(const struct text *text, size_t at) {
    return at < text->len && text->bytes[at] >= '0' && text->bytes[at] <= '9';
}

/* A place from which on there is a space or newline, or the first digit of a number. */
static size_t some_separator(const struct text *text) {
    size_t at = some_place(text);
    while (at > 0 && text->bytes[at] != ' ' && text->bytes[at] != '\n')
        at--;
    return at;
}

static size_t some_number(const struct text *text) {
    size_t at = some_separator(text);
    while (at < text->len && !is_digit(text, at))
        at++;
    return at;
}

static size_t digits_at(const struct text *text, size_t at) {
    size_t n = 0;
    while (is_digit(text, at + n))
        n++;
    return n;
}

static size_t line_at(const struct text *text, size_t at) {
    while (at > 0 && text->bytes[at - 1] != '\n')
        at--;
    return at;
}

static void damage_byte(struct text *text) {
    size_t at = some_place(text);
    uint32_t kind = below(3);
    if (kind == 0)
        erase(text, at, 1);
    else if (kind == 1)
        insert(text, at, odd_byte(), 1);
    else
        text->bytes[at] = odd_byte();
}

static void damage_separator(struct text *text) {
    size_t at = some_separator(text);
    uint8_t *byte = &text->bytes[at];
    uint32_t kind = below(4);
    if (kind == 0)
        *byte = *byte == ' ' ? '\n' : ' ';
    else if (kind == 1)
        insert(text, at, *byte, 1);
    else if (kind == 2)
        insert(text, at, *byte == ' ' ? '\r' : ' ', 1);
    else
        *byte = '\t';
}

/* No digits, six digits, or five, which are good. */
static void damage_number(struct text *text) {
    size_t at = some_number(text), digits = digits_at(text, at);
    uint32_t kind = below(3);
    if (kind == 0)
        erase(text, at, digits);
    else if (digits > 0 && digits <= 5)
        insert(text, at, '0', (kind == 1 ? 6 : 5) - digits);
}

static void damage_line(struct text *text) {
    static uint8_t line[ROOM];
    size_t at = line_at(text, some_place(text)), len = 0;
    while (at + len < text->len && text->bytes[at + len++] != '\n')
        ;
    if (one_in(2)) {
        erase(text, at, len);
    } else {
        memcpy(line, text->bytes + at, len);
        insert(text, at, 0, len);
        memcpy(text->bytes + at, line, len);
    }
}

/* The last newline missing, the text cut short, or something behind it: few bytes or many. */
static void damage_end(struct text *text) {
    uint32_t kind = below(5), more = kind == 4 ? between(2, 4000) : 1;
    if (kind <= 1)
        text->len--;
    else if (kind == 2)
        text->len = some_place(text);
    else
        insert(text, text->len, one_in(2) ? '\n' : odd_byte(), more);
}

/* A small letter, another one, or something else behind it. */
static void damage_mode(struct text *text) {
    static const char letters[] = "SEXDF0 \n\t";
    uint32_t kind = below(3);
    if (kind == 0)
        text->bytes[0] |= 32;
    else if (text->len > 1)
        text->bytes[kind - 1] = (uint8_t)letters[below(sizeof letters)];
}

static void damage_text(struct text *text) {
    static void (*const kinds[])(struct text *) = {damage_byte, damage_separator, damage_number,
                                                   damage_line, damage_end,       damage_mode};
    if (text->len > 0)
        kinds[below(sizeof kinds / sizeof *kinds)](text);
}

/* ---- Drawing ---- */

/* Lists whose counts a text can say, but the listing refuse: none, or one over the most. */
static void damage_counts(struct lists *in) {
    uint32_t kind = below(3);
    if (kind == 0)
        in->tasks_len = 0;
    while (kind == 1 && tasks_in(in) < 17)
        add_twin(in);
    while (kind == 2 && jobs_in(in) < 65)
        add_job(in, 0, 16384, 0);
}

static void draw_text(struct text *text) {
    static const uint32_t numbers[] = {3, 4, 6, 7, 8, 8, 8, 9, 9};
    static struct lists in;
    uint32_t kind = below(12), harm = one_in(3) ? 2 : 1;
    draw_lists(&in, one_in(24) ? LONG : one_in(12) ? FULL : SHORT);
    if (kind == 0)
        damage_counts(&in);
    for (uint32_t k = 0; k < harm && kind >= 1 && kind <= 3; k++)
        damage(&in, ONE_OF(numbers));
    put_lists(text, &in);
    for (uint32_t k = 0; k < harm && kind >= 4 && kind <= 8; k++)
        damage_text(text);
}

static FILE *open_file(const char *folder, unsigned long k, const char *ending) {
    char name[1024];
    FILE *file;
    snprintf(name, sizeof name, "%s/%03lu.%s", folder, k, ending);
    file = fopen(name, "wb");
    if (file == NULL) {
        perror(name);
        exit(2);
    }
    return file;
}

static void write_text(const char *folder, unsigned long k) {
    static struct text text;
    FILE *file = open_file(folder, k, "txt");
    draw_text(&text);
    fwrite(text.bytes, 1, text.len, file);
    fclose(file);
    file = open_file(folder, k, "out");
    list(file, &text);
    fclose(file);
}

static void show_count(const char *what, unsigned long n) {
    printf("texts: %s: %lu\n", what, n);
    count.none += n == 0;
}

static void show_counts(void) {
    static const int numbers[] = {2, 3, 4, 6, 7, 8, 9, MALFORMED};
    char what[32];
    show_count("run", count.run);
    show_count("run, with a horizon over 8192", count.far);
    for (int k = 0; k < 4; k++) {
        snprintf(what, sizeof what, "jobs %s", verdict_words[k]);
        show_count(what, count.verdicts[k]);
    }
    show_count("jobs late by an exact number", count.exactly);
    show_count("jobs late by at least a number", count.at_least);
    show_count("jobs suspended in a tick", count.suspended);
    show_count("jobs that waited in a tick", count.waited);
    show_count("jobs that did both", count.both);
    for (size_t k = 0; k < sizeof numbers / sizeof *numbers; k++) {
        snprintf(what, sizeof what, "refused %d", numbers[k]);
        show_count(what, count.refused[numbers[k]]);
    }
}

int main(int argc, char **argv) {
    unsigned long texts = argc > 2 ? strtoul(argv[2], NULL, 10) : TEXTS;
    if (argc < 2) {
        fprintf(stderr, "texts: no folder to write to\n");
        return 2;
    }
    if (argc > 3)
        set_seed(strtoul(argv[3], NULL, 10));
    for (unsigned long k = 0; k < texts; k++)
        write_text(argv[1], k);
    show_counts();
    if (count.none > 0)
        printf("texts: %lu of these answers came for no text\n", count.none);
    return count.none != 0;
}
