// The program on a system for which the toolchain makes none: the words of its command line and C's files, around the proved
// calls. `emtp WORDS` does what the program `emtp` does, `emtp show WORDS` what `emtp_show` does, and `emtp judge WORDS` what
// `emtp_judge` does, with their exit statuses. Where a run isn't whole, it says on standard error what its status means.
//
// It isn't proved. What it decides itself is which words name files that are read; whether words fit, what a status means, and all
// else, the calls decide.
#include <stdbool.h>
#include <stdint.h>
#include <stdio.h>
#include <stdlib.h>
#include <string.h>

#ifdef _WIN32
#include <fcntl.h>
#include <io.h>
#include <wchar.h>
#include <windows.h>
typedef wchar_t Letter; // of the system's own words and names
#else
typedef char Letter;
#endif

enum { DONE = 0, USAGE = 1, ENDED = 3, READ_FAULT = 4, WRITE_FAULT = 5, NO_MEMORY = 6 };

#define MOST_FILES 3
#define OUTPUTS 4
#define TEXT_BOUND 9000001 // a byte more than a case may have is enough to refuse it
#define RECORD_BOUND 64000001
#define FIRST_ROOM (1ull << 22)
#define MOST_ROOM (1ull << 28)

typedef struct {
    uint8_t *place;
    uint64_t count;
} Bytes;

// What is left of an output, and what a call came to, as the library hands them over.
typedef struct {
    bool created;
    uint64_t length;
} Left;
typedef struct {
    uint32_t status;
    Left outputs[OUTPUTS]; // cfg, dat, note, summary
} Answer;

typedef void Call(const uint8_t *words, uint64_t, const uint8_t *names, uint64_t, const uint8_t *first, uint64_t,
                  const uint8_t *second, uint64_t, const uint8_t *third, uint64_t, uint64_t room, uint8_t *cfg, uint64_t,
                  uint8_t *dat, uint64_t, uint8_t *note, uint64_t, uint8_t *summary, uint64_t, Answer *answer);
Call emtp_page_call, emtp_page_show, emtp_page_judge;

static void *memory(uint64_t count) {
    void *place = malloc(count ? count : 1);
    if (!place) exit(NO_MEMORY);
    return place;
}

// ---- words

#ifdef _WIN32
// A word in UTF-8; none where it isn't that.
static char *utf8(const wchar_t *word) {
    int count = WideCharToMultiByte(CP_UTF8, WC_ERR_INVALID_CHARS, word, -1, 0, 0, 0, 0);
    if (count <= 0) return 0;
    char *text = memory((uint64_t)count);
    WideCharToMultiByte(CP_UTF8, WC_ERR_INVALID_CHARS, word, -1, text, count, 0, 0);
    return text;
}
#else
static bool is_utf8(const uint8_t *at) {
    while (*at) {
        int more = *at < 0x80 ? 0 : *at < 0xc2 ? -1 : *at < 0xe0 ? 1 : *at < 0xf0 ? 2 : *at < 0xf5 ? 3 : -1;
        if (more < 0) return false;
        uint8_t least = *at == 0xe0 ? 0xa0 : *at == 0xf0 ? 0x90 : 0x80;
        uint8_t most = *at == 0xed ? 0x9f : *at == 0xf4 ? 0x8f : 0xbf;
        for (at++; more; more--, at++, least = 0x80, most = 0xbf) {
            if (*at < least || *at > most) return false;
        }
    }
    return true;
}

// A word in UTF-8; none where it isn't that.
static char *utf8(const char *word) { return is_utf8((const uint8_t *)word) ? strcpy(memory(strlen(word) + 1), word) : 0; }
#endif

// The calls part words by the ends of lines. A word that has one itself can be a name of a file alone: another name stands for
// it, the same for the same word, and with a dash in front where it has one.
static void stand_in(char **words, int count) {
    for (int at = 0; at < count; at++) {
        if (!strpbrk(words[at], "\r\n")) continue;
        char *other = memory(32);
        int number = 0;
        bool taken;
        do {
            snprintf(other, 32, "%sfile %d", words[at][0] == '-' ? "-" : "", number++);
            taken = false;
            for (int it = 0; it < count; it++) taken |= !strcmp(words[it], other);
        } while (taken);
        char *same = words[at];
        for (int it = count - 1; it >= at; it--) {
            if (!strcmp(words[it], same)) words[it] = other;
        }
    }
}

// Words as lines.
static Bytes lines(char **words, int count) {
    uint64_t length = 0;
    for (int at = 0; at < count; at++) length += strlen(words[at]) + 1;
    char *text = memory(length + 1);
    Bytes all = {(uint8_t *)text, length};
    for (int at = 0; at < count; at++) text += sprintf(text, "%s\n", words[at]);
    return all;
}

// ---- files

static FILE *open_file(const Letter *name, bool writes) {
#ifdef _WIN32
    return _wfopen(name, writes ? L"wb" : L"rb");
#else
    return fopen(name, writes ? "wb" : "rb");
#endif
}

// The first bytes of a file, as many as a command looks at.
static bool read_file(const Letter *name, uint64_t bound, Bytes *bytes) {
    FILE *file = open_file(name, false);
    if (!file) return false;
    uint64_t room = 1 << 16;
    *bytes = (Bytes){memory(room), 0};
    for (size_t got = 1; got && bytes->count < bound;) {
        if (bytes->count == room) {
            room *= 4;
            bytes->place = realloc(bytes->place, room);
            if (!bytes->place) exit(NO_MEMORY);
        }
        uint64_t left = room < bound ? room : bound;
        got = fread(bytes->place + bytes->count, 1, left - bytes->count, file);
        bytes->count += got;
    }
    bool whole = !ferror(file);
    fclose(file);
    return whole;
}

static bool write_file(const Letter *name, Bytes bytes) {
    FILE *file = open_file(name, true);
    if (!file) return false;
    bool whole = fwrite(bytes.place, 1, bytes.count, file) == bytes.count;
    return fclose(file) == 0 && whole;
}

// How many words behind a command name files that are read.
static int files_of(const char *command) {
    if (!strcmp(command, "audit")) return 3;
    if (!strcmp(command, "batch")) return 2;
    return strcmp(command, "trial") != 0;
}

// Whether a word behind `show` or `judge` says what is asked of the case whose name stands behind it.
static bool asks_of_case(const char *word) {
    return !strcmp(word, "--count") || !strcmp(word, "--kinds") || !strcmp(word, "--why") || !strcmp(word, "--fields") || !strcmp(word, "--samples");
}

// ---- calls

// Makes a call, with more room for its outputs until they have enough.
static Answer make(Call *call, Bytes words, Bytes names, const Bytes files[MOST_FILES], uint8_t *outputs[OUTPUTS]) {
    Answer answer;
    for (uint64_t room = FIRST_ROOM;; room *= 8) {
        for (int at = 0; at < OUTPUTS; at++) outputs[at] = memory(room);
        call(words.place, words.count, names.place, names.count, files[0].place, files[0].count, files[1].place, files[1].count,
             files[2].place, files[2].count, room, outputs[0], room, outputs[1], room, outputs[2], room, outputs[3], room,
             &answer);
        if (answer.status != WRITE_FAULT || room >= MOST_ROOM) return answer;
        for (int at = 0; at < OUTPUTS; at++) free(outputs[at]);
    }
}

// Writes what a call left: the files of a record first, and then what is printed.
static int leave(const Answer *answer, uint8_t *const outputs[OUTPUTS], const Letter *cfg, const Letter *dat) {
    for (int at = 0; at < OUTPUTS; at++) {
        Bytes bytes = {outputs[at], answer->outputs[at].length};
        if (!answer->outputs[at].created) continue;
        bool whole = at < 2 ? write_file(at ? dat : cfg, bytes)
                            : fwrite(bytes.place, 1, bytes.count, stdout) == bytes.count && fflush(stdout) == 0;
        // a refusal keeps its status where its note can't be written
        if (!whole) return answer->status == DONE || answer->status == ENDED ? WRITE_FAULT : (int)answer->status;
    }
    return (int)answer->status;
}

// The first line of a note, as a word.
static char *first_line(Bytes note) {
    char *text = memory(note.count + 1);
    memcpy(text, note.place, note.count);
    text[note.count] = 0;
    text[strcspn(text, "\r\n")] = 0;
    return text;
}

// Says what a status means, by the note, the words and the files of its call.
static void explain(int status, Bytes note, char **words, int count, Bytes names, const Bytes files[MOST_FILES]) {
    char number[16];
    snprintf(number, sizeof number, "%d", status);
    char **asked = memory((uint64_t)(count + 3) * sizeof *asked);
    asked[0] = "--told";
    asked[1] = number;
    asked[2] = first_line(note);
    memcpy(asked + 3, words, (uint64_t)count * sizeof *asked);
    uint8_t *outputs[OUTPUTS];
    Answer answer = make(emtp_page_show, lines(asked, count + 3), names, files, outputs);
    if (answer.status == DONE) fwrite(outputs[3], 1, answer.outputs[3].length, stderr);
}

static int run(int count, Letter **given) {
    char **words = memory((uint64_t)count * sizeof *words);
    bool odd = false;
    for (int at = 0; at < count; at++) {
        words[at] = utf8(given[at]);
        odd |= !words[at];
    }
    if (odd) count = 0;
    bool shows = count > 0 && !strcmp(words[0], "show"), judges = count > 0 && !strcmp(words[0], "judge");
    int skipped = shows || judges;
    stand_in(words, count);
    Bytes files[MOST_FILES] = {{0}}, names = {0};
    Bytes asked = lines(words + skipped, count - skipped);
    uint8_t *outputs[OUTPUTS];
    Call *call = shows ? emtp_page_show : judges ? emtp_page_judge : emtp_page_call;
    // Over no files, words that don't fit are refused, and only those that name a file aren't answered.
    Answer answer = make(call, asked, names, files, outputs);
    // behind `show --told STATUS NOTE` stand the words of a run, of whose files some may not be there any more; of an early end more
    // is told where they are
    bool again = shows && count > 5 && !strcmp(words[1], "--told"), ended = again && !strcmp(words[2], "3");
    if (answer.status == READ_FAULT || ended) {
        int first = again ? 5 : skipped ? count - 1 : 1, read = 0;
        int wanted = again ? count - first : skipped ? 1 : files_of(words[0]);
        char *named[MOST_FILES];
        for (int at = 0; at < wanted && read < MOST_FILES; at++) {
            bool is_record = wanted == 3 && at > 0;
            if (read_file(given[first + at], is_record ? RECORD_BOUND : TEXT_BOUND, &files[read])) {
                named[read++] = words[first + at];
            } else if (!again) {
                break;
            }
        }
        names = lines(named, read);
        answer = make(call, asked, names, files, outputs);
    }
    int status = leave(&answer, outputs, count == 4 ? given[2] : 0, count == 4 ? given[3] : 0);
    if (odd) {
        fputs("A word isn't UTF-8.\n", stderr);
    } else if (judges && status == USAGE) {
        fputs("Behind judge stands CASE, alone or behind --samples or --count.\n", stderr);
    } else if (status != DONE) {
        if (skipped && count == 3 && asks_of_case(words[1])) {
            words[1] = words[2];
            count = 2;
        }
        int said = answer.outputs[2].created ? 2 : 3; // a trial that ends early has a summary
        explain(status, (Bytes){outputs[said], answer.outputs[said].length}, words, count, names, files);
    }
    return status;
}

#ifdef _WIN32
int wmain(int count, wchar_t **words) {
    _setmode(_fileno(stdout), _O_BINARY);
    return run(count - 1, words + 1);
}
#else
int main(int count, char **words) { return run(count - 1, words + 1); }
#endif
