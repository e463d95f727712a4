/* Replays a script of docs/SUPPORT.md by the proved library, and prints its transcript.
 *
 *     replay [--trace FILE] SCRIPT    `-` for SCRIPT is standard input
 *     replay [--trace FILE] --hand    prompts, reads standard input line by line and repeats no line
 *
 * The status is 0, 1 where an `expect` failed, and 2 where a line is no command, or a file cannot be read or written.
 * By hand it is 0 wherever the input ends.
 *
 * Every call is made through include/sam_session.h. What the library answers is what is on trial here, so it is not
 * trusted: whatever a register or a length says, only memory that is there is read.
 */
#include "machine.h"

#include "bytes.h"
#include "words.h"

#include <inttypes.h>
#include <stdio.h>
#include <stdlib.h>
#include <string.h>

enum { ALL_AS_EXPECTED, EXPECT_FAILED, CANNOT_GO_ON }; /* the status */

enum {
    DONE = 0,            /* the number of a call that is not refused */
    FORBIDDEN = 65,      /* the two numbers of a depth list that tell a place */
    RULE_FAILS = 66,
    LENT_LIMIT = 65535,  /* cells, history places or bytes of output that a script may lend */
    STEPS_LIMIT = 10000, /* of one `step` or `back` */
    TRACED_STEPS = 1000, /* of one run */
    BYTES_A_LINE = 32,
    QUOTED_BYTES = 60,   /* of a word that is wrong */
    ANSWER_BYTES = 256   /* enough for the words of any answer, five numbers at most */
};

typedef struct {
    sam_session session;
    sam_text listing;                   /* of the session's program, */
    text instruction[SAM_TABLE_PLACES]; /* and its lines */
    kept *kept;                         /* by pack, save and image */
    const char *script;                 /* its name */
    bool by_hand;
    text left;                          /* what is still to be read of the script, */
    growing typed;                      /* or by hand the line that was read last */
    uint64_t line;                      /* the number of the line that was read last */
    char answer[ANSWER_BYTES];          /* the words of the latest one; empty before the first */
    bool expect_failed;
    FILE *trace;                        /* NULL where none is wanted */
} replay;

/* What became of a line: it was obeyed, its words are not those that its command takes, or what is wrong is told. */
typedef enum { OBEYED, WRONG_WORDS, TOLD } outcome;

/* ---- what is wrong */

static int cannot_go_on(const char *why, const char *with) {
    fflush(stdout);
    fprintf(stderr, "replay: %s%s\n", why, with);
    return CANNOT_GO_ON;
}

static outcome no_command_at(const replay *r, uint64_t line, const char *why) {
    fflush(stdout);
    fprintf(stderr, "%s:%" PRIu64 ": %s\n", r->script, line, why);
    return TOLD;
}

static outcome no_command(const replay *r, const char *why) {
    return no_command_at(r, r->line, why);
}

/* The word stands in quotes between the two, printable and not too long: whatever it is, one line is told. */
static outcome no_command_with(const replay *r, const char *before, text word, const char *behind) {
    char quoted[QUOTED_BYTES + 1];
    size_t length = at_most(word.length, QUOTED_BYTES);
    for (size_t i = 0; i < length; i++) quoted[i] = printable(word.at[i]);
    quoted[length] = '\0';
    fflush(stdout);
    fprintf(stderr, "%s:%" PRIu64 ": %s'%s%s'%s\n", r->script, r->line, before, quoted,
            length < word.length ? ".." : "", behind);
    return TOLD;
}

/* ---- what a line names */

/* Reads a FILE: a path from the script's folder, unless it begins at the root. */
static bool read_file(const replay *r, text path, growing *bytes) {
    const char *slash = strrchr(r->script, '/');
    growing whole = {NULL, 0, 0};
    if (slash && path.at[0] != '/') append(&whole, r->script, (size_t)(slash - r->script) + 1);
    append(&whole, path.at, path.length);
    append(&whole, "", 1);
    bool is_read = !memchr(path.at, '\0', path.length) && read_path(whole.at, bytes);
    free(whole.at);
    return is_read;
}

static outcome nothing_kept(const replay *r, const name *wanted) {
    return no_command_with(r, "no bytes are kept as ", text_of(wanted->letters), "");
}

/* ---- answers: their words, for the next `expect`, are made with the line that tells them */

static void add_word(replay *r, const char *word) {
    size_t length = strlen(r->answer);
    snprintf(r->answer + length, ANSWER_BYTES - length, "%s%s", length > 0 ? " " : "", word);
}

static void add_number(replay *r, uint64_t number) {
    char digits[NUMBER_DIGITS + 1];
    snprintf(digits, sizeof digits, "%" PRIu64, number);
    add_word(r, digits);
}

/* Writes the number and its meaning; what is told comes behind them. */
static void begin_answer(replay *r, uint32_t number) {
    r->answer[0] = '\0';
    add_number(r, number);
    printf("= %" PRIu32 " %s", number, meaning(number));
}

static void tell(replay *r, const char *before, uint64_t told, const char *behind) {
    add_number(r, told);
    printf("%s%" PRIu64 "%s", before, told, behind);
}

static outcome end_answer(void) {
    putchar('\n');
    return OBEYED;
}

static outcome answer_number(replay *r, uint32_t number) {
    begin_answer(r, number);
    return end_answer();
}

static const char *steps_word(uint64_t steps) {
    return steps == 1 ? " step" : " steps";
}

static void write_text(text t) {
    fwrite(t.at, 1, t.length, stdout);
}

static void write_instruction(const replay *r, uint64_t pc) {
    bool listed = pc < SAM_TABLE_PLACES && r->instruction[pc].at;
    if (pc >= r->session.length) printf("the end");
    else if (listed) write_text(r->instruction[pc]);
    else printf("no line of the listing");
}

static void write_place(const replay *r, const char *before, uint64_t pc) {
    printf("%sPC %" PRIu64 " ", before, pc);
    write_instruction(r, pc);
}

static void write_lines(text left) {
    text line;
    while (take_line(&left, &line)) {
        printf("= ");
        write_text(line);
        putchar('\n');
    }
}

static void write_bytes(const uint8_t *bytes, size_t length) {
    for (size_t i = 0; i < length; i++) {
        bool first = i % BYTES_A_LINE == 0, last = i + 1 == length || (i + 1) % BYTES_A_LINE == 0;
        printf("%s%02X%s", first ? "= " : " ", bytes[i], last ? "\n" : "");
    }
}

/* What list, pack and save answer ahead of what they wrote. */
static bool answer_bytes(replay *r, uint32_t number, uint64_t bytes) {
    begin_answer(r, number);
    if (number == DONE) tell(r, "; ", bytes, " bytes");
    end_answer();
    return number == DONE;
}

/* ---- the trace */

static void trace_call(const replay *r, const sam_session *s, const char *call, uint32_t number, uint64_t told) {
    const uint64_t *registers = s->registers;
    char cell[VALUE_BYTES] = "- -";
    if (!r->trace) return;
    if (live_cells(s) > 0) describe_cell(s, 0, cell);
    fprintf(r->trace, "%" PRIu64 " %s %" PRIu32, r->line, call, number);
    fprintf(r->trace, " %" PRIu64 " %" PRIu64 " %" PRIu64 " %" PRIu64, registers[SAM_PC], registers[SAM_SP],
            registers[SAM_HALT], registers[SAM_KEPT]);
    fprintf(r->trace, " %s %" PRIu64 "\n", cell, told);
}

/* Makes the first steps of a run again, one by one, from the machine as it was before. */
static void trace_steps(const replay *r, sam_session *before, uint64_t steps) {
    for (uint64_t i = 0; i < steps && i < TRACED_STEPS; i++) {
        uint32_t number = sam_session_step(before);
        trace_call(r, before, "step", number, 0);
    }
}

static uint32_t run_traced(const replay *r, sam_session *s, uint64_t limit, uint64_t *steps) {
    sam_session before;
    copy_session(&before, s);
    uint32_t number = sam_session_run(s, limit, steps);
    trace_steps(r, &before, *steps);
    trace_call(r, s, "run", number, *steps);
    free_lent(&before);
    return number;
}

/* ---- reading the script */

static void prompt(const replay *r, bool in_block) {
    const uint64_t *registers = r->session.registers;
    if (!in_block && registers[SAM_N] != 0) {
        write_place(r, "", registers[SAM_PC]);
        printf("%s ", registers[SAM_HALT] == 1 ? " (halted)" : "");
    }
    printf(in_block ? "| " : "> ");
    fflush(stdout);
}

/* The line is good until the next one is read. */
static bool next_typed_line(replay *r, bool in_block, text *line) {
    if (feof(stdin)) return false;
    prompt(r, in_block);
    r->typed.length = 0;
    for (int c = 0; c != '\n' && (c = getchar()) != EOF;) {
        char typed = (char)c;
        append(&r->typed, &typed, 1);
    }
    text left = text_in(&r->typed);
    return take_line(&left, line);
}

static bool next_script_line(replay *r, text *line) {
    if (!take_line(&r->left, line)) return false;
    write_text(*line);
    putchar('\n');
    return true;
}

static bool next_line(replay *r, bool in_block, text *line) {
    bool there = r->by_hand ? next_typed_line(r, in_block, line) : next_script_line(r, line);
    if (there) r->line++;
    return there;
}

static outcome no_end_of_block(const replay *r, uint64_t begun) {
    return no_command_at(r, begun, "the block that begins here has no line `end`");
}

/* ---- the commands on the program */

/* Lists the program that was made anew, for the lines of its instructions. */
static void read_listing(replay *r) {
    bool listed = sam_session_list(&r->session, &r->listing) == DONE;
    text left = {(const char *)r->listing.bytes, listed ? at_most(r->listing.length, SAM_TEXT_BYTES) : 0};
    memset(r->instruction, 0, sizeof r->instruction);
    for (size_t i = 0; i < SAM_TABLE_PLACES && take_line(&left, &r->instruction[i]);) i++;
}

static void assemble(replay *r, text source) {
    sam_fault fault;
    uint32_t number = sam_session_assemble(&r->session, source.at, source.length, &fault);
    read_listing(r);
    begin_answer(r, number);
    if (number == DONE) {
        tell(r, "; length ", r->session.length, "");
    } else {
        tell(r, "; place ", fault.place, "");
        tell(r, ", line ", fault.line, "");
        tell(r, ", column ", fault.column, "");
    }
    end_answer();
}

static outcome assemble_block(replay *r) {
    uint64_t begun = r->line;
    growing source = {NULL, 0, 0};
    text line;
    bool there;
    while ((there = next_line(r, true, &line)) && !is_end(line)) {
        append(&source, line.at, line.length);
        append(&source, "\n", 1);
    }
    if (there) assemble(r, text_in(&source));
    free(source.at);
    return there ? OBEYED : no_end_of_block(r, begun);
}

static outcome assemble_file(replay *r, text path) {
    growing source = {NULL, 0, 0};
    bool is_read = read_file(r, path, &source);
    if (is_read) assemble(r, text_in(&source));
    free(source.at);
    return is_read ? OBEYED : no_command_with(r, "there is no file ", path, " that can be read");
}

static outcome obey_program(replay *r, text rest) {
    text path;
    if (!take_word(&rest, &path)) return assemble_block(r);
    return no_word_in(rest) ? assemble_file(r, path) : WRONG_WORDS;
}

static outcome obey_formula(replay *r, text rest) {
    text formula = without_blanks_around(rest);
    uint64_t depth;
    uint32_t number = sam_session_translate(&r->session, formula.at, formula.length, &depth);
    read_listing(r);
    begin_answer(r, number);
    if (number == DONE) {
        tell(r, "; length ", r->session.length, "");
        tell(r, ", depth ", depth, "");
    }
    return end_answer();
}

static outcome obey_list(replay *r, text rest) {
    static sam_text listing;
    if (!no_word_in(rest)) return WRONG_WORDS;
    uint32_t number = sam_session_list(&r->session, &listing);
    text lines = {(const char *)listing.bytes, at_most(listing.length, SAM_TEXT_BYTES)};
    if (answer_bytes(r, number, listing.length)) write_lines(lines);
    return OBEYED;
}

static outcome obey_pack(replay *r, text rest) {
    static sam_image image;
    name as;
    bool unnamed = no_word_in(rest);
    if (!unnamed && !is_only_name(rest, &as)) return WRONG_WORDS;
    uint32_t number = sam_session_pack(&r->session, &image);
    size_t length = at_most(image.length, SAM_IMAGE_BYTES);
    if (!answer_bytes(r, number, image.length)) return OBEYED;
    write_bytes(image.bytes, length);
    if (!unnamed) keep(&r->kept, &as, image.bytes, length);
    return OBEYED;
}

static outcome obey_unpack(replay *r, text rest) {
    name wanted;
    if (!is_only_name(rest, &wanted)) return WRONG_WORDS;
    const kept *found = find_kept(r->kept, &wanted);
    if (!found) return nothing_kept(r, &wanted);
    uint32_t number = sam_session_unpack(&r->session, (const uint8_t *)found->bytes.at, found->bytes.length);
    read_listing(r);
    begin_answer(r, number);
    if (number == DONE) tell(r, "; length ", r->session.length, "");
    return end_answer();
}

static bool read_depth(text word, uint16_t *depth) {
    uint64_t number = SAM_NOT_REACHED;
    if (!same(word, text_of("-")) && !read_number(word, SAM_NOT_REACHED, &number)) return false;
    *depth = (uint16_t)number;
    return true;
}

/* Reads a line of depths, up to a word that is none. */
static bool read_depths(text line, growing *depths, text *word) {
    uint16_t depth;
    while (take_word(&line, word)) {
        if (!read_depth(*word, &depth)) return false;
        append(depths, &depth, sizeof depth);
    }
    return true;
}

static bool read_depth_lines(text left, growing *depths, text *word) {
    text line;
    while (take_line(&left, &line)) {
        if (!read_depths(without_comment(line), depths, word)) return false;
    }
    return true;
}

static outcome no_depth(const replay *r, const char *where, text word) {
    return no_command_with(r, where, word, " is no depth: a number up to 65535, or -");
}

static outcome read_depth_file(const replay *r, text path, growing *depths) {
    growing file = {NULL, 0, 0};
    text word;
    outcome became = OBEYED;
    if (!read_file(r, path, &file))
        became = no_command_with(r, "", path, " is neither a depth nor a file that can be read");
    else if (!read_depth_lines(text_in(&file), depths, &word))
        became = no_depth(r, "in the file ", word);
    free(file.at);
    return became;
}

static outcome read_depth_list(const replay *r, text rest, growing *depths) {
    text left = rest, word;
    uint16_t depth;
    bool alone = take_word(&left, &word) && no_word_in(left);
    if (alone && !read_depth(word, &depth)) return read_depth_file(r, word, depths);
    return read_depths(rest, depths, &word) ? OBEYED : no_depth(r, "", word);
}

static void judge_depths(replay *r, uint64_t cells, const growing *depths) {
    const uint16_t *list = (const uint16_t *)(const void *)depths->at;
    uint64_t place;
    uint32_t number = sam_session_depths(&r->session, cells, list, depths->length / sizeof *list, &place);
    begin_answer(r, number);
    if (number == FORBIDDEN || number == RULE_FAILS) tell(r, "; place ", place, "");
    end_answer();
}

static outcome obey_depths(replay *r, text rest) {
    uint64_t cells;
    if (!take_number(&rest, UINT64_MAX, &cells)) return WRONG_WORDS;
    growing depths = {NULL, 0, 0};
    outcome became = read_depth_list(r, rest, &depths);
    if (became == OBEYED) judge_depths(r, cells, &depths);
    free(depths.at);
    return became;
}

/* ---- the commands on the machine */

typedef struct {
    uint64_t n, h, output;
} sizes;

static bool are_sizes(text left, sizes *read) {
    return take_number(&left, LENT_LIMIT, &read->n) && take_number(&left, LENT_LIMIT, &read->h) &&
           take_number(&left, LENT_LIMIT, &read->output) && no_word_in(left);
}

static void lend_sizes(sam_session *s, const sizes *lent) {
    free_lent(s);
    lend_anew(s, (size_t)lent->n, (size_t)lent->h, (size_t)lent->output);
}

static outcome obey_reset(replay *r, text rest) {
    sizes lent;
    if (!are_sizes(rest, &lent)) return WRONG_WORDS;
    lend_sizes(&r->session, &lent);
    uint32_t number = sam_session_reset(&r->session);
    trace_call(r, &r->session, "reset", number, 0);
    return answer_number(r, number);
}

static outcome obey_load(replay *r, text rest) {
    name wanted;
    sizes lent;
    if (!take_name(&rest, &wanted)) return WRONG_WORDS;
    bool as_lent = no_word_in(rest);
    if (!as_lent && !are_sizes(rest, &lent)) return WRONG_WORDS;
    const kept *found = find_kept(r->kept, &wanted);
    if (!found) return nothing_kept(r, &wanted);
    if (!as_lent) lend_sizes(&r->session, &lent);
    uint32_t number = sam_session_load(&r->session, (const uint8_t *)found->bytes.at, found->bytes.length);
    trace_call(r, &r->session, "load", number, 0);
    return answer_number(r, number);
}

static outcome obey_save(replay *r, text rest) {
    static sam_saved saved;
    name as;
    if (!is_only_name(rest, &as)) return WRONG_WORDS;
    uint32_t number = sam_session_save(&r->session, &saved);
    size_t length = at_most(saved.length, SAM_STATE_BYTES);
    if (!answer_bytes(r, number, saved.length)) return OBEYED;
    write_bytes(saved.bytes, length);
    keep(&r->kept, &as, saved.bytes, length);
    return OBEYED;
}

/* The K of a `step` or `back`. */
static bool is_step_count(text left, uint64_t *most) {
    *most = 1;
    return no_word_in(left) || (take_number(&left, STEPS_LIMIT, most) && *most > 0 && no_word_in(left));
}

static outcome obey_step(replay *r, text rest) {
    uint64_t most, done = 0;
    uint32_t number = DONE;
    if (!is_step_count(rest, &most)) return WRONG_WORDS;
    while (number == DONE && done < most) {
        uint64_t pc = r->session.registers[SAM_PC];
        number = sam_session_step(&r->session);
        trace_call(r, &r->session, "step", number, 0);
        begin_answer(r, number);
        write_place(r, "; ", pc);
        end_answer();
        if (number == DONE) done++;
    }
    add_number(r, done);
    return OBEYED;
}

static outcome obey_back(replay *r, text rest) {
    uint64_t most, done = 0;
    uint32_t number = DONE;
    if (!is_step_count(rest, &most)) return WRONG_WORDS;
    while (number == DONE && done < most) {
        number = sam_session_step_back(&r->session);
        trace_call(r, &r->session, "back", number, 0);
        begin_answer(r, number);
        if (number == DONE) write_place(r, "; ", r->session.registers[SAM_PC]);
        end_answer();
        if (number == DONE) done++;
    }
    add_number(r, done);
    return OBEYED;
}

static outcome obey_run(replay *r, text rest) {
    uint64_t limit, steps;
    if (!is_only_number(rest, &limit)) return WRONG_WORDS;
    uint32_t number = r->trace ? run_traced(r, &r->session, limit, &steps)
                               : sam_session_run(&r->session, limit, &steps);
    begin_answer(r, number);
    tell(r, "; ", steps, steps_word(steps));
    return end_answer();
}

static outcome obey_forget(replay *r, text rest) {
    uint64_t k;
    if (!is_only_number(rest, &k)) return WRONG_WORDS;
    uint32_t number = sam_session_forget(&r->session, k);
    trace_call(r, &r->session, "forget", number, 0);
    return answer_number(r, number);
}

static outcome obey_dwell(replay *r, text rest) {
    uint64_t tenths;
    if (!no_word_in(rest)) return WRONG_WORDS;
    uint32_t number = sam_session_dwell(&r->session, &tenths);
    trace_call(r, &r->session, "dwell", number, tenths);
    begin_answer(r, number);
    tell(r, "; ", tenths, " tenths");
    return end_answer();
}

/* The listing is of the table, so the instruction that is told has to be the table's. */
static void tell_cause(replay *r, const sam_cause *cause) {
    bool of_table = cause->pc < SAM_TABLE_PLACES && cause->instruction == r->session.table[cause->pc];
    char old[VALUE_BYTES];
    describe(cause->old_tag, cause->old_bits, old);
    tell(r, "; ", cause->steps_back, steps_word(cause->steps_back));
    tell(r, " back, PC ", cause->pc, " ");
    if (of_table) write_instruction(r, cause->pc);
    else printf("an instruction that is not there");
    printf(", before it %s", old);
    add_word(r, old);
}

static outcome obey_why(replay *r, text rest) {
    uint64_t cell;
    sam_cause cause;
    if (!is_only_number(rest, &cell)) return WRONG_WORDS;
    uint32_t number = sam_session_why(&r->session, cell, &cause);
    begin_answer(r, number);
    if (number == DONE && cause.found) {
        tell_cause(r, &cause);
    } else if (number == DONE) {
        printf("; no kept step wrote it");
        add_word(r, "none");
    }
    return end_answer();
}

/* ---- the commands that are no calls */

/* Appends the bytes of a line, or none of them where a word is no byte. */
static outcome append_image_line(const replay *r, text line, growing *bytes) {
    size_t before = bytes->length;
    text left = without_comment(line), word;
    uint8_t byte;
    while (take_word(&left, &word)) {
        if (!read_byte(word, &byte)) {
            bytes->length = before;
            return no_command_with(r, "", word, " is no byte of two hex digits");
        }
        append(bytes, &byte, 1);
    }
    return OBEYED;
}

/* By hand a wrong line is told and left out, and can be typed again. */
static outcome read_image(replay *r, growing *bytes) {
    uint64_t begun = r->line;
    text line;
    while (next_line(r, true, &line)) {
        if (is_end(line)) return OBEYED;
        if (append_image_line(r, line, bytes) != OBEYED && !r->by_hand) return TOLD;
    }
    return no_end_of_block(r, begun);
}

static outcome obey_image(replay *r, text rest) {
    name as;
    if (!is_only_name(rest, &as)) return WRONG_WORDS;
    growing bytes = {NULL, 0, 0};
    outcome became = read_image(r, &bytes);
    if (became == OBEYED) keep(&r->kept, &as, bytes.at, bytes.length);
    free(bytes.at);
    return became;
}

static void show_registers(const uint64_t *registers) {
    printf("= PC %" PRIu64 " SP %" PRIu64 " FBR %" PRIu64 " HALT %" PRIu64 "\n", registers[SAM_PC], registers[SAM_SP],
           registers[SAM_FBR], registers[SAM_HALT]);
    printf("= N %" PRIu64 " H %" PRIu64 " U %" PRIu64, registers[SAM_N], registers[SAM_H_PLACES], registers[SAM_U]);
    printf(" kept %" PRIu64 " written %" PRIu64 "\n", registers[SAM_KEPT], registers[SAM_WRITTEN]);
}

static void show_live_cells(const sam_session *s) {
    char described[VALUE_BYTES];
    for (size_t cell = 0; cell < live_cells(s); cell++) {
        describe_cell(s, cell, described);
        printf("= %zu %s\n", cell, described);
    }
}

static void show_output(const sam_session *s) {
    size_t written = at_most(s->registers[SAM_WRITTEN], s->output_len);
    if (written == 0) return;
    printf("= out");
    for (size_t i = 0; i < written; i++) printf(" %02X", s->output[i]);
    printf(" \"");
    for (size_t i = 0; i < written; i++) putchar(printable(s->output[i]));
    printf("\"\n");
}

static outcome show_machine(const sam_session *s) {
    show_registers(s->registers);
    show_live_cells(s);
    show_output(s);
    return OBEYED;
}

/* The one answer without a number: its line is its words. */
static outcome show_cell(replay *r, uint64_t cell) {
    const sam_session *s = &r->session;
    char described[VALUE_BYTES] = "none";
    if (cell < at_most(s->registers[SAM_N], s->cells)) describe_cell(s, (size_t)cell, described);
    r->answer[0] = '\0';
    add_number(r, cell);
    add_word(r, described);
    printf("= %s\n", r->answer);
    return OBEYED;
}

static outcome obey_show(replay *r, text rest) {
    uint64_t cell;
    if (no_word_in(rest)) return show_machine(&r->session);
    return is_only_number(rest, &cell) ? show_cell(r, cell) : WRONG_WORDS;
}

/* Whether the expected words are the first of the answer's. */
static bool is_as_expected(text answer, text expected) {
    text word, other;
    while (take_word(&expected, &word)) {
        if (!take_word(&answer, &other) || !same(word, other)) return false;
    }
    return true;
}

static outcome obey_expect(replay *r, text rest) {
    text left = rest;
    uint64_t number;
    if (!take_number(&left, UINT64_MAX, &number)) return WRONG_WORDS;
    if (r->answer[0] == '\0') return no_command(r, "there is no answer before this expect");
    if (is_as_expected(text_of(r->answer), rest)) {
        printf("= as expected\n");
    } else {
        printf("= NOT as expected: it was %s\n", r->answer);
        r->expect_failed = true;
    }
    return OBEYED;
}

/* ---- the replay */

static const struct {
    const char *word;
    outcome (*obey)(replay *r, text rest);
    const char *takes; /* told where the words behind it are others */
} COMMANDS[] = {
    {"program", obey_program, "program takes one FILE, or nothing and then lines up to `end`"},
    {"formula", obey_formula, "formula takes the rest of the line"},
    {"list", obey_list, "list takes nothing behind it"},
    {"pack", obey_pack, "pack takes nothing or one NAME: a letter, then up to 31 letters, digits or _"},
    {"unpack", obey_unpack, "unpack takes one NAME: a letter, then up to 31 letters, digits or _"},
    {"depths", obey_depths, "depths takes a number, N, and then depths or one FILE"},
    {"reset", obey_reset, "reset takes three numbers up to 65535, N H OUTPUT"},
    {"step", obey_step, "step takes nothing or one number, 1 to 10000"},
    {"back", obey_back, "back takes nothing or one number, 1 to 10000"},
    {"run", obey_run, "run takes one number, LIMIT"},
    {"forget", obey_forget, "forget takes one number, K"},
    {"dwell", obey_dwell, "dwell takes nothing behind it"},
    {"why", obey_why, "why takes one number, CELL"},
    {"save", obey_save, "save takes one NAME: a letter, then up to 31 letters, digits or _"},
    {"load", obey_load, "load takes one NAME, and then nothing or three numbers up to 65535, N H OUTPUT"},
    {"image", obey_image, "image takes one NAME: a letter, then up to 31 letters, digits or _"},
    {"show", obey_show, "show takes nothing or one number, CELL"},
    {"expect", obey_expect, "expect takes a number, and then words"},
};

static outcome obey(replay *r, text line) {
    text rest = without_comment(line), word;
    if (!take_word(&rest, &word)) return OBEYED;
    for (size_t i = 0; i < sizeof COMMANDS / sizeof *COMMANDS; i++) {
        if (!same(word, text_of(COMMANDS[i].word))) continue;
        outcome became = COMMANDS[i].obey(r, rest);
        return became == WRONG_WORDS ? no_command(r, COMMANDS[i].takes) : became;
    }
    return no_command_with(r, "there is no command ", word, "");
}

static int obey_lines(replay *r) {
    text line;
    while (next_line(r, false, &line)) {
        if (obey(r, line) != OBEYED && !r->by_hand) return CANNOT_GO_ON;
    }
    if (r->by_hand) putchar('\n'); /* behind the last prompt */
    return r->expect_failed && !r->by_hand ? EXPECT_FAILED : ALL_AS_EXPECTED;
}

static int replay_lines(replay *r) {
    sam_session_begin(&r->session, NULL, NULL, 0, NULL, 0, NULL, 0);
    read_listing(r);
    int status = obey_lines(r);
    free_lent(&r->session);
    free_kept(r->kept);
    free(r->typed.at);
    bool written = fflush(stdout) == 0 && !ferror(stdout);
    return written ? status : cannot_go_on("the transcript cannot be written", "");
}

static int replay_with_trace(replay *r, const char *path) {
    if (!path) return replay_lines(r);
    r->trace = fopen(path, "wb");
    if (!r->trace) return cannot_go_on("the trace cannot be written to ", path);
    int status = replay_lines(r);
    bool written = !ferror(r->trace);
    written = fclose(r->trace) == 0 && written;
    return written ? status : cannot_go_on("the trace cannot be written to ", path);
}

static int replay_script(replay *r, const char *trace) {
    growing script = {NULL, 0, 0};
    bool is_read = strcmp(r->script, "-") == 0 ? read_all(stdin, &script) : read_path(r->script, &script);
    r->left = text_in(&script);
    int status = is_read ? replay_with_trace(r, trace) : cannot_go_on("no script can be read as ", r->script);
    free(script.at);
    return status;
}

int main(int argc, char **argv) {
    static replay r;
    bool traced = argc > 2 && strcmp(argv[1], "--trace") == 0;
    const char *trace = traced ? argv[2] : NULL;
    int last = traced ? 3 : 1;
    if (argc != last + 1) return cannot_go_on("it is called as replay [--trace FILE] SCRIPT, or --hand for SCRIPT", "");
    r.by_hand = strcmp(argv[last], "--hand") == 0;
    r.script = r.by_hand ? "-" : argv[last];
    return r.by_hand ? replay_with_trace(&r, trace) : replay_script(&r, trace);
}
