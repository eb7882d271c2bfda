/* xbrl_json.h: converts xBRL-CSV reports to xBRL-JSON. docs/MANUAL.md has a program that calls it.
 *
 * A report is a few files: the metadata file, the types table, the tables, and the parameters file
 * if the metadata names one. You give them in memory, each with its path. No function opens a file,
 * starts a thread, waits, prints, or keeps a pointer that you gave. Paths and texts are UTF-8 and
 * have a length; no byte ends them.
 *
 * docs/PROVED.md says what is proved of the library. What a caller owes is checked by nothing:
 *
 * - Lengths. A pointer points to at least as many bytes or files as its length says. It is not
 *   null, even with a length of 0: write XBRL_JSON_NOTHING for no bytes.
 * - No change. The files and paths stay as they are until the call returns. They may overlap, and
 *   several calls may share them. If a file is mapped, nobody makes it shorter meanwhile.
 * - An answer of its own. During a call nothing else reads, writes or points to the answer.
 * - Threads. A call uses only the thread that makes it, whose stack has 256 KiB left. Calls on
 *   different threads need no lock. Do not call in a signal handler, or in a child that was forked
 *   from a process with threads.
 * - Memory. The library calls the program's `malloc`, `realloc` and `free`, which belong together
 *   and align blocks as C asks.
 *
 * A call for which this holds never ends the process: if memory runs out, the status says so. Names
 * and layouts do not change as long as the library is libxbrl_json.so.0. library/README.md gives
 * the layouts for languages that do not read this header.
 */
#ifndef XBRL_JSON_H
#define XBRL_JSON_H

#include <stddef.h>
#include <stdint.h>
#include <stdlib.h>

#ifdef __cplusplus
extern "C" {
#endif

/* Bytes and their number. */
typedef struct {
    const uint8_t *at;
    size_t len;
} xbrl_json_text;

/* A file: its path, and its bytes. */
typedef struct {
    xbrl_json_text path;
    xbrl_json_text bytes;
} xbrl_json_file;

/* How a conversion ended. Initialize it with XBRL_JSON_ANSWER, and pass it to xbrl_json_free. Each
 * text with a length above 0 is memory of its own, which `free` frees. */
typedef struct {
    /* 0: the document is whole. 1: the report has a fault, or memory ran out for a table. 2: the
     * call is wrong: the path of the metadata file or of the types table is not UTF-8, or the layout
     * is not one of the two. 3: memory ran out, or one of these files, or the parameters file, is not
     * among the files. */
    uint32_t status;
    /* The document. At status 1 and 3 it is unfinished or empty: do not use it. */
    xbrl_json_text document;
    /* What `xbrl-json --explain` prints: a line for each fault, with its place, text and cause.
     * Empty at status 0 and 2; shorter or empty if memory runs out for it. */
    xbrl_json_text lines;
    /* What `xbrl-json --faults` writes: CSV with the header
     * table_id,table_row,table_column,fault_number,fault_name,line,header_cell,row_cell,place,
     * cause_file,cause_line,cause_cell,cause_text (in one line) and up to 1,000,000 faults of each
     * table. Empty at status 2 and 3; shorter or empty if memory runs out for it. */
    xbrl_json_text faults;
} xbrl_json_answer;

/* No bytes. */
static const uint8_t xbrl_json_no_byte = 0;
#define XBRL_JSON_NOTHING {&xbrl_json_no_byte, 0}

/* An answer before its first call. */
#define XBRL_JSON_ANSWER {0, XBRL_JSON_NOTHING, XBRL_JSON_NOTHING, XBRL_JSON_NOTHING}

/* The layouts of a document. */
#define XBRL_JSON_COMPACT 0u /* on one line */
#define XBRL_JSON_LINES 1u   /* a line for each fact */

/* Converts the report whose metadata file is at the path `meta` of these files, and whose types
 * table is at the path `types`. The path of a table is the folder of `meta` followed by the table's
 * URL, and so is that of the parameters file. A file that is not among the files does not exist. Of
 * two files with one path the first counts. Returns the status of the answer.
 *
 * The answer is overwritten: free an earlier one first. The whole document is in memory. */
uint32_t xbrl_json_convert(const xbrl_json_file *files, size_t count,
                           const uint8_t *meta, size_t meta_len,
                           const uint8_t *types, size_t types_len,
                           uint32_t layout, xbrl_json_answer *answer);

/* Gives the version of xbrl-json that the library is a part of, and the kit that proved it, as in
 * `0.25.2 (proved with KIT)`. Never free this text. */
void xbrl_json_version(xbrl_json_text *version);

#ifdef __cplusplus
#define XBRL_JSON_TO_FREE(at) const_cast<uint8_t *>(at)
#else
#define XBRL_JSON_TO_FREE(at) (void *)(uintptr_t)(at)
#endif

/* Frees the texts of an answer, which may then be used for another call. */
static inline void xbrl_json_free(xbrl_json_answer *answer) {
    const xbrl_json_answer none = XBRL_JSON_ANSWER;
    if (answer->document.len) free(XBRL_JSON_TO_FREE(answer->document.at));
    if (answer->lines.len) free(XBRL_JSON_TO_FREE(answer->lines.at));
    if (answer->faults.len) free(XBRL_JSON_TO_FREE(answer->faults.at));
    *answer = none;
}

#ifdef __cplusplus
}
#endif
#endif
