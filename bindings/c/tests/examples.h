/* The examples of the repository as plain arrays. Made by bindings/examples.py: don't edit. */
#ifndef GIRZOHAL_EXAMPLES_H
#define GIRZOHAL_EXAMPLES_H
#include "girzohal.h"

static const char by_bytes_texts[] =
    "a.jsfoo\012bar\012bazhereOops";
static const girzohal_file by_bytes_files[] = {
    {{0, 4}, {4, 15}}};
static const girzohal_report by_bytes_reports[] = {
    {0, 2, {19, 23}, {SIZE_MAX, SIZE_MAX}, {SIZE_MAX, SIZE_MAX}, {SIZE_MAX, SIZE_MAX}, {SIZE_MAX, SIZE_MAX}, {SIZE_MAX, SIZE_MAX}, 0, 1}};
static const girzohal_label by_bytes_labels[] = {
    {4, 7, {15, 19}, 0}};
static const char by_bytes_document[] =
    "{\012  \042version\042: 2,\012  \042files\042: [\012    {\012      \042name\042: \042a.js"
    "\042,\012      \042source\042: \042foo\134nbar\134nbaz\042\012    }\012  ],\012  \042repor"
    "ts\042: [\012    {\012      \042file\042: 0,\012      \042message\042: \042Oops\042,\012  "
    "    \042labels\042: [\012        {\042bytes\042: [4, 7], \042text\042: \042here\042}\012  "
    "    ]\012    }\012  ]\012}\012";
static const char by_bytes_drawing[] =
    "\012  x Oops\012   ,-[a.js:2:1]\012 1 | foo\012 2 | bar\012   : ^|^\012   :  `-- here\012 "
    "3 | baz\012   `----\012";

static const char byte_order_mark_texts[] =
    "u\357\273\277abm";
static const girzohal_file byte_order_mark_files[] = {
    {{0, 1}, {1, 6}}};
static const girzohal_report byte_order_mark_reports[] = {
    {0, 2, {6, 7}, {SIZE_MAX, SIZE_MAX}, {SIZE_MAX, SIZE_MAX}, {SIZE_MAX, SIZE_MAX}, {SIZE_MAX, SIZE_MAX}, {SIZE_MAX, SIZE_MAX}, 0, 1}};
static const girzohal_label byte_order_mark_labels[] = {
    {3, 4, {SIZE_MAX, SIZE_MAX}, 0}};
static const char byte_order_mark_document[] =
    "{\012  \042files\042: [\012    {\012      \042name\042: \042u\042,\012      \042source\042"
    ": \042\134ufeffab\042\012    }\012  ],\012  \042reports\042: [\012    {\012      \042file"
    "\042: 0,\012      \042message\042: \042m\042,\012      \042labels\042: [\012        {\042s"
    "tart\042: [1, 1], \042end\042: [1, 2]}\012      ]\012    }\012  ]\012}\012";
static const char byte_order_mark_drawing[] =
    "\012  x m\012   ,-[u:1:4]\012 1 | \357\273\277ab\012   : ^\012   `----\012";

static const char cart_texts[] =
    "src/cart.jsfunction total(cart) {\012\011let sum = 0;\012\011for (const item of cart) {"
    "\012\011\011sum += item.prize * item.count;\012\011}\012\011return sum;\012}\012not among "
    "its fieldsan item of the cartin this loop`prize` is no field of an item.lintno-unknown-fie"
    "ldDid you mean `price`\077";
static const girzohal_file cart_files[] = {
    {{0, 11}, {11, 128}}};
static const girzohal_report cart_reports[] = {
    {0, 2, {179, 210}, {210, 214}, {214, 230}, {230, 251}, {SIZE_MAX, SIZE_MAX}, {SIZE_MAX, SIZE_MAX}, 0, 3}};
static const girzohal_label cart_labels[] = {
    {79, 84, {128, 148}, 1},
    {74, 78, {148, 167}, 0},
    {38, 101, {167, 179}, 0}};
static const char cart_document[] =
    "{\012  \042files\042: [\012    {\012      \042name\042: \042src/cart.js\042,\012      \042"
    "source\042: \042function total(cart) {\134n\134tlet sum = 0;\134n\134tfor (const item of c"
    "art) {\134n\134t\134tsum += item.prize * item.count;\134n\134t}\134n\134treturn sum;\134n}"
    "\134n\042\012    }\012  ],\012  \042reports\042: [\012    {\012      \042file\042: 0,\012 "
    "     \042severity\042: \042error\042,\012      \042scope\042: \042lint\042,\012      \042n"
    "umber\042: \042no-unknown-field\042,\012      \042message\042: \042`prize` is no field of "
    "an item.\042,\012      \042help\042: \042Did you mean `price`\077\042,\012      \042labels"
    "\042: [\012        {\042start\042: [4, 15], \042end\042: [4, 20], \042text\042: \042not am"
    "ong its fields\042, \042primary\042: true},\012        {\042start\042: [4, 10], \042end"
    "\042: [4, 14], \042text\042: \042an item of the cart\042},\012        {\042start\042: [3, "
    "2], \042end\042: [5, 3], \042text\042: \042in this loop\042}\012      ]\012    }\012  ]"
    "\012}\012";
static const char cart_drawing[] =
    "\012  x lint(no-unknown-field): `prize` is no field of an item.\012   ,-[src/cart.js:4:15]"
    "\012 2 |         let sum = 0;\012 3 | ,->     for (const item of cart) {\012 4 | |        "
    "   sum += item.prize * item.count;\012   : |                  ^^|^ ^^|^^\012   : |        "
    "            |    `-- not among its fields\012   : |                    `-- an item of the "
    "cart\012 5 | |->     }\012   : `---- in this loop\012 6 |         return sum;\012   `----"
    "\012  help: Did you mean `price`\077\012";

static const char first_row_texts[] =
    "query.sqlSELEC name FROM users;\012did you mean SELECT\077Unknown keyword.";
static const girzohal_file first_row_files[] = {
    {{0, 9}, {9, 32}}};
static const girzohal_report first_row_reports[] = {
    {0, 2, {52, 68}, {SIZE_MAX, SIZE_MAX}, {SIZE_MAX, SIZE_MAX}, {SIZE_MAX, SIZE_MAX}, {SIZE_MAX, SIZE_MAX}, {SIZE_MAX, SIZE_MAX}, 0, 1}};
static const girzohal_label first_row_labels[] = {
    {0, 5, {32, 52}, 0}};
static const char first_row_document[] =
    "{\012  \042files\042: [{ \042name\042: \042query.sql\042, \042source\042: \042SELEC name F"
    "ROM users;\134n\042 }],\012  \042reports\042: [\012    {\012      \042file\042: 0,\012    "
    "  \042message\042: \042Unknown keyword.\042,\012      \042labels\042: [{ \042start\042: [1"
    ", 1], \042end\042: [1, 6], \042text\042: \042did you mean SELECT\077\042 }]\012    }\012  "
    "]\012}\012";
static const char first_row_drawing[] =
    "\012  x Unknown keyword.\012   ,-[query.sql:1:1]\012 1 | SELEC name FROM users;\012   : ^^"
    "|^^\012   :   `-- did you mean SELECT\077\012   `----\012";

static const char oops_texts[] =
    "a.jsfoo\012bar\012bazhereOops";
static const girzohal_file oops_files[] = {
    {{0, 4}, {4, 15}}};
static const girzohal_report oops_reports[] = {
    {0, 2, {19, 23}, {SIZE_MAX, SIZE_MAX}, {SIZE_MAX, SIZE_MAX}, {SIZE_MAX, SIZE_MAX}, {SIZE_MAX, SIZE_MAX}, {SIZE_MAX, SIZE_MAX}, 0, 1}};
static const girzohal_label oops_labels[] = {
    {4, 7, {15, 19}, 0}};
static const char oops_document[] =
    "{\042files\042:[{\042name\042:\042a.js\042,\042source\042:\042foo\134nbar\134nbaz\042}],"
    "\042reports\042:[{\042file\042:0,\042message\042:\042Oops\042,\042labels\042:[{\042start"
    "\042:[2,1],\042end\042:[2,4],\042text\042:\042here\042}]}]}";
static const char oops_drawing[] =
    "\012  x Oops\012   ,-[a.js:2:1]\012 1 | foo\012 2 | bar\012   : ^|^\012   :  `-- here\012 "
    "3 | baz\012   `----\012";

static const char tab_past_ascii_texts[] =
    "t\303\251\011xyzm";
static const girzohal_file tab_past_ascii_files[] = {
    {{0, 1}, {1, 7}}};
static const girzohal_report tab_past_ascii_reports[] = {
    {0, 2, {7, 8}, {SIZE_MAX, SIZE_MAX}, {SIZE_MAX, SIZE_MAX}, {SIZE_MAX, SIZE_MAX}, {SIZE_MAX, SIZE_MAX}, {SIZE_MAX, SIZE_MAX}, 0, 1}};
static const girzohal_label tab_past_ascii_labels[] = {
    {5, 6, {SIZE_MAX, SIZE_MAX}, 0}};
static const char tab_past_ascii_document[] =
    "{\012  \042files\042: [\012    {\012      \042name\042: \042t\042,\012      \042source\042"
    ": \042\134u00e9\134txyz\042\012    }\012  ],\012  \042reports\042: [\012    {\012      "
    "\042file\042: 0,\012      \042message\042: \042m\042,\012      \042labels\042: [\012      "
    "  {\042start\042: [1, 5], \042end\042: [1, 6]}\012      ]\012    }\012  ]\012}\012";
static const char tab_past_ascii_drawing[] =
    "\012  x m\012   ,-[t:1:6]\012 1 | \303\251   xyz\012   :       ^\012   `----\012";

static const char two_reports_texts[] =
    "src/app.jsimport { a } from \042x\042;\012\012function f(b) {\012\011return a + c;\012}"
    "\012b.jsa {\012  b\012}\012not foundin this function'c' is not defined.eslintno-undefDecla"
    "re it or import it.blockUnused block.";
static const girzohal_file two_reports_files[] = {
    {{0, 10}, {10, 67}},
    {{67, 71}, {71, 81}}};
static const girzohal_report two_reports_reports[] = {
    {0, 1, {106, 125}, {125, 131}, {131, 139}, {139, 163}, {SIZE_MAX, SIZE_MAX}, {SIZE_MAX, SIZE_MAX}, 0, 2},
    {1, 2, {168, 181}, {SIZE_MAX, SIZE_MAX}, {SIZE_MAX, SIZE_MAX}, {SIZE_MAX, SIZE_MAX}, {SIZE_MAX, SIZE_MAX}, {SIZE_MAX, SIZE_MAX}, 2, 1}};
static const girzohal_label two_reports_labels[] = {
    {52, 53, {81, 90}, 0},
    {33, 34, {90, 106}, 0},
    {2, 9, {163, 168}, 0}};
static const char two_reports_document[] =
    "{\012  \042files\042: [\012    {\012      \042name\042: \042src/app.js\042,\012      \042s"
    "ource\042: \042import { a } from \134\042x\134\042;\134n\134nfunction f(b) {\134n\134tretu"
    "rn a + c;\134n}\134n\042\012    },\012    {\012      \042name\042: \042b.js\042,\012      "
    "\042source\042: \042a {\134n  b\134n}\134n\042\012    }\012  ],\012  \042reports\042: ["
    "\012    {\012      \042file\042: 0,\012      \042message\042: \042'c' is not defined.\042,"
    "\012      \042severity\042: \042warning\042,\012      \042scope\042: \042eslint\042,\012  "
    "    \042number\042: \042no-undef\042,\012      \042help\042: \042Declare it or import it."
    "\042,\012      \042labels\042: [\012        {\012          \042start\042: [\012           "
    " 4,\012            13\012          ],\012          \042end\042: [\012            4,\012   "
    "         14\012          ],\012          \042text\042: \042not found\042\012        },\012"
    "        {\012          \042start\042: [\012            3,\012            10\012          ]"
    ",\012          \042end\042: [\012            3,\012            11\012          ],\012     "
    "     \042text\042: \042in this function\042\012        }\012      ]\012    },\012    {\012"
    "      \042file\042: 1,\012      \042message\042: \042Unused block.\042,\012      \042label"
    "s\042: [\012        {\012          \042start\042: [\012            1,\012            3\012"
    "          ],\012          \042end\042: [\012            3,\012            2\012          ]"
    ",\012          \042text\042: \042block\042\012        }\012      ]\012    }\012  ]\012}"
    "\012";
static const char two_reports_drawing[] =
    "\012  ! eslint(no-undef): 'c' is not defined.\012   ,-[src/app.js:3:10]\012 2 | \012 3 | f"
    "unction f(b) {\012   :          |\012   :          `-- in this function\012 4 |     return"
    " a + c;\012   :                |\012   :                `-- not found\012 5 | }\012   `---"
    "-\012  help: Declare it or import it.\012\012  x Unused block.\012   ,-[b.js:1:3]\012 1 | "
    ",-> a {\012 2 | |     b\012 3 | |-> }\012   : `---- block\012   `----\012";

static const char unused_variable_texts[] =
    "src/total.jsexport function total(items) {\012  let count = items.length;\012  let sum = 0"
    ";\012  for (const item of items) sum += item.price;\012  return sum;\012}\012'count' is de"
    "clared hereVariable 'count' is declared but never used.";
static const girzohal_file unused_variable_files[] = {
    {{0, 12}, {12, 149}}};
static const girzohal_report unused_variable_reports[] = {
    {0, 2, {173, 217}, {SIZE_MAX, SIZE_MAX}, {SIZE_MAX, SIZE_MAX}, {SIZE_MAX, SIZE_MAX}, {SIZE_MAX, SIZE_MAX}, {SIZE_MAX, SIZE_MAX}, 0, 1}};
static const girzohal_label unused_variable_labels[] = {
    {37, 42, {149, 173}, 0}};
static const char unused_variable_document[] =
    "{\012  \042files\042: [\012    {\012      \042name\042: \042src/total.js\042,\012      "
    "\042source\042: \042export function total(items) {\134n  let count = items.length;\134n  l"
    "et sum = 0;\134n  for (const item of items) sum += item.price;\134n  return sum;\134n}\134"
    "n\042\012    }\012  ],\012  \042reports\042: [\012    {\012      \042file\042: 0,\012     "
    " \042message\042: \042Variable 'count' is declared but never used.\042,\012      \042label"
    "s\042: [{ \042start\042: [2, 7], \042end\042: [2, 12], \042text\042: \042'count' is declar"
    "ed here\042 }]\012    }\012  ]\012}\012";
static const char unused_variable_drawing[] =
    "\012  x Variable 'count' is declared but never used.\012   ,-[src/total.js:2:7]\012 1 | ex"
    "port function total(items) {\012 2 |   let count = items.length;\012   :       ^^|^^\012  "
    " :         `-- 'count' is declared here\012 3 |   let sum = 0;\012   `----\012";

static const char wide_characters_texts[] =
    "w\346\227\245\346\234\254 xwm";
static const girzohal_file wide_characters_files[] = {
    {{0, 1}, {1, 9}}};
static const girzohal_report wide_characters_reports[] = {
    {0, 2, {10, 11}, {SIZE_MAX, SIZE_MAX}, {SIZE_MAX, SIZE_MAX}, {SIZE_MAX, SIZE_MAX}, {SIZE_MAX, SIZE_MAX}, {SIZE_MAX, SIZE_MAX}, 0, 1}};
static const girzohal_label wide_characters_labels[] = {
    {3, 6, {9, 10}, 0}};
static const char wide_characters_document[] =
    "{\012  \042files\042: [\012    {\012      \042name\042: \042w\042,\012      \042source\042"
    ": \042\134u65e5\134u672c x\042\012    }\012  ],\012  \042reports\042: [\012    {\012      "
    "\042file\042: 0,\012      \042message\042: \042m\042,\012      \042labels\042: [\012      "
    "  {\042start\042: [1, 2], \042end\042: [1, 3], \042text\042: \042w\042}\012      ]\012    "
    "}\012  ]\012}\012";
static const char wide_characters_drawing[] =
    "\012  x m\012   ,-[w:1:4]\012 1 | \346\227\245\346\234\254 x\012   :   ^|\012   :    `-- w"
    "\012   `----\012";

static const char wide_numbers_texts[] =
    "Makefileall: a b c\012\012a:\012\012a2:\012\012b:\012\012b2: c d\012\012c:\012needed hereN"
    "o rule to make target 'd'.";
static const girzohal_file wide_numbers_files[] = {
    {{0, 8}, {8, 45}}};
static const girzohal_report wide_numbers_reports[] = {
    {0, 2, {56, 83}, {SIZE_MAX, SIZE_MAX}, {SIZE_MAX, SIZE_MAX}, {SIZE_MAX, SIZE_MAX}, {SIZE_MAX, SIZE_MAX}, {SIZE_MAX, SIZE_MAX}, 0, 1}};
static const girzohal_label wide_numbers_labels[] = {
    {31, 32, {45, 56}, 0}};
static const char wide_numbers_document[] =
    "{\012  \042files\042: [\012    {\012      \042name\042: \042Makefile\042,\012      \042sou"
    "rce\042: \042all: a b c\134n\134na:\134n\134na2:\134n\134nb:\134n\134nb2: c d\134n\134nc:"
    "\134n\042\012    }\012  ],\012  \042reports\042: [\012    {\012      \042file\042: 0,\012 "
    "     \042message\042: \042No rule to make target 'd'.\042,\012      \042labels\042: [{ "
    "\042start\042: [9, 7], \042end\042: [9, 8], \042text\042: \042needed here\042 }]\012    }"
    "\012  ]\012}\012";
static const char wide_numbers_drawing[] =
    "\012  x No rule to make target 'd'.\012    ,-[Makefile:9:7]\012  8 | \012  9 | b2: c d\012"
    "    :       |\012    :       `-- needed here\012 10 | \012    `----\012";

typedef struct {
    const char *name, *texts;
    size_t texts_len;
    const girzohal_file *files;
    size_t files_len;
    const girzohal_report *reports;
    size_t reports_len;
    const girzohal_label *labels;
    size_t labels_len;
    const char *document;
    size_t document_len;
    const char *drawing;
    size_t drawing_len;
} example;

#define COUNT(array) (sizeof(array) / sizeof((array)[0]))
static const example examples[] = {
    {"by-bytes", by_bytes_texts, sizeof by_bytes_texts - 1, by_bytes_files, COUNT(by_bytes_files), by_bytes_reports, COUNT(by_bytes_reports), by_bytes_labels, COUNT(by_bytes_labels),
     by_bytes_document, sizeof by_bytes_document - 1, by_bytes_drawing, sizeof by_bytes_drawing - 1},
    {"byte-order-mark", byte_order_mark_texts, sizeof byte_order_mark_texts - 1, byte_order_mark_files, COUNT(byte_order_mark_files), byte_order_mark_reports, COUNT(byte_order_mark_reports), byte_order_mark_labels, COUNT(byte_order_mark_labels),
     byte_order_mark_document, sizeof byte_order_mark_document - 1, byte_order_mark_drawing, sizeof byte_order_mark_drawing - 1},
    {"cart", cart_texts, sizeof cart_texts - 1, cart_files, COUNT(cart_files), cart_reports, COUNT(cart_reports), cart_labels, COUNT(cart_labels),
     cart_document, sizeof cart_document - 1, cart_drawing, sizeof cart_drawing - 1},
    {"first-row", first_row_texts, sizeof first_row_texts - 1, first_row_files, COUNT(first_row_files), first_row_reports, COUNT(first_row_reports), first_row_labels, COUNT(first_row_labels),
     first_row_document, sizeof first_row_document - 1, first_row_drawing, sizeof first_row_drawing - 1},
    {"oops", oops_texts, sizeof oops_texts - 1, oops_files, COUNT(oops_files), oops_reports, COUNT(oops_reports), oops_labels, COUNT(oops_labels),
     oops_document, sizeof oops_document - 1, oops_drawing, sizeof oops_drawing - 1},
    {"tab-past-ascii", tab_past_ascii_texts, sizeof tab_past_ascii_texts - 1, tab_past_ascii_files, COUNT(tab_past_ascii_files), tab_past_ascii_reports, COUNT(tab_past_ascii_reports), tab_past_ascii_labels, COUNT(tab_past_ascii_labels),
     tab_past_ascii_document, sizeof tab_past_ascii_document - 1, tab_past_ascii_drawing, sizeof tab_past_ascii_drawing - 1},
    {"two-reports", two_reports_texts, sizeof two_reports_texts - 1, two_reports_files, COUNT(two_reports_files), two_reports_reports, COUNT(two_reports_reports), two_reports_labels, COUNT(two_reports_labels),
     two_reports_document, sizeof two_reports_document - 1, two_reports_drawing, sizeof two_reports_drawing - 1},
    {"unused-variable", unused_variable_texts, sizeof unused_variable_texts - 1, unused_variable_files, COUNT(unused_variable_files), unused_variable_reports, COUNT(unused_variable_reports), unused_variable_labels, COUNT(unused_variable_labels),
     unused_variable_document, sizeof unused_variable_document - 1, unused_variable_drawing, sizeof unused_variable_drawing - 1},
    {"wide-characters", wide_characters_texts, sizeof wide_characters_texts - 1, wide_characters_files, COUNT(wide_characters_files), wide_characters_reports, COUNT(wide_characters_reports), wide_characters_labels, COUNT(wide_characters_labels),
     wide_characters_document, sizeof wide_characters_document - 1, wide_characters_drawing, sizeof wide_characters_drawing - 1},
    {"wide-numbers", wide_numbers_texts, sizeof wide_numbers_texts - 1, wide_numbers_files, COUNT(wide_numbers_files), wide_numbers_reports, COUNT(wide_numbers_reports), wide_numbers_labels, COUNT(wide_numbers_labels),
     wide_numbers_document, sizeof wide_numbers_document - 1, wide_numbers_drawing, sizeof wide_numbers_drawing - 1},
};
#endif
