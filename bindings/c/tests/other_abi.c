/* A library of another ABI: every call is refused. The packages are tried with it instead of the right one. */
#include "girzohal.h"

static uint32_t refuse(girzohal_answer *answer) {
    memset(answer, 0, sizeof *answer);
    answer->array = GIRZOHAL_WRONG_ABI;
    return GIRZOHAL_WRONG_ARGUMENT;
}

uint32_t girzohal_draw(uint32_t abi, const uint8_t *texts, size_t texts_len, const girzohal_file *files, size_t files_len,
                       const girzohal_report *reports, size_t reports_len, const girzohal_label *labels, size_t labels_len,
                       const girzohal_look *look, uint8_t *out, size_t out_len, girzohal_answer *answer) {
    (void)abi, (void)texts, (void)texts_len, (void)files, (void)files_len, (void)reports, (void)reports_len, (void)labels;
    (void)labels_len, (void)look, (void)out, (void)out_len;
    return refuse(answer);
}

uint32_t girzohal_document(uint32_t abi, const uint8_t *document, size_t document_len, const girzohal_look *look, uint8_t *out,
                           size_t out_len, girzohal_answer *answer) {
    (void)abi, (void)document, (void)document_len, (void)look, (void)out, (void)out_len;
    return refuse(answer);
}

uint32_t girzohal_version(void) { return 0x00ff00; }
