/* The calls of girzohal.h for Node: arrays come as buffers of the structs' bytes, and the text goes back as a string.
 * index.js makes the buffers. */
#include <node_api.h>

#include "girzohal.h"

#include <stdlib.h>

/* The bytes of a buffer. Node gives NULL for an empty one. */
static int bytes_of(napi_env env, napi_value value, const void **data, size_t *len) {
    static const uint64_t nothing[16];
    void *found;
    if (napi_get_buffer_info(env, value, &found, len) != napi_ok) return 0;
    *data = *len ? found : nothing;
    return 1;
}

/* Whether bytes are whole structs of a size, at an address that they may have. */
static int are_structs(const void *data, size_t len, size_t size) {
    return len % size == 0 && (uintptr_t)data % sizeof(uint64_t) == 0;
}

/* Of a document, `texts` are its bytes, and there are no arrays. */
typedef struct {
    int is_document;
    const void *texts, *files, *reports, *labels, *look;
    size_t texts_len, files_len, reports_len, labels_len, look_len;
} arguments;

static uint32_t call(const arguments *it, uint8_t *out, size_t out_len, girzohal_answer *answer) {
    if (it->is_document) return girzohal_document(GIRZOHAL_ABI, it->texts, it->texts_len, it->look, out, out_len, answer);
    return girzohal_draw(GIRZOHAL_ABI, it->texts, it->texts_len, it->files, it->files_len / sizeof(girzohal_file), it->reports,
                         it->reports_len / sizeof(girzohal_report), it->labels, it->labels_len / sizeof(girzohal_label),
                         it->look, out, out_len, answer);
}

/* [status, array, index, cause, report, label, first, second] */
static napi_value numbers_of(napi_env env, uint32_t status, const girzohal_answer *a) {
    const double numbers[] = {status,           (double)a->array, (double)a->index, a->cause,
                              (double)a->report, (double)a->label, (double)a->first, (double)a->second};
    napi_value list, number;
    if (napi_create_array_with_length(env, 8, &list) != napi_ok) return NULL;
    for (uint32_t at = 0; at < 8; at++) {
        if (napi_create_double(env, numbers[at], &number) != napi_ok) return NULL;
        if (napi_set_element(env, list, at, number) != napi_ok) return NULL;
    }
    return list;
}

/* The text, or the numbers of the error. */
static napi_value fill(napi_env env, const arguments *it) {
    girzohal_answer answer = {0};
    size_t room = 2 * it->texts_len + it->reports_len * 3 + 4096;
    uint8_t *out = malloc(room);
    uint32_t status = out ? call(it, out, room, &answer) : GIRZOHAL_OUT_OF_MEMORY;
    napi_value result = NULL;
    if (status == GIRZOHAL_BUFFER_TOO_SMALL) {
        room = answer.needed;
        free(out);
        out = malloc(room);
        status = out ? call(it, out, room, &answer) : GIRZOHAL_OUT_OF_MEMORY;
    }
    if (status != GIRZOHAL_DONE) {
        result = numbers_of(env, status, &answer);
    } else if (napi_create_string_utf8(env, (const char *)out, answer.needed, &result) != napi_ok) {
        napi_throw_range_error(env, NULL, "the text is longer than a string of JavaScript");
        result = NULL;
    }
    free(out);
    return result;
}

/* draw(texts, files, reports, labels, look) */
static napi_value draw(napi_env env, napi_callback_info info) {
    napi_value args[5];
    size_t count = 5;
    arguments it = {0};
    if (napi_get_cb_info(env, info, &count, args, NULL, NULL) != napi_ok || count != 5
        || !bytes_of(env, args[0], &it.texts, &it.texts_len) || !bytes_of(env, args[1], &it.files, &it.files_len)
        || !bytes_of(env, args[2], &it.reports, &it.reports_len) || !bytes_of(env, args[3], &it.labels, &it.labels_len)
        || !bytes_of(env, args[4], &it.look, &it.look_len) || !are_structs(it.files, it.files_len, sizeof(girzohal_file))
        || !are_structs(it.reports, it.reports_len, sizeof(girzohal_report))
        || !are_structs(it.labels, it.labels_len, sizeof(girzohal_label)) || it.look_len != sizeof(girzohal_look)
        || !are_structs(it.look, it.look_len, sizeof(girzohal_look))) {
        napi_throw_type_error(env, NULL, "draw(texts, files, reports, labels, look) takes five buffers of whole structs");
        return NULL;
    }
    return fill(env, &it);
}

/* document(document, look) */
static napi_value document(napi_env env, napi_callback_info info) {
    napi_value args[2];
    size_t count = 2;
    arguments it = {.is_document = 1};
    if (napi_get_cb_info(env, info, &count, args, NULL, NULL) != napi_ok || count != 2
        || !bytes_of(env, args[0], &it.texts, &it.texts_len) || !bytes_of(env, args[1], &it.look, &it.look_len)
        || it.look_len != sizeof(girzohal_look) || !are_structs(it.look, it.look_len, sizeof(girzohal_look))) {
        napi_throw_type_error(env, NULL, "document(document, look) takes two buffers, the second of one struct");
        return NULL;
    }
    return fill(env, &it);
}

static napi_value version(napi_env env, napi_callback_info info) {
    napi_value number;
    (void)info;
    return napi_create_uint32(env, girzohal_version(), &number) == napi_ok ? number : NULL;
}

NAPI_MODULE_INIT() {
    const napi_property_descriptor calls[] = {
        {"draw", NULL, draw, NULL, NULL, NULL, napi_enumerable, NULL},
        {"document", NULL, document, NULL, NULL, NULL, napi_enumerable, NULL},
        {"version", NULL, version, NULL, NULL, NULL, napi_enumerable, NULL},
    };
    return napi_define_properties(env, exports, sizeof calls / sizeof calls[0], calls) == napi_ok ? exports : NULL;
}
