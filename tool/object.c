#include "object.h"

struct json open_object(const struct request *request) {
    struct json object = json_open(request->answer);
    json_text(&object, compares(request) ? "left" : "file", request->operands[0]);
    if (compares(request))
        json_text(&object, "right", request->operands[1]);
    if (has_patch(request))
        json_text(&object, "patch", request->patch.path);
    if (request->reading->profile != NULL)
        json_text(&object, "profile", request->reading->profile);
    return object;
}

void put_number(struct json *object, uint64_t number) {
    json_number(object, "number", number);
    json_text(object, "name", offload_name(number));
}

void put_bundle(struct json *object, const struct request *request, const struct input *file) {
    if (compares(request))
        json_text(object, "side", file == &request->files[0] ? "left" : "right");
    else
        json_number(object, "bundle", file == &request->patch ? OFFLOAD_PATCH : OFFLOAD_MAIN);
    json_text(object, "path", file->path);
}
