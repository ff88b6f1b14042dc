#include "commands.h"

#include "message.h"
#include "object.h"
#include "text.h"

/* The report is the library's, in lines that include/offload.h describes. */

static uint64_t number_in(struct bytes digits) {
    uint64_t number = 0;
    size_t i;
    for (i = 0; i < digits.length; i++)
        number = 10 * number + (uint64_t)(digits.start[i] - '0');
    return number;
}

static void print_report(const struct request *request, struct bytes report) {
    fwrite(report.start, 1, report.length, request->answer);
}

/* A line about a difference: L id, R id, or D id n. */
static void put_difference(struct json *list, struct bytes line) {
    struct bytes letter = cut(&line, ' '), id = cut(&line, ' ');
    struct json item = json_open_item(list);
    json_text(&item, "side", *letter.start == 'L' ? "left" : *letter.start == 'R' ? "right" : "both");
    json_bytes(&item, "id", id);
    if (line.length > 0)
        json_number(&item, "byte", number_in(line));
    json_close(&item);
}

static void put_report(const struct request *request, struct bytes report) {
    struct json object = open_object(request), list;
    put_number(&object, OFFLOAD_OK);
    list = json_open_list(&object, "differences");
    while (report.length > 0 && !take(&report, "differences "))
        put_difference(&list, cut(&report, '\n'));
    json_close(&list);
    json_number(&object, "count", number_in(cut(&report, '\n')));
    json_close(&object);
}

/* A report names no place: the check does, of whatever it refuses. */
static enum status refuse_side(const struct request *request, const struct input *file, struct bytes number) {
    return refuse(request, file, NULL, number_in(number), offload_check_place(file->bytes.start, file->bytes.length));
}

static enum status tell(const struct request *request, struct bytes report) {
    struct bytes rest = report;
    if (take(&rest, "refused left "))
        return refuse_side(request, &request->files[0], cut(&rest, '\n'));
    if (take(&rest, "refused right "))
        return refuse_side(request, &request->files[1], cut(&rest, '\n'));
    (request->json ? put_report : print_report)(request, report);
    return take(&rest, "differences 0\n") ? ACCEPTED : DIFFERENT;
}

enum status compare(const struct request *request) {
    static uint8_t room[OFFLOAD_REPORT_LIMIT];
    struct bytes left = request->files[0].bytes, right = request->files[1].bytes, report = {room, 0};
    report.length = (size_t)offload_compare_length(left.start, left.length, right.start, right.length, room, sizeof room);
    return tell(request, report);
}
