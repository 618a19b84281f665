#include "told.h"

#include "undivarro.h"

static unsigned number_at(const uint8_t **at, unsigned base)
{
    unsigned number = 0;
    for (; **at != ' ' && **at != '\n'; ++*at)
        number = base * number + **at - (**at <= '9' ? '0' : 'A' - 10u);
    return number;
}

size_t read_told(const uint8_t *text, struct told *line)
{
    const uint8_t *at = text;
    line->record = number_at(&at, 10);
    at++;
    line->fault = number_at(&at, 10);
    line->code = 0;
    if (*at == ' ') {
        at++;
        line->code = (uint8_t)number_at(&at, 16);
    }
    return (size_t)(at + 1 - text);
}

struct raw_record raw_record(const uint8_t *image, size_t image_len, size_t k)
{
    size_t count = image[image_len - 2], records_len = image_len - 2 - 2 * count;
    const uint8_t *start = image + records_len + 2 * k;
    size_t from = (size_t)start[0] << 8 | start[1];
    size_t to = k + 1 < count ? (size_t)start[2] << 8 | start[3] : records_len;
    return (struct raw_record){image + from, to - from};
}

size_t raw_head_len(uint8_t form)
{
    return form == 1 ? 2 : 3;
}

enum drop why_dropped(struct raw_record record, uint8_t form)
{
    if (record.len < raw_head_len(form))
        return DROP_SHORT;
    if (record.bytes[0] == 0)
        return DROP_ID_0;
    if (record.bytes[1] == 0)
        return DROP_GROUP_0;
    return form == 2 && record.bytes[2] > UNDIVARRO_PHOENIX ? DROP_PROFILE : DROP_ID_SEEN;
}
