/* Sheets as the plain desk reads, judges and writes them, and the calls that do nothing else. */
#include "sheet.h"

#include "plain.h"

enum { HIGHEST_WRITTEN_PRIORITY = 255 };

/* Takes the next bits of the bytes, most significant first, and moves the position past them. */
uint64_t take_bits(const uint8_t *bytes, size_t *position, unsigned width)
{
    uint64_t value = 0;
    for (unsigned taken = 0; taken < width; taken++) {
        unsigned bit = (bytes[*position / 8] >> (7 - *position % 8)) & 1;
        value = value * 2 + bit;
        *position += 1;
    }
    return value;
}

/* Puts a value of so many bits at the position, most significant first, and moves the position past it. */
void put_bits(uint8_t *bytes, size_t *position, unsigned width, uint64_t value)
{
    for (unsigned left = width; left > 0; left--) {
        unsigned mask = 1u << (7 - *position % 8);
        unsigned byte = bytes[*position / 8] & ~mask;
        if ((value >> (left - 1)) & 1) {
            byte |= mask;
        }
        bytes[*position / 8] = (uint8_t)byte;
        *position += 1;
    }
}

/* The refusal of one record by rules 6 to 10, in that order, or 0. */
static uint8_t judge_record(const struct table *table, size_t place)
{
    const struct record *own = &table->records[place];
    if (own->cost == 0 || own->cost > own->deadline) {
        return FQ_BAD_COST;
    }
    if (own->backup == 0 || own->backup > own->deadline) {
        return FQ_BAD_BACKUP;
    }
    if (own->deadline > own->period) {
        return FQ_BAD_DEADLINE;
    }
    if (own->priority < 1 || own->priority > table->count) {
        return FQ_BAD_PRIORITY;
    }
    for (size_t earlier = 0; earlier < place; earlier++) {
        if (table->records[earlier].priority == own->priority) {
            return FQ_BAD_PRIORITY;
        }
    }
    if (own->fault_priority < 1 || own->fault_priority > own->priority) {
        return FQ_BAD_FAULT_PRIORITY;
    }
    return 0;
}

/* Whether a table has the whole processor. */
bool is_whole(const struct table *table)
{
    return table->round == 1 && table->share == 1;
}

/* How many bytes the header of a table's sheet has. */
size_t header_bytes(const struct table *table)
{
    return is_whole(table) ? HEADER_BYTES : SHARED_HEADER_BYTES;
}

/* Whether a share is zero or not below its round. */
static bool is_bad_share(const struct table *table)
{
    return table->share == 0 || table->share >= table->round;
}

/* The refusal of a table by rules 2, 5, 18 and 6 to 10, or 0. */
uint8_t judge_table(const struct table *table)
{
    if (table->count == 0 || table->count > FQ_MOST_TASKS) {
        return FQ_BAD_COUNT;
    }
    if (table->interval == 0) {
        return FQ_NO_INTERVAL;
    }
    if (!is_whole(table) && is_bad_share(table)) {
        return FQ_BAD_SHARE;
    }
    for (size_t place = 0; place < table->count; place++) {
        uint8_t refusal = judge_record(table, place);
        if (refusal != 0) {
            return refusal;
        }
    }
    return 0;
}

/* Takes the records of a sheet whose length is right. */
static void take_records(const uint8_t *sheet, size_t *position, struct table *table)
{
    for (size_t place = 0; place < table->count; place++) {
        struct record *own = &table->records[place];
        own->cost = take_bits(sheet, position, 16);
        own->backup = take_bits(sheet, position, 16);
        own->deadline = take_bits(sheet, position, 16);
        own->period = take_bits(sheet, position, 16);
        own->priority = take_bits(sheet, position, 4);
        own->fault_priority = take_bits(sheet, position, 4);
    }
}

/* Takes the rest of a sheet of the old edition, which has the whole processor. */
static uint8_t read_whole(const uint8_t *sheet, size_t len, size_t position, struct table *table)
{
    if (len != HEADER_BYTES + RECORD_BYTES * table->count) {
        return FQ_BAD_LENGTH;
    }
    table->round = 1;
    table->share = 1;
    take_records(sheet, &position, table);
    return judge_table(table);
}

/* Takes the rest of a sheet of the new edition, in which no share may be the whole. */
static uint8_t read_shared(const uint8_t *sheet, size_t len, size_t position, struct table *table)
{
    if (len < SHARED_HEADER_BYTES) {
        return FQ_SHORT_SHEET;
    }
    if (len != SHARED_HEADER_BYTES + RECORD_BYTES * table->count) {
        return FQ_BAD_LENGTH;
    }
    table->round = take_bits(sheet, &position, 16);
    table->share = take_bits(sheet, &position, 16);
    if (table->interval != 0 && is_bad_share(table)) {
        return FQ_BAD_SHARE;
    }
    take_records(sheet, &position, table);
    return judge_table(table);
}

/* Reads a sheet into a table: its refusal by rules 1 to 10 and 18, or 0. */
uint8_t read_sheet(const uint8_t *sheet, size_t len, struct table *table)
{
    if (len < HEADER_BYTES) {
        return FQ_SHORT_SHEET;
    }
    size_t position = 0;
    table->count = take_bits(sheet, &position, 4);
    uint64_t reserved = take_bits(sheet, &position, 4);
    table->interval = take_bits(sheet, &position, 16);
    if (table->count == 0 || table->count > FQ_MOST_TASKS) {
        return FQ_BAD_COUNT;
    }
    if (reserved > 1) {
        return FQ_RESERVED_BITS;
    }
    return reserved == 0 ? read_whole(sheet, len, position, table) : read_shared(sheet, len, position, table);
}

/* Reads a sheet into a table: 0, or minus the refusal. */
int64_t refused(const uint8_t *sheet, size_t len, struct table *table)
{
    return -(int64_t)read_sheet(sheet, len, table);
}

/* The same for a sheet of the whole processor: 19 after the sheet's own. */
int64_t refused_shared(const uint8_t *sheet, size_t len, struct table *table)
{
    int64_t refusal = refused(sheet, len, table);
    return refusal == 0 && !is_whole(table) ? -FQ_SHARED_PROCESSOR : refusal;
}

/* The same as the first for the record at a place of the sheet. */
int64_t refused_at(const uint8_t *sheet, size_t len, size_t place, struct table *table)
{
    int64_t refusal = refused(sheet, len, table);
    if (refusal == 0 && place >= table->count) {
        return -FQ_BAD_PLACE;
    }
    return refusal;
}

/* Writes a good table where there is room for it; the answer is that of plain_write and plain_rewrite. */
int64_t write_table(const struct table *table, uint8_t *out, size_t out_len)
{
    size_t needed = header_bytes(table) + RECORD_BYTES * table->count;
    if (out_len < needed) {
        return -FQ_SHORT_OUTPUT;
    }
    size_t position = 0;
    put_bits(out, &position, 4, table->count);
    put_bits(out, &position, 4, is_whole(table) ? 0 : 1);
    put_bits(out, &position, 16, table->interval);
    if (!is_whole(table)) {
        put_bits(out, &position, 16, table->round);
        put_bits(out, &position, 16, table->share);
    }
    for (size_t place = 0; place < table->count; place++) {
        const struct record *own = &table->records[place];
        put_bits(out, &position, 16, own->cost);
        put_bits(out, &position, 16, own->backup);
        put_bits(out, &position, 16, own->deadline);
        put_bits(out, &position, 16, own->period);
        put_bits(out, &position, 4, own->priority);
        put_bits(out, &position, 4, own->fault_priority);
    }
    return (int64_t)needed;
}

/* The refusal of a sheet, or 0. */
uint8_t plain_judge(const uint8_t *sheet, size_t len)
{
    struct table table;
    return read_sheet(sheet, len, &table);
}

/* The number at an index, or 0 where it is not there. */
static uint64_t number_at(const uint16_t *fields, size_t fields_len, size_t index)
{
    return index < fields_len ? fields[index] : 0;
}

/* The priority at an index, where anything above 255 counts as 255. */
static uint64_t priority_at(const uint16_t *fields, size_t fields_len, size_t index)
{
    uint64_t number = number_at(fields, fields_len, index);
    return number > HIGHEST_WRITTEN_PRIORITY ? HIGHEST_WRITTEN_PRIORITY : number;
}

/* Judges the table of a header and numbers, and writes it. */
int64_t plain_write_shared(uint8_t count, uint16_t interval, uint16_t round, uint16_t share, const uint16_t *fields,
                           size_t fields_len, uint8_t *out, size_t out_len)
{
    struct table table = {.count = count, .interval = interval, .round = round, .share = share};
    for (size_t place = 0; place < count && place < FQ_MOST_TASKS; place++) {
        struct record *own = &table.records[place];
        size_t start = FQ_RECORD_NUMBERS * place;
        own->cost = number_at(fields, fields_len, start);
        own->backup = number_at(fields, fields_len, start + 1);
        own->deadline = number_at(fields, fields_len, start + 2);
        own->period = number_at(fields, fields_len, start + 3);
        own->priority = priority_at(fields, fields_len, start + 4);
        own->fault_priority = priority_at(fields, fields_len, start + 5);
    }
    uint8_t refusal = judge_table(&table);
    if (refusal != 0) {
        return -(int64_t)refusal;
    }
    return write_table(&table, out, out_len);
}

/* The same for the whole processor. */
int64_t plain_write(uint8_t count, uint16_t interval, const uint16_t *fields, size_t fields_len,
                    uint8_t *out, size_t out_len)
{
    return plain_write_shared(count, interval, 1, 1, fields, fields_len, out, out_len);
}

/* Reads a sheet and writes what was read. */
int64_t plain_rewrite(const uint8_t *sheet, size_t len, uint8_t *out, size_t out_len)
{
    struct table table;
    int64_t refusal = refused(sheet, len, &table);
    return refusal != 0 ? refusal : write_table(&table, out, out_len);
}

/* Where the record at a place starts. */
int64_t plain_record(const uint8_t *sheet, size_t len, size_t place)
{
    struct table table;
    int64_t refusal = refused_at(sheet, len, place, &table);
    return refusal != 0 ? refusal : (int64_t)(header_bytes(&table) + RECORD_BYTES * place);
}
