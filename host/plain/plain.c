#include "plain.h"

#include <string.h>

enum { ADDRESSES = 1 << 24, MOST_WORK = 65535, MOST_ERASES = 65535 };
enum { WRONG_LENGTH = 1, WRONG_ADDRESS = 3, WRONG_COUNT = 4 }; /* the numbers of the refusal card */
enum { READ, WRITE, WORK, SUPPLY, RESET };                     /* the kind of a step: its number's upper 16 bits */
/* The configuration register: bits 14, 5 and 4 are reserved, and its default has all others set (document 02, item 4). */
enum { RESERVED_BITS = 1 << 14 | 1 << 5 | 1 << 4, DEFAULT_CONFIGURATION = 0xBFCF };
enum { SR7 = 0x80, SR6 = 0x40, SR5 = 0x20, SR4 = 0x10, SR3 = 0x08, SR2 = 0x04, SR1 = 0x02, SR0 = 0x01 };

/* Geometry */

static uint32_t array_words(const struct plain *device) { return (uint32_t)256 << device->unit_shift; }

static uint32_t bank_words(const struct plain *device) { return (uint32_t)16 << device->unit_shift; }

static uint32_t location_of(const struct plain *device, uint32_t address) { return address & (array_words(device) - 1); }

/* The location counted from the end at which the four small blocks lie. */
static uint32_t from_small_end(const struct plain *device, uint32_t location) {
    return device->top ? array_words(device) - 1 - location : location;
}

static uint32_t block_of(const struct plain *device, uint32_t location) {
    uint32_t place = from_small_end(device, location);
    uint32_t main_block = place >> device->unit_shift;
    return main_block == 0 ? place >> (device->unit_shift - 2) : main_block + 3;
}

static uint32_t bank_of(const struct plain *device, uint32_t location) { return from_small_end(device, location) >> (device->unit_shift + 4); }

static uint32_t block_words(const struct plain *device, uint32_t block) { return (uint32_t)1 << (device->unit_shift - (block < 4 ? 2 : 0)); }

/* The lowest location of a block. */
static uint32_t block_start(const struct plain *device, uint32_t block) {
    uint32_t words = block_words(device, block);
    uint32_t place = (block < 4 ? block : block - 3) * words;
    return device->top ? array_words(device) - place - words : place;
}

/* State */

/* All of the power-up state but the counts of erases: "Reset keeps counts; power-up starts them at 0" (document 02, item 6). */
static void begin(struct plain *device, unsigned unit_shift, bool top) {
    memset(device, 0, offsetof(struct plain, erases));
    device->unit_shift = unit_shift;
    device->top = top;
    device->configuration = DEFAULT_CONFIGURATION;
    for (size_t block = 0; block < PLAIN_BLOCKS; block++)
        device->protected[block] = true;
}

void plain_power_up(struct plain *device, uint32_t part) {
    begin(device, part < 2 ? 16 : 6, part % 2 == 1);
    memset(device->erases, 0, sizeof device->erases);
}

size_t plain_size(void) { return sizeof(struct plain); }

static void reset(struct plain *device) {
    bool supply = device->supply;
    begin(device, device->unit_shift, device->top);
    device->supply = supply;
}

/* The bank of what runs; something must run. */
static uint32_t running_bank(const struct plain *device) {
    switch (device->running) {
    case PLAIN_PROGRAM: return bank_of(device, device->program.location);
    case PLAIN_BUFFER_PROGRAM: return bank_of(device, device->buffer.start);
    default: return bank_of(device, block_start(device, device->erase.block));
    }
}

/* Reads */

static uint16_t status_word(const struct plain *device, uint32_t bank) {
    uint16_t word = device->flags;
    if (device->running == PLAIN_NOTHING)
        word |= SR7;
    else if (running_bank(device) != bank)
        word |= SR0;
    if (device->erase_suspended)
        word |= SR6;
    if (device->suspended_program != PLAIN_NOTHING)
        word |= SR2;
    return word;
}

static uint16_t signature_word(const struct plain *device, uint32_t location) {
    uint32_t block = block_of(device, location);
    if ((location & (block_words(device, block) - 1)) == 2)
        return device->protected[block] ? 1 : 0;
    switch (location & (bank_words(device) - 1)) {
    case 0: return 0x0020;
    case 1: return device->top ? 0x885E : 0x885F;
    case 5: return device->configuration;
    default: return 0;
    }
}

static uint16_t query_word(const struct plain *device, uint32_t location) {
    switch (location & (bank_words(device) - 1)) {
    case 0x10: return 0x51;
    case 0x11: return 0x52;
    case 0x12: return 0x59;
    default: return 0;
    }
}

static uint16_t read_word(const struct plain *device, uint32_t location, const uint16_t *array) {
    uint32_t bank = bank_of(device, location);
    switch (device->mode[bank]) {
    case PLAIN_ARRAY:
        if (device->running != PLAIN_NOTHING && running_bank(device) == bank)
            return status_word(device, bank);
        return array[location];
    case PLAIN_STATUS: return status_word(device, bank);
    case PLAIN_SIGNATURE: return signature_word(device, location);
    case PLAIN_QUERY: return query_word(device, location);
    }
    return 0;
}

/* Writes */

/* The tests at a program's data and at D0h of a load; what passes them runs. */
static void accept_program(struct plain *device, enum plain_operation program, uint32_t block) {
    if (!device->supply) {
        device->flags |= SR4 | SR3;
    } else if (device->protected[block]) {
        device->flags |= SR4 | SR1;
    } else if (device->erase_suspended && device->erase.block == block) {
        device->flags |= SR4;
    } else {
        device->running = program;
    }
}

static void program_second(struct plain *device, uint32_t location, uint16_t data) {
    device->program.location = location;
    device->program.data = data;
    accept_program(device, PLAIN_PROGRAM, block_of(device, location));
}

static void erase_second(struct plain *device, uint32_t location, uint8_t command) {
    uint32_t block = block_of(device, location);
    if (command != 0xD0) {
        device->flags |= SR5 | SR4;
    } else if (!device->supply) {
        device->flags |= SR5 | SR3;
    } else if (device->protected[block]) {
        device->flags |= SR5 | SR1;
    } else {
        device->running = PLAIN_ERASE;
        device->erase.block = block;
        device->erase.done = 0;
    }
}

static void lock_second(struct plain *device, uint32_t address, uint8_t command) {
    uint32_t block = block_of(device, location_of(device, address));
    switch (command) {
    case 0x01: device->protected[block] = true; break;
    case 0xD0: device->protected[block] = false; break;
    /* "03h stores those bits as 0" (document 02, item 4), without a flag: of the address, and not of the location */
    case 0x03: device->configuration = (uint16_t)(address & ~(uint32_t)RESERVED_BITS); break;
    default: device->flags |= SR5 | SR4; break;
    }
}

/* The cycles of a load after E8h (document 02, item 1; section 4.9). Each tells whether it is right. */

static bool load_count(struct plain *device, uint16_t data) {
    if (data >= PLAIN_BUFFER)
        return false;
    device->buffer.words = data + 1u;
    device->setup = PLAIN_LOAD_FIRST;
    return true;
}

static bool load_word(struct plain *device, uint32_t location, uint16_t data) {
    uint32_t place = location - device->buffer.start; /* below the start it wraps, and is too large */
    if (place >= device->buffer.words)
        return false;
    device->buffer.data[place] = data;
    device->buffer.due--;
    device->setup = device->buffer.due > 0 ? PLAIN_LOAD_WORD : PLAIN_LOAD_CONFIRM;
    return true;
}

/* The first word is the start; all words must fit the block. A word that is given no data takes FFFFh. */
static bool load_first(struct plain *device, uint32_t location, uint16_t data) {
    uint32_t size = block_words(device, device->buffer.block);
    if ((location & (size - 1)) + device->buffer.words > size)
        return false;
    device->buffer.start = location;
    device->buffer.due = device->buffer.words;
    device->buffer.done = 0;
    memset(device->buffer.data, 0xFF, sizeof device->buffer.data);
    return load_word(device, location, data);
}

static bool load_confirm(struct plain *device, uint8_t command) {
    if (command != 0xD0)
        return false;
    accept_program(device, PLAIN_BUFFER_PROGRAM, device->buffer.block);
    return true;
}

/* A right cycle sets up the next one. */
static bool load_cycle(struct plain *device, enum plain_setup due, uint32_t location, uint16_t data) {
    if (block_of(device, location) != device->buffer.block)
        return false;
    switch (due) {
    case PLAIN_LOAD_COUNT: return load_count(device, data);
    case PLAIN_LOAD_FIRST: return load_first(device, location, data);
    case PLAIN_LOAD_WORD: return load_word(device, location, data);
    default: return load_confirm(device, (uint8_t)data);
    }
}

/* Something must run: no program is suspended then, and if an erase runs, none is suspended. */
static void suspend(struct plain *device) {
    if (device->running == PLAIN_ERASE)
        device->erase_suspended = true;
    else
        device->suspended_program = device->running;
    device->running = PLAIN_NOTHING;
}

/* Without supply an operation ends, where it runs and where it would be resumed (document 02, item 5). What it has done stays in the array. */
static void end_without_supply(struct plain *device, enum plain_operation operation) {
    if (operation != PLAIN_NOTHING)
        device->flags |= operation == PLAIN_ERASE ? SR5 | SR3 : SR4 | SR3;
}

static void resume(struct plain *device) {
    enum plain_operation resumed = device->suspended_program;
    if (resumed != PLAIN_NOTHING) {
        device->suspended_program = PLAIN_NOTHING;
    } else if (device->erase_suspended) {
        resumed = PLAIN_ERASE;
        device->erase_suspended = false;
    }
    if (device->supply)
        device->running = resumed;
    else
        end_without_supply(device, resumed);
}

static void set_up(struct plain *device, uint32_t bank, uint32_t location, enum plain_setup setup) {
    if (device->running != PLAIN_NOTHING || device->suspended_program != PLAIN_NOTHING)
        return;
    if (setup == PLAIN_ERASE_SETUP && device->erase_suspended)
        return;
    if (setup == PLAIN_LOAD_COUNT)
        device->buffer.block = block_of(device, location);
    device->setup = setup;
    device->mode[bank] = PLAIN_STATUS;
}

static void first_cycle(struct plain *device, uint32_t bank, uint32_t location, uint8_t command) {
    switch (command) {
    case 0xFF: device->mode[bank] = PLAIN_ARRAY; break;
    case 0x70: device->mode[bank] = PLAIN_STATUS; break;
    case 0x90: device->mode[bank] = PLAIN_SIGNATURE; break;
    case 0x98: device->mode[bank] = PLAIN_QUERY; break;
    case 0xB0:
        if (device->running != PLAIN_NOTHING)
            suspend(device);
        break;
    case 0xD0:
        if (device->running == PLAIN_NOTHING)
            resume(device);
        break;
    case 0x50:
        if (device->running == PLAIN_NOTHING)
            device->flags = 0;
        break;
    case 0x10:
    case 0x40: set_up(device, bank, location, PLAIN_PROGRAM_SETUP); break;
    case 0x20: set_up(device, bank, location, PLAIN_ERASE_SETUP); break;
    case 0x60: set_up(device, bank, location, PLAIN_LOCK_SETUP); break;
    case 0xE8: set_up(device, bank, location, PLAIN_LOAD_COUNT); break;
    default: break;
    }
}

static void write_word(struct plain *device, uint32_t address, uint16_t data) {
    uint32_t location = location_of(device, address);
    uint32_t bank = bank_of(device, location);
    uint8_t command = (uint8_t)data;
    enum plain_setup setup = device->setup;
    if (setup == PLAIN_NO_SETUP) {
        first_cycle(device, bank, location, command);
        return;
    }
    device->setup = PLAIN_NO_SETUP;
    device->mode[bank] = PLAIN_STATUS;
    switch (setup) {
    case PLAIN_PROGRAM_SETUP: program_second(device, location, data); break;
    case PLAIN_ERASE_SETUP: erase_second(device, location, command); break;
    case PLAIN_LOCK_SETUP: lock_second(device, address, command); break;
    default:
        if (!load_cycle(device, setup, location, data))
            device->flags |= SR5 | SR4;
        break;
    }
}

/* Work */

static uint32_t work_program(struct plain *device, uint16_t *array) {
    array[device->program.location] &= device->program.data;
    device->running = PLAIN_NOTHING;
    return 1;
}

static uint32_t work_buffer(struct plain *device, uint32_t units, uint16_t *array) {
    uint32_t left = device->buffer.words - device->buffer.done;
    uint32_t now = units < left ? units : left;
    uint16_t *words = array + device->buffer.start + device->buffer.done;
    const uint16_t *data = device->buffer.data + device->buffer.done;
    for (uint32_t i = 0; i < now; i++)
        words[i] &= data[i];
    device->buffer.done += now;
    if (now == left)
        device->running = PLAIN_NOTHING;
    return now;
}

/* An erase is counted where its last word is done, and nowhere else (document 02, item 6). */
static void count_erase(struct plain *device, uint32_t block) {
    if (device->erases[block] < MOST_ERASES)
        device->erases[block]++;
}

static uint32_t work_erase(struct plain *device, uint32_t units, uint16_t *array) {
    uint32_t left = block_words(device, device->erase.block) - device->erase.done;
    uint32_t now = units < left ? units : left;
    memset(array + block_start(device, device->erase.block) + device->erase.done, 0xFF, now * sizeof *array);
    device->erase.done += now;
    if (now == left) {
        device->running = PLAIN_NOTHING;
        count_erase(device, device->erase.block);
    }
    return now;
}

static uint32_t work(struct plain *device, uint32_t units, uint16_t *array) {
    if (units == 0)
        return 0;
    switch (device->running) {
    case PLAIN_PROGRAM: return work_program(device, array);
    case PLAIN_BUFFER_PROGRAM: return work_buffer(device, units, array);
    case PLAIN_ERASE: return work_erase(device, units, array);
    default: return 0;
    }
}

/* Wear */

uint16_t plain_erase_count(const struct plain *device, uint32_t block) { return block < PLAIN_BLOCKS ? device->erases[block] : 0; }

uint32_t plain_most_worn(const struct plain *device) {
    uint32_t worn = 0;
    for (uint32_t block = 1; block < PLAIN_BLOCKS; block++)
        if (device->erases[block] > device->erases[worn])
            worn = block;
    return worn;
}

/* Supply: what is suspended and what is set up stay. */

static void set_supply(struct plain *device, bool on) {
    device->supply = on;
    if (on)
        return;
    end_without_supply(device, device->running);
    device->running = PLAIN_NOTHING;
}

/* Steps */

static uint64_t refused(uint32_t refusal) { return (uint64_t)refusal << 32; }

/* Whether a number is that of a step: m58.h leaves bits unused in all but a write. */
static bool is_step(uint32_t kind, uint16_t data, uint32_t low) {
    switch (kind) {
    case WRITE: return true;
    case READ:
    case WORK: return data == 0;
    case SUPPLY: return data == 0 && low <= 1;
    case RESET: return data == 0 && low == 0;
    default: return false;
    }
}

/* The answer of one step; `low` is its address, count or supply. */
static uint64_t take(struct plain *device, uint32_t kind, uint16_t data, uint32_t low, uint16_t *array, size_t count) {
    if (count != array_words(device))
        return refused(WRONG_LENGTH);
    switch (kind) {
    case READ:
        if (low >= ADDRESSES)
            return refused(WRONG_ADDRESS);
        return read_word(device, location_of(device, low), array);
    case WRITE:
        if (low >= ADDRESSES)
            return refused(WRONG_ADDRESS);
        write_word(device, low, data);
        return 0;
    case WORK:
        if (low > MOST_WORK)
            return refused(WRONG_COUNT);
        return work(device, low, array);
    case SUPPLY: set_supply(device, low == 1); return 0;
    default: reset(device); return 0;
    }
}

size_t plain_run(struct plain *device, const uint64_t *steps, size_t n, uint64_t *answers, uint16_t *array, size_t count) {
    for (size_t i = 0; i < n; i++) {
        uint32_t kind = (uint32_t)(steps[i] >> 48);
        uint16_t data = (uint16_t)(steps[i] >> 32);
        uint32_t low = (uint32_t)steps[i];
        if (!is_step(kind, data, low))
            return i;
        answers[i] = take(device, kind, data, low, array, count);
    }
    return n;
}
