/* The smallest station loader: reads a bundle, finds the images for all cards in one call, and hands each card its own.
 *
 *     loader three-cards.bundle hip-amdgcn-amd-amdhsa--gfx906:sramecc+:xnack- hip-amdgcn-amd-amdhsa--gfx1030
 *
 * Exit status:
 *   0  every card has its image
 *   1  an alarm: the bundle is refused, and no card gets an image; or a device name is wrong, and that card gets none
 *   2  bad usage
 *   3  the file cannot be read
 *   4  the bundle is sound, but has no image for some card: normal in a station with several kinds of cards */
#include <offload.h>

#include <inttypes.h>
#include <stdio.h>
#include <stdlib.h>
#include <string.h>

enum status { LOADED = 0, REFUSED = 1, BAD_USAGE = 2, NOT_READ = 3, NO_IMAGE = 4 };

/* The whole file, or null. */
static uint8_t *read_file(const char *path, size_t *length) {
    FILE *file = fopen(path, "rb");
    uint8_t *bytes = NULL;
    long end;
    if (file == NULL)
        return NULL;
    end = fseek(file, 0, SEEK_END) == 0 ? ftell(file) : -1;
    if (end >= 0) {
        *length = (size_t)end;
        bytes = malloc(*length + 1); /* never 0 bytes: no call takes a null pointer */
        rewind(file);
    }
    if (bytes != NULL && fread(bytes, 1, *length, file) != *length) {
        free(bytes);
        bytes = NULL;
    }
    fclose(file);
    return bytes;
}

/* The device names of the cards, parts of one buffer. A name may have OFFLOAD_ID_LIMIT bytes: one byte more shows that it is too long. */
struct cards {
    size_t count;
    struct offload_part names[OFFLOAD_NAMES];
    size_t length;
    uint8_t buffer[OFFLOAD_NAMES * (OFFLOAD_ID_LIMIT + 1)];
};

static void add_card(struct cards *cards, const char *device) {
    size_t length = strlen(device);
    struct offload_part *name = &cards->names[cards->count++];
    name->start = cards->length;
    name->length = length <= OFFLOAD_ID_LIMIT ? length : OFFLOAD_ID_LIMIT + 1;
    memcpy(cards->buffer + name->start, device, name->length);
    cards->length += name->length;
}

/* Here a station calls its card's runtime, such as hipModuleLoadData(&module, image). */
static void load_on_card(const char *device, const uint8_t *image, uint64_t size) {
    printf("%s: %" PRIu64 " bytes, the first is %u\n", device, size, size > 0 ? image[0] : 0);
}

/* Loads the image of one card, or says why there is none. */
static enum status load(const uint8_t *bundle, const char *device, const struct offload_slot *slot) {
    switch (slot->number) {
    case OFFLOAD_OK:
        load_on_card(device, bundle + slot->position, slot->size);
        return LOADED;
    case OFFLOAD_NONE:
        printf("%s: no image for this card\n", device);
        return NO_IMAGE;
    default: /* the device name is wrong (QUERY) */
        printf("%s: refused: %" PRIu64 " %s\n", device, slot->number, offload_name(slot->number));
        return REFUSED;
    }
}

/* Loads all cards; what is refused counts more than what is missing. With offload_amdgpu_pick for each card in the place of this one call, a processor
 * or feature of an AMD card that is spelled wrongly is refused (QUERY), and does not look like a card without an image (NONE). */
static enum status load_all(const uint8_t *bundle, size_t length, const struct cards *cards, char **devices) {
    struct offload_slot slots[OFFLOAD_NAMES];
    struct offload_pick_each_answer pick =
        offload_pick_each(bundle, length, cards->buffer, cards->length, cards->names, cards->count, slots, OFFLOAD_NAMES);
    enum status worst = LOADED;
    size_t i;
    if (pick.number != OFFLOAD_OK) {
        printf("refused: %" PRIu64 " %s\n", pick.number, offload_name(pick.number));
        return REFUSED;
    }
    for (i = 0; i < cards->count; i++) {
        enum status status = load(bundle, devices[i], &slots[i]);
        if (status == REFUSED || worst == LOADED)
            worst = status;
    }
    return worst;
}

int main(int count, char **words) {
    struct cards cards = {0};
    size_t length = 0;
    uint8_t *bundle;
    enum status status;
    int i;
    if (count < 3 || count - 2 > OFFLOAD_NAMES) {
        fprintf(stderr, "loader FILE DEVICE [DEVICE ..]: a bundle, and the device names of at most %d cards\n", OFFLOAD_NAMES);
        return BAD_USAGE;
    }
    for (i = 2; i < count; i++)
        add_card(&cards, words[i]);
    bundle = read_file(words[1], &length);
    if (bundle == NULL) {
        fprintf(stderr, "loader: cannot read %s\n", words[1]);
        return NOT_READ;
    }
    status = load_all(bundle, length, &cards, words + 2);
    free(bundle);
    return status;
}
