/*
 * The mains drops in the middle of a block.
 *
 *     mains write IMAGE TAKEN     writes the block until the mains drops, and saves the chip and the bytes that the target took
 *     mains resume IMAGE TAKEN    another process: goes on from these two files to the end of the block
 *
 * The drop comes at an awkward moment: REQ is up, the byte is sent and ACK is on, no word fits in. Nothing is told to the
 * second process but what the files hold: where the port stands follows from them, since the bytes sent, then the SCSI FIFO,
 * then the host FIFO are what the port accepted. A file that is no image is refused. (A damage that makes it the image of
 * another chip is not seen here: a host that fears that saves a checksum beside it.)
 */
#include "driver.h"

enum { DROP_AFTER = 201 };

static void fail(const char *path, const char *why)
{
    fprintf(stderr, "mains: %s: %s\n", path, why);
    exit(1);
}

static void save(const char *path, const uint8_t *bytes, size_t length)
{
    FILE *file = fopen(path, "wb");
    if (file == NULL)
        fail(path, "cannot be opened");
    if (fwrite(bytes, 1, length, file) != length || fclose(file) != 0)
        fail(path, "cannot be written");
}

/* The bytes of a file, as many as there is room for; how many. */
static size_t load(const char *path, uint8_t *bytes, size_t room)
{
    FILE *file = fopen(path, "rb");
    if (file == NULL)
        fail(path, "cannot be opened");
    size_t length = fread(bytes, 1, room, file);
    if (ferror(file) || fclose(file) != 0)
        fail(path, "cannot be read");
    return length;
}

/* The chip of a file, if it is one: an event of 0 ticks changes no chip that was saved, and the call refuses what is no image. */
static void load_chip(const char *path)
{
    static const uint8_t no_ticks[4] = {6 << 5, 0, 0, 0};
    uint8_t bytes[RABENTEIG_IMAGE_SIZE + 1];
    size_t length = load(path, bytes, sizeof bytes);
    if (rabenteig_step(bytes, length, no_ticks, sizeof no_ticks, answer, sizeof answer) != 0)
        fail(path, "this is not the image of a chip: refused");
    memcpy(image, bytes, sizeof image);
}

static int write_until_the_drop(const char *image_path, const char *taken_path)
{
    put(DMACNTRL0, 0x88); /* ENDMA, 16 bits, WRITE */
    put(SXFRCTL0, 0xE0);  /* SCSIEN, DMAEN, CHEN */
    drive(BSY);
    size_t at = run(0, 2, DROP_AFTER - 1);
    at = fill_port(at, 2);
    drive(BSY | REQ);
    save(image_path, image, sizeof image);
    save(taken_path, got, taken);
    printf("the mains drops: the port took %zu bytes, the target %zu; the FIFOs hold %u and %u\n", at, taken, scsi_fifo_count(),
           host_fifo_count());
    return 0;
}

static int resume(const char *image_path, const char *taken_path)
{
    load_chip(image_path);
    taken = load(taken_path, got, sizeof got);
    size_t at = taken + scsi_fifo_count() + host_fifo_count();
    if (at > BLOCK)
        fail(taken_path, "more bytes than the block has");
    printf("the mains is back: the target has %zu bytes, the port goes on at byte %zu\n", taken, at);
    drive(BSY); /* the REQ that stood falls */
    run(at, 2, BLOCK);
    save(taken_path, got, taken);
    if (!got_the_block())
        fail(taken_path, "the target did not get the block");
    printf("the target got each of the %d bytes once, in order\n", BLOCK);
    return 0;
}

int main(int count, char **words)
{
    make_block();
    if (count == 4 && strcmp(words[1], "write") == 0)
        return write_until_the_drop(words[2], words[3]);
    if (count == 4 && strcmp(words[1], "resume") == 0)
        return resume(words[2], words[3]);
    fprintf(stderr, "usage: mains write|resume IMAGE TAKEN\n");
    return 2;
}
