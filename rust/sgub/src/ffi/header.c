/* Behind the layouts, in the program that a test compiles. The functions have the types that Rust gives them: C refuses a second
 * declaration that is not the same. */
struct sgub_verdict sgub_check(const unsigned char *, unsigned long);
struct sgub_card sgub_card(const unsigned char *, unsigned long, unsigned long);
struct sgub_pool sgub_pool(const unsigned char *, unsigned long, unsigned short);
struct sgub_pools sgub_pools(
    const unsigned char *, unsigned long, struct sgub_pool_entry *, unsigned long);
struct sgub_started sgub_start(const unsigned char *, unsigned long);
struct sgub_vsync sgub_advance_vsync(
    struct sgub_player *, const unsigned char *, unsigned long, struct sgub_write *, unsigned long);
struct sgub_wave_source sgub_wave_source(struct sgub_player, unsigned long, unsigned long);
struct sgub_indexed sgub_index(const unsigned char *, unsigned long, unsigned char *, unsigned long);
struct sgub_jumped sgub_jump(
    struct sgub_player *, const unsigned char *, unsigned long, const unsigned char *, unsigned long, unsigned int);
struct sgub_repacked sgub_repack(const unsigned char *, unsigned long, unsigned char *, unsigned long);
struct sgub_compared sgub_compare(
    const unsigned char *, unsigned long, const unsigned char *, unsigned long,
    unsigned char *, unsigned long, unsigned char *, unsigned long);
struct sgub_joined sgub_join(
    const unsigned char *, unsigned long, const unsigned char *, unsigned long, unsigned char *, unsigned long);
struct sgub_frequency sgub_frequency(unsigned char, signed char);

/* P3 of the format sheet, and P3 with another version. */
int main(void) {
    uint8_t file[22] = {0x53, 0x47, 0x55, 0x42, 1, 16, 0, 0, 0, 0, 0, 1, 0, 0, 0, 0, 0, 0, 0, 22};
    struct sgub_verdict verdict = sgub_check(file, sizeof file);
    if (verdict.number != 0 || verdict.version != 1 || verdict.total_size != 22)
        return 1;
    uint8_t buffer[43] = {[42] = 0xA5};
    struct sgub_repacked repacked = sgub_repack(file, sizeof file, buffer, 41);
    if (repacked.number != 24 || repacked.size != 0 || buffer[0] != 0)
        return 4;
    repacked = sgub_repack(file, sizeof file, buffer, sizeof buffer);
    if (repacked.number != 0 || repacked.size != 42 || buffer[4] != 2 || buffer[42] != 0xA5)
        return 5;
    static uint8_t images[2][SGUB_IMAGE_SIZE + 1];
    struct sgub_compared compared = sgub_compare(
        file, sizeof file, buffer, 42, images[0], SGUB_IMAGE_SIZE, images[1], SGUB_IMAGE_SIZE - 1);
    if (compared.file != 2 || compared.number != 24 || compared.passed || images[0][0] != 0)
        return 6;
    compared = sgub_compare(
        file, sizeof file, buffer, 42, images[0], SGUB_IMAGE_SIZE, images[1], SGUB_IMAGE_SIZE + 1);
    if (compared.file != 0 || compared.number != 0 || compared.place != 0 || !compared.passed)
        return 7;
    if (images[0][0] != 0x80 || images[1][SGUB_IMAGE_SIZE - 1] != 0x80 || images[1][SGUB_IMAGE_SIZE] != 0)
        return 8;
    struct sgub_started started = sgub_start(file, sizeof file);
    struct sgub_vsync vsync = sgub_advance_vsync(&started.player, buffer, 42, &(struct sgub_write){0}, 1);
    if (vsync.number != 25 || vsync.place != 0 || vsync.count != 0 || vsync.complete)
        return 11;
    started.player.progress.wave_sources[11] = (struct sgub_wave_source){true, 777};
    struct sgub_wave_source source = sgub_wave_source(started.player, 1, 3);
    if (!source.copied || source.pool != 777 || sgub_wave_source(started.player, 3, 0).copied)
        return 12;
    uint8_t index[SGUB_LONGEST_INDEX] = {0xA5, [16] = 0xA5};
    struct sgub_indexed indexed = sgub_index(file, sizeof file, index, 15);
    if (indexed.number != 24 || indexed.place != 0 || indexed.size != 0 || index[0] != 0xA5)
        return 13;
    indexed = sgub_index(file, sizeof file, index, sizeof index);
    if (indexed.number != 0 || indexed.size != 16 || index[3] != 20 || index[15] != 22 || index[16] != 0xA5)
        return 14;
    struct sgub_jumped jumped = sgub_jump(&started.player, file, sizeof file, index, 15, 1);
    if (jumped.number != 26 || jumped.place != 0 || started.player.progress.initialized)
        return 15;
    jumped = sgub_jump(&started.player, file, sizeof file, index, 16, 1);
    if (jumped.number != 0 || jumped.place != 0 || !started.player.progress.initialized)
        return 16;
    uint8_t both[45] = {0xA5, [44] = 0xA5};
    struct sgub_joined joined = sgub_join(buffer, 42, file, sizeof file, both, sizeof both);
    if (joined.file != 2 || joined.number != 21 || joined.place != 0 || joined.size != 0 || both[0] != 0xA5)
        return 19;
    joined = sgub_join(buffer, 42, buffer, 42, both, 43);
    if (joined.file != 0 || joined.number != 24 || joined.place != 0 || joined.size != 0 || both[0] != 0xA5)
        return 20;
    joined = sgub_join(buffer, 42, buffer, 42, both, sizeof both);
    if (joined.file != 0 || joined.number != 0 || joined.place != 0 || joined.size != 44)
        return 21;
    if (both[11] != 2 || both[35] != 44 || both[44] != 0xA5)
        return 22;
    struct sgub_frequency frequency = sgub_frequency(69, -12);
    if (frequency.number != 0 || frequency.place != 0 || frequency.pitch != 220)
        return 17;
    frequency = sgub_frequency(69, -49);
    if (frequency.number != 28 || frequency.place != 0 || frequency.pitch != 0)
        return 18;
    file[4] = 5;
    verdict = sgub_check(file, sizeof file);
    if (verdict.number != 3 || verdict.place != 0 || verdict.version != 0)
        return 2;
    struct sgub_card card = sgub_card(file, sizeof file, 0);
    if (card.number != 3 || card.place != 0 || card.card.id_length != 0)
        return 9;
    struct sgub_pool_entry entry = {0xA5, 0, 0};
    struct sgub_pools pools = sgub_pools(file, sizeof file, &entry, 1);
    if (pools.number != 3 || pools.place != 0 || pools.count != 0 || entry.kind != 0xA5)
        return 10;
    struct sgub_pool pool = sgub_pool(file, sizeof file, 0);
    return pool.number == 3 && pool.kind == 0 && pool.size == 0 ? 0 : 3;
}
