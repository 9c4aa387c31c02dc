/* Lists the items of a batch: list FILE [SIGNATURE]. The rows that are read into are lent here; the library allocates nothing. */
#include <inttypes.h>
#include <stdio.h>
#include <stdlib.h>

#include "raft_log.h"

static uint8_t data[1 << 20];
static uint64_t items[RAFT_LOG_ITEMS_MAX * RAFT_LOG_ITEM_WORDS];
static uint64_t entries[RAFT_LOG_ENTRIES_MAX * RAFT_LOG_ENTRY_WORDS];

/* Prints one item, and answers the entry row after its own. */
static const uint64_t *list(const uint64_t *item, const uint64_t *entry) {
    uint64_t group = item[0];
    if (item[1] == 1) {
        for (uint64_t k = 0; k < item[3]; k++, entry += RAFT_LOG_ENTRY_WORDS)
            printf("%" PRIu64 " entry %" PRIu64 " %" PRIu64 " %" PRIu64 "\n", group, entry[0], entry[1], entry[2]);
    } else if (item[1] == 2 && item[2] == 1) {
        printf("%" PRIu64 " clean\n", group);
    } else if (item[1] == 2) {
        printf("%" PRIu64 " compact %" PRIu64 "\n", group, item[3]);
    } else if (item[2] == 1) {
        printf("%" PRIu64 " put %" PRIu64 " %" PRIu64 "\n", group, item[4], item[6]);
    } else {
        printf("%" PRIu64 " del %" PRIu64 "\n", group, item[4]);
    }
    return entry;
}

int main(int argc, char **argv) {
    if (argc < 2) {
        fprintf(stderr, "usage: list FILE [SIGNATURE]\n");
        return 2;
    }
    FILE *file = fopen(argv[1], "rb");
    if (!file) {
        perror(argv[1]);
        return 2;
    }
    size_t n = fread(data, 1, sizeof data, file);
    if (ferror(file) || (n == sizeof data && fgetc(file) != EOF)) {
        fprintf(stderr, "%s: not read, or longer than this example takes\n", argv[1]);
        return 2;
    }
    fclose(file);
    uint32_t signature = argc > 2 ? (uint32_t)strtoul(argv[2], NULL, 10) : 0;
    uint64_t answer[9];
    uint32_t refusal = raft_log_read_batch(data, n, signature, items, sizeof items / sizeof *items, entries,
                                           sizeof entries / sizeof *entries, answer);
    if (refusal) {
        printf("refused %" PRIu32 " %" PRIu64 "\n", refusal, answer[0]);
        return 1;
    }
    printf("items %" PRIu64 " entries %" PRIu64 " bytes %" PRIu64 "\n", answer[1], answer[2], answer[3]);
    const uint64_t *entry = entries;
    for (uint64_t k = 0; k < answer[1]; k++)
        entry = list(items + k * RAFT_LOG_ITEM_WORDS, entry);
    return 0;
}
