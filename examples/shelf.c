/* shelf FOLDER LIMIT FILE..: keeps list files in a folder under a limit of bytes, by a shelf.
 *
 * Each FILE, a saved list, is entered: it is copied into the folder, and the files of the lists that were dropped for it are deleted. +FILE is a jump in the
 * list of that file's area. The shelf, its numbers and its table, lies in FOLDER/shelf. Prints each step. */
#include <stdio.h>
#include <stdlib.h>
#include <string.h>

#include "seek.h"
#include "seek_file.h"

typedef struct {
    seek_shelf shelf;
    seek_shelf_record table[SEEK_SHELF_RECORDS];
} kept;

static const char *folder;

/* A list's file is called by the short sum of its area's numbers. */
static const char *name_of(const seek_shelf_record *r)
{
    static char name[16];
    uint8_t area[42];
    const uint64_t numbers[] = {r->key_start, r->key_end, r->sectors, r->start, r->end};
    unsigned i, k;
    area[0] = r->slot;
    area[1] = r->channels;
    for (i = 0; i < 5; i++)
        for (k = 0; k < 8; k++)
            area[2 + 8 * i + k] = (uint8_t)(numbers[i] >> 8 * k);
    snprintf(name, sizeof name, "%08x.list", (unsigned)seek_sum32(area, sizeof area));
    return name;
}

static const char *in_folder(const char *name)
{
    static char path[4096];
    if (strlen(folder) + strlen(name) + 2 > sizeof path)
        exit(2);
    strcpy(path, folder);
    strcat(path, "/");
    return strcat(path, name);
}

/* Which lists were dropped: those that were present before, and whose area no present record has. */
static void delete_dropped(const kept *before, const kept *now)
{
    uint64_t i, k;
    for (i = 0; i < before->shelf.present; i++) {
        const seek_shelf_record *old = &before->table[i];
        seek_area a = {old->slot, old->channels, old->key_start, old->key_end, old->sectors, old->start, old->end};
        for (k = 0; k < now->shelf.present && !seek_shelf_is(&now->table[k], &a); k++)
            ;
        if (k == now->shelf.present) {
            printf("  dropped: %s\n", name_of(old));
            remove(in_folder(name_of(old)));
        }
    }
}

static uint32_t enter(kept *k, const seek_area *a, const uint8_t *file, size_t length)
{
    kept before = *k;
    uint32_t no = seek_shelf_enter(&k->shelf, k->table, SEEK_SHELF_RECORDS, a, length);
    if (no == 0) {
        const seek_shelf_record *last = &k->table[k->shelf.present - 1];
        printf("entered: %s, %lu bytes\n", name_of(last), (unsigned long)last->length);
        delete_dropped(&before, k);
        no = seek_write_file(in_folder(name_of(last)), file, length);
    }
    return no;
}

static uint32_t jump(kept *k, const seek_area *a)
{
    int absent;
    uint32_t no = seek_shelf_jump(&k->shelf, k->table, SEEK_SHELF_RECORDS, a, &absent);
    if (no == 0 && absent)
        printf("jump: not on the shelf\n");
    else if (no == 0)
        printf("jump: number %lu\n", (unsigned long)k->shelf.count);
    return no;
}

static uint32_t step(kept *k, const char *name)
{
    uint8_t *file = NULL;
    size_t length = 0;
    seek_area a;
    uint32_t no = seek_read_file(name[0] == '+' ? name + 1 : name, &file, &length);
    if (no == 0)
        no = seek_file_area(file, length, &a);
    if (no == 0)
        no = name[0] == '+' ? jump(k, &a) : enter(k, &a, file, length);
    if (no != 0)
        printf("%s: %lu: %s\n", name, (unsigned long)no, seek_file_text(no));
    free(file);
    return no;
}

int main(int argc, char **argv)
{
    static kept k;
    uint8_t *saved = NULL;
    size_t length = 0;
    uint32_t no = 0;
    int i;
    if (argc < 3)
        return 2;
    folder = argv[1];
    if (seek_read_file(in_folder("shelf"), &saved, &length) == 0 && length == sizeof k)
        memcpy(&k, saved, sizeof k);
    free(saved);
    k.shelf.limit = strtoull(argv[2], NULL, 10);
    for (i = 3; i < argc && no == 0; i++)
        no = step(&k, argv[i]);
    if (seek_write_file(in_folder("shelf"), (const uint8_t *)&k, sizeof k) != 0)
        return 2;
    printf("%lu lists on the shelf\n", (unsigned long)k.shelf.present);
    return no != 0;
}
