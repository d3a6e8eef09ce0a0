/*
 * How long libhfs takes for what measure/row_times.sh measures of the calls that read, and for changes.
 *
 * libhfs_times FILE        measures on that volume, files of which are deleted and made again
 * libhfs_times make FILE   lays a new volume of 60,000 items in that file first, which has its size already
 * libhfs_times write FILE  lays a new volume, and writes 65,536 bytes 120 times behind the end of a file's data fork, beside copies of them in memory
 */
#include <stdio.h>
#include <stdlib.h>
#include <string.h>
#include <time.h>

#include "hfs.h"

enum { ROUNDS = 60000, STEP = 7919, CHANGED = 1000, MOST = 70000, WRITES = 120, PART = 65536 };

struct item {
    unsigned long parent, id;
    int is_folder;
    char name[32];
};

static struct item items[MOST];
static int item_count;
static hfsvol *volume;

static double now(void)
{
    struct timespec at;
    clock_gettime(CLOCK_MONOTONIC, &at);
    return at.tv_sec * 1e9 + at.tv_nsec;
}

static void report(const char *what, double begin, int count)
{
    printf("  %s: %.0f ns each (%d)\n", what, (now() - begin) / (count ? count : 1), count);
}

/* Reads the items of a folder, and keeps them where that is asked for. */
static int list(unsigned long folder, int keep)
{
    hfsdirent entry;
    hfsdir *dir;
    int count = 0;
    if (hfs_setcwd(volume, folder) || !(dir = hfs_opendir(volume, ":"))) exit(2);
    while (hfs_readdir(dir, &entry) == 0) {
        if (keep && item_count < MOST) {
            struct item *item = &items[item_count++];
            item->parent = folder;
            item->id = entry.cnid;
            item->is_folder = (entry.flags & HFS_ISDIR) != 0;
            strcpy(item->name, entry.name);
        }
        count++;
    }
    hfs_closedir(dir);
    return count;
}

static int list_all(int keep)
{
    int count = list(HFS_CNID_ROOTDIR, keep), folders = item_count;
    if (keep) {
        for (int k = 0; k < folders; k++) count += list(items[k].id, 1);
    } else {
        for (int k = 0; k < item_count; k++) if (items[k].is_folder) count += list(items[k].id, 0);
    }
    return count;
}

static const char *path(const struct item *item, char *into)
{
    sprintf(into, ":%s", item->name);
    return into;
}

static int look_up(int steps)
{
    hfsdirent entry;
    char into[64];
    int found = 0, at = 0;
    for (int k = 0; k < ROUNDS; k++) {
        if (hfs_setcwd(volume, items[at].parent) == 0 && hfs_stat(volume, path(&items[at], into), &entry) == 0) found++;
        at = (at + steps) % item_count;
    }
    return found;
}

static int change(int create)
{
    char into[64];
    int done = 0;
    for (int k = 0; k < item_count && done < CHANGED; k++) {
        if (items[k].is_folder) continue;
        if (hfs_setcwd(volume, items[k].parent)) exit(3);
        if (create) {
            hfsfile *file = hfs_create(volume, path(&items[k], into), "TEXT", "ttxt");
            if (!file || hfs_close(file)) exit(4);
        } else if (hfs_delete(volume, path(&items[k], into))) {
            exit(5);
        }
        done++;
    }
    return done;
}

/* Lays a new volume in the file, with 200 folders of 299 empty files each. */
static int make(const char *file)
{
    char into[64];
    if (hfs_format(file, 0, 0, "Many", 0, NULL) || !(volume = hfs_mount(file, 0, HFS_MODE_RDWR))) return 1;
    for (int folder = 0; folder < 200; folder++) {
        sprintf(into, ":Folder %03d", folder);
        if (hfs_setcwd(volume, HFS_CNID_ROOTDIR) || hfs_mkdir(volume, into) || hfs_chdir(volume, into)) return 1;
        for (int k = 0; k < 299; k++) {
            sprintf(into, ":Letter of day %03d", k);
            hfsfile *made = hfs_create(volume, into, "TEXT", "ttxt");
            if (!made || hfs_close(made)) return 1;
        }
    }
    return hfs_umount(volume);
}

/* Copies so many parts in memory. It stands by itself, so that what it takes can be counted. */
__attribute__((noinline)) static void copy_parts(char *to, const char *from, int count)
{
    for (int k = 0; k < count; k++) memcpy(to + (size_t)k * PART, from, PART);
}

/* Writes so many parts behind the end of a fork. */
__attribute__((noinline)) static int write_parts(hfsfile *file, const char *part, int count)
{
    for (int k = 0; k < count; k++) if (hfs_write(file, part, PART) != PART) return 1;
    return 0;
}

static int write_fork(const char *path)
{
    static char part[PART], copies[(size_t)WRITES * PART];
    double begin;
    hfsfile *file;
    memset(part, 'a', PART);
    memset(copies, 'b', sizeof copies);
    if (hfs_format(path, 0, 0, "Fork", 0, NULL) || !(volume = hfs_mount(path, 0, HFS_MODE_RDWR))) return 1;
    if (!(file = hfs_create(volume, ":a", "TEXT", "ttxt"))) return 1;
    begin = now(); copy_parts(copies, part, WRITES); report("65,536 bytes, copied", begin, WRITES);
    begin = now(); if (write_parts(file, part, WRITES)) return 1; report("65,536 bytes, written by hfs_write", begin, WRITES);
    begin = now(); if (hfs_close(file) || hfs_umount(volume)) return 1; report("closed and flushed", begin, 1);
    return copies[sizeof copies - 1] != 'a';
}

int main(int argc, char **argv)
{
    double begin;
    if (argc > 2 && !strcmp(argv[1], "write")) return write_fork(argv[2]);
    if (argc > 2) return make(argv[2]);
    if (argc < 2 || !(volume = hfs_mount(argv[1], 0, HFS_MODE_RDWR))) {
        fprintf(stderr, "not mounted: %s\n", hfs_error ? hfs_error : "");
        return 1;
    }
    list_all(1);
    printf("libhfs, %d items\n", item_count);
    begin = now(); report("look-up by name", begin, look_up(STEP));
    begin = now(); report("look-up by name, one item after the other", begin, look_up(1));
    begin = now(); report("List, an item", begin, list_all(0));
    begin = now(); report("Delete", begin, change(0));
    begin = now(); report("Create", begin, change(1));
    begin = now(); report("List, an item", begin, list_all(0));
    return hfs_umount(volume);
}
