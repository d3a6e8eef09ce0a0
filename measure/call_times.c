/* Prints how long libhfs takes for what `run_times.py calls` measures: on a volume of measure/make_volume.sh, which is changed.
 *
 * cc -O2 -I LIBHFS call_times.c LIBHFS/libhfs.a -o call_times; call_times VOLUME
 */
#include <stdio.h>
#include <stdlib.h>
#include <string.h>
#include <time.h>
#include "hfs.h"

#define FOLDERS 200
/* how many files are made in each folder, and deleted */
#ifndef FILES
#define FILES 5
#endif
#define MOST 100000

static double rounds[MOST];
static int count;

static double now(void)
{
    struct timespec t;
    clock_gettime(CLOCK_MONOTONIC, &t);
    return t.tv_sec * 1e9 + t.tv_nsec;
}

static void fail(const char *what)
{
    fprintf(stderr, "%s: %s\n", what, hfs_error);
    exit(1);
}

static int compare(const void *a, const void *b)
{
    double x = *(const double *)a, y = *(const double *)b;
    return x < y ? -1 : x > y;
}

static void add(double start)
{
    double spent = now() - start;
    if (count < MOST)
        rounds[count++] = spent;
}

static void print(const char *what)
{
    double sum = 0;
    for (int i = 0; i < count; i++)
        sum += rounds[i];
    qsort(rounds, count, sizeof *rounds, compare);
    printf("%s: %d calls, %.0f ns in the middle, %.0f at best, %.0f on average\n", what, count, rounds[count / 2], rounds[0],
           sum / count);
    count = 0;
}

static void enter(hfsvol *volume, int folder)
{
    char path[40];
    sprintf(path, "Many:Folder-%03d", folder + 1);
    if (hfs_chdir(volume, path) == -1)
        fail("hfs_chdir");
}

/* Sets the Finder bytes of each file that make_volume.sh laid into the folder. */
static void set_files(hfsvol *volume)
{
    hfsdirent list[1000];
    int files = 0;
    hfsdir *dir = hfs_opendir(volume, ":");
    while (files < 1000 && hfs_readdir(dir, &list[files]) == 0)
        files++;
    hfs_closedir(dir);
    for (int i = 0; i < files; i++) {
        memcpy(list[i].u.file.type, "TEST", 5);
        double start = now();
        if (hfs_setattr(volume, list[i].name, &list[i]) == -1)
            fail("hfs_setattr");
        add(start);
    }
}

static void create_files(hfsvol *volume)
{
    for (int n = 0; n < FILES; n++) {
        char name[20];
        sprintf(name, "M%05d", n);
        double start = now();
        hfsfile *file = hfs_create(volume, name, "TEXT", "TEST");
        if (file == 0 || hfs_close(file) == -1)
            fail("hfs_create");
        add(start);
    }
}

static void delete_files(hfsvol *volume)
{
    for (int n = 0; n < FILES; n++) {
        char name[20];
        sprintf(name, "M%05d", n);
        double start = now();
        if (hfs_delete(volume, name) == -1)
            fail("hfs_delete");
        add(start);
    }
}

static void each_folder(hfsvol *volume, const char *what, void (*make)(hfsvol *))
{
    for (int folder = 0; folder < FOLDERS; folder++) {
        enter(volume, folder);
        make(volume);
    }
    print(what);
}

int main(int words, char **word)
{
    hfsvol *volume = words == 2 ? hfs_mount(word[1], 0, HFS_MODE_RDWR) : 0;
    if (volume == 0)
        fail("hfs_mount");
    each_folder(volume, "hfs_setattr", set_files);
    each_folder(volume, "hfs_create", create_files);
    each_folder(volume, "hfs_delete", delete_files);
    double start = now();
    if (hfs_umount(volume) == -1)
        fail("hfs_umount");
    printf("hfs_umount: %.0f microseconds\n", (now() - start) / 1000);
    return 0;
}
