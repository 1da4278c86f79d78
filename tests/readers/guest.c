/* The first process of machines.py's guest. It loads the modules that /modules lists, waits for as many disks as the kernel's command line
   wants, and prints the partitions that the kernel made of each. Then it turns the machine off. */
#define _GNU_SOURCE
#include <dirent.h>
#include <errno.h>
#include <fcntl.h>
#include <stdio.h>
#include <stdlib.h>
#include <string.h>
#include <sys/mount.h>
#include <sys/reboot.h>
#include <sys/stat.h>
#include <sys/syscall.h>
#include <unistd.h>

/* A file's text without the newlines at its end; nothing where it can't be read. */
static char *text_of(const char *path, char *text, int room) {
    int file = open(path, O_RDONLY);
    int length = file < 0 ? -1 : (int)read(file, text, room - 1);
    if (file >= 0) close(file);
    if (length < 0) length = 0;
    while (length && text[length - 1] == '\n') length--;
    text[length] = 0;
    return text;
}

static int by_version(const void *a, const void *b) { return strverscmp(*(char *const *)a, *(char *const *)b); }

/* The names in a folder that begin so. */
static int names_in(const char *folder, const char *prefix, char **names, int most) {
    DIR *opened = opendir(folder);
    struct dirent *one;
    int count = 0;
    while (opened && count < most && (one = readdir(opened)))
        if (!strncmp(one->d_name, prefix, strlen(prefix))) names[count++] = strdup(one->d_name);
    if (opened) closedir(opened);
    qsort(names, count, sizeof *names, by_version);
    return count;
}

/* Whether all could be loaded. */
static int load_modules(void) {
    char path[600];
    int well = 1;
    FILE *list = fopen("/modules", "r");
    while (list && fgets(path, sizeof path, list)) {
        path[strcspn(path, "\n")] = 0;
        int file = open(path, O_RDONLY);
        if (file < 0 || syscall(SYS_finit_module, file, "", 0)) {
            printf("MODULE %s: %s\n", path, strerror(errno));
            well = 0;
        }
        close(file);
    }
    return well;
}

/* The disks, once there are so many and the kernel has looked at them; or those that there are after five minutes. */
static int wait_for_disks(int wanted, char **disks, int most) {
    int count = 0, ready = 0;
    for (int tries = 0; tries < 6000 && ready < 3; tries++) {
        count = names_in("/sys/block", "vd", disks, most);
        ready += count >= wanted;
        usleep(50000);
    }
    return count;
}

static void show_partition(const char *disk, const char *name) {
    char path[600], number[64], first[64], length[64], about[9000];
    const char *folder = "/sys/block/%s/%s/%s";
    snprintf(path, sizeof path, folder, disk, name, "partition"); text_of(path, number, sizeof number);
    snprintf(path, sizeof path, folder, disk, name, "start"); text_of(path, first, sizeof first);
    snprintf(path, sizeof path, folder, disk, name, "size"); text_of(path, length, sizeof length);
    snprintf(path, sizeof path, folder, disk, name, "uevent"); text_of(path, about, sizeof about);
    char *label = strstr(about, "PARTNAME=");
    if (label) { label += 9; label[strcspn(label, "\n")] = 0; }
    printf("PART %s %s %s %s\n", number, first, length, label ? label : "");
}

static void show_disk(const char *disk) {
    char path[600], serial[64], *parts[512];
    snprintf(path, sizeof path, "/sys/block/%s/serial", disk);
    printf("DISK %s\n", text_of(path, serial, sizeof serial));
    snprintf(path, sizeof path, "/sys/block/%s", disk);
    int count = names_in(path, disk, parts, 512);
    for (int i = 0; i < count; i++) show_partition(disk, parts[i]);
}

int main(void) {
    char line[4096], *disks[1024];
    mkdir("/proc", 0755); mkdir("/sys", 0755); mkdir("/dev", 0755);
    mount("proc", "/proc", "proc", 0, "");
    mount("sysfs", "/sys", "sysfs", 0, "");
    mount("devtmpfs", "/dev", "devtmpfs", 0, "");
    int console = open("/dev/ttyS0", O_WRONLY);
    dup2(console, 1); dup2(console, 2);
    setvbuf(stdout, NULL, _IOFBF, 65536);
    char *wanted = strstr(text_of("/proc/cmdline", line, sizeof line), "want=");
    int count = load_modules() ? wait_for_disks(wanted ? atoi(wanted + 5) : 0, disks, 1024) : 0;
    printf("BEGIN %d\n", count);
    for (int i = 0; i < count; i++) show_disk(disks[i]);
    printf("END\n");
    fflush(stdout);
    usleep(100000);
    reboot(RB_POWER_OFF);
    for (;;) pause();
}
