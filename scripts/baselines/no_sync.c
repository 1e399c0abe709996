// Syncs that do nothing, loaded before the C library (LD_PRELOAD). They show a program's own time, without the disk's.
int fsync(int file) {
    (void)file;
    return 0;
}

int fdatasync(int file) {
    (void)file;
    return 0;
}
