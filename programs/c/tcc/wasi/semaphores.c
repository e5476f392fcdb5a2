/* The compiler has one thread, so nobody waits for another. */
int sem_init(void *semaphore, int is_shared, unsigned count)
{
    (void)semaphore, (void)is_shared, (void)count;
    return 0;
}

int sem_wait(void *semaphore)
{
    (void)semaphore;
    return 0;
}

int sem_post(void *semaphore)
{
    (void)semaphore;
    return 0;
}

int sem_destroy(void *semaphore)
{
    (void)semaphore;
    return 0;
}
