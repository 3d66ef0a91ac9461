/* What the machine can't do fails, and says why. */
#include <dirent.h>
#include <errno.h>
#include <netinet/in.h>
#include <poll.h>
#include <pthread.h>
#include <stdio.h>
#include <stdlib.h>
#include <string.h>
#include <sys/ioctl.h>
#include <sys/mman.h>
#include <sys/socket.h>
#include <sys/stat.h>
#include <sys/time.h>
#include <time.h>
#include <unistd.h>

static void say(const char *what, int failed)
{
    printf("%s: %s\n", what, !failed ? "didn't fail" : errno == ENOSYS ? "ENOSYS" : strerror(errno));
    errno = 0;
}

static void *run(void *word)
{
    return word;
}

int main(void)
{
    struct timeval now;
    pthread_t thread;
    char path[65];
    say("time", time(NULL) == (time_t)-1);
    say("gettimeofday", gettimeofday(&now, NULL) < 0);
    say("clock", clock() == (clock_t)-1);
    say("sleep", sleep(1) == 1);
    printf("pthread_create: %s\n", pthread_create(&thread, NULL, run, NULL) == ENOSYS ? "ENOSYS" : "another");
    say("socket", socket(AF_INET, SOCK_STREAM, 0) < 0);
    say("poll", poll(NULL, 0, 10) < 0);
    say("mmap", mmap(NULL, 4096, PROT_READ, MAP_PRIVATE, 0, 0) == MAP_FAILED);
    say("opendir", opendir(".") == NULL);
    say("mkdir", mkdir("folder", 0777) < 0);
    say("rename", rename("a", "b") < 0);
    say("getcwd", getcwd(path, sizeof path) == NULL);
    say("ioctl", ioctl(1, 1) < 0);
    say("system", system("true") < 0);
    say("popen", popen("true", "r") == NULL);
    return 0;
}
