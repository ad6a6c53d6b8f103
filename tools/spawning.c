/* Runs a program many times at little cost, for tools/spawned.py.

   spawning PROGRAM SECONDS [LIBRARY]: reads batches of runs from standard input and writes what came of them to standard output. All numbers
   have 4 bytes, in this machine's order. A batch is its length and then, for each run, the count of its words, each with its length,
   and the count of its files, each a name and bytes with their lengths. Each run is over its files in the current folder, which is
   empty before and behind it. What is written for a batch is its length and then, for each run, the status (below 0 a signal,
   UNENDED where it didn't end), the output with its length, and the files that hold something else than they did before, as in a
   batch. With LIBRARY, tools/forking.c compiled, runs with the same words one after the other are copies of one process. */

#define _GNU_SOURCE
#include <dirent.h>
#include <errno.h>
#include <fcntl.h>
#include <poll.h>
#include <signal.h>
#include <spawn.h>
#include <stdint.h>
#include <stdio.h>
#include <stdlib.h>
#include <string.h>
#include <sys/stat.h>
#include <sys/syscall.h>
#include <sys/wait.h>
#include <time.h>
#include <unistd.h>

enum { UNENDED = 0x7fffffff, MOST_WORDS = 64, MOST_FILES = 16, PIECE = 65536 };

extern char **environ;

struct bytes { char *at; uint32_t length; };
struct file { char *name; struct bytes data; };
struct buffer { char *at; size_t length, room; };

static void fail(const char *what) { perror(what); exit(1); }

static void append(struct buffer *to, const void *from, size_t length)
{
    if (to->room - to->length < length) {
        to->room = 2 * (to->length + length) + PIECE;
        to->at = realloc(to->at, to->room);
        if (!to->at) fail("spawning: memory");
    }
    if (length) memcpy(to->at + to->length, from, length);
    to->length += length;
}

static void append_number(struct buffer *to, uint32_t number) { append(to, &number, 4); }

static void append_bytes(struct buffer *to, const char *from, size_t length)
{
    append_number(to, (uint32_t)length);
    append(to, from, length);
}

/* Whether so many bytes were read; 0 only at the end. */
static int read_all(int from, void *to, size_t length)
{
    for (char *at = to; length;) {
        ssize_t count = read(from, at, length);
        if (count < 0 && errno == EINTR) continue;
        if (count < 0) fail("spawning: read");
        if (count == 0) return 0;
        at += count;
        length -= (size_t)count;
    }
    return 1;
}

static void write_all(int to, const char *from, size_t length)
{
    while (length) {
        ssize_t count = write(to, from, length);
        if (count < 0 && errno == EINTR) continue;
        if (count < 0) fail("spawning: write");
        from += count;
        length -= (size_t)count;
    }
}

static uint32_t take_number(char **at)
{
    uint32_t number;
    memcpy(&number, *at, 4);
    *at += 4;
    return number;
}

static struct bytes take_bytes(char **at)
{
    struct bytes taken;
    taken.length = take_number(at);
    taken.at = *at;
    *at += taken.length;
    return taken;
}

static char *take_name(char **at)
{
    struct bytes taken = take_bytes(at);
    char *name = strndup(taken.at, taken.length);
    if (!name) fail("spawning: memory");
    return name;
}

static void write_file(const struct file *file)
{
    int to = open(file->name, O_WRONLY | O_CREAT | O_TRUNC | O_CLOEXEC, 0666);
    if (to < 0) fail(file->name);
    write_all(to, file->data.at, file->data.length);
    close(to);
}

/* How many milliseconds are left. */
static int left(const struct timespec *end)
{
    struct timespec now;
    clock_gettime(CLOCK_MONOTONIC, &now);
    long long ms = (end->tv_sec - now.tv_sec) * 1000LL + (end->tv_nsec - now.tv_nsec) / 1000000;
    return ms > 0 ? (int)ms : 0;
}

/* What the child writes, to its end; 0 where that isn't in time. */
static int take_output(int from, const struct timespec *end, struct buffer *text)
{
    char piece[PIECE];
    for (;;) {
        struct pollfd ready = { from, POLLIN, 0 };
        if (poll(&ready, 1, left(end)) <= 0) return 0;
        ssize_t count = read(from, piece, sizeof piece);
        if (count < 0 && errno == EINTR) continue;
        if (count <= 0) return count == 0;
        append(text, piece, (size_t)count);
    }
}

/* The status of the child, which is killed where it hasn't ended in time. */
static int32_t status_of(pid_t child, int in_time, const struct timespec *end)
{
    int status;
    if (waitpid(child, &status, WNOHANG) == 0) {
        int handle = (int)syscall(SYS_pidfd_open, child, 0);
        struct pollfd ready = { handle, POLLIN, 0 };
        int ended = poll(&ready, 1, in_time ? left(end) : 0) > 0;
        if (handle >= 0) close(handle);
        if (!ended) kill(child, SIGKILL);
        waitpid(child, &status, 0);
        if (!ended) return UNENDED;
    }
    return WIFSIGNALED(status) ? -WTERMSIG(status) : WEXITSTATUS(status);
}

static int32_t run(const char *program, char **words, long seconds, int nothing, struct buffer *text)
{
    int ends[2];
    if (pipe2(ends, O_CLOEXEC)) fail("spawning: pipe");
    posix_spawn_file_actions_t actions;
    posix_spawn_file_actions_init(&actions);
    posix_spawn_file_actions_adddup2(&actions, nothing, 0);
    posix_spawn_file_actions_adddup2(&actions, ends[1], 1);
    posix_spawn_file_actions_adddup2(&actions, nothing, 2);
    pid_t child;
    int wrong = posix_spawn(&child, program, &actions, 0, words, environ);
    posix_spawn_file_actions_destroy(&actions);
    close(ends[1]);
    if (wrong) {
        errno = wrong;
        fail(program);
    }
    struct timespec end;
    clock_gettime(CLOCK_MONOTONIC, &end);
    end.tv_sec += seconds;
    int in_time = take_output(ends[0], &end, text);
    close(ends[0]);
    return status_of(child, in_time, &end);
}

/* The process that is copied, and the words that it was started with. */
static struct { pid_t number; int orders, news, text; char *words[MOST_WORDS + 2]; } server;

enum { ORDERS = 198, NEWS = 199 };

static int has_words(char **words)
{
    int i = 0;
    for (; server.words[i] && words[i]; i++)
        if (strcmp(server.words[i], words[i])) return 0;
    return !server.words[i] && !words[i];
}

static void end_server(void)
{
    if (!server.number) return;
    close(server.orders);
    close(server.news);
    close(server.text);
    waitpid(server.number, 0, 0);
    for (int i = 0; server.words[i]; i++) free(server.words[i]);
    server.number = 0;
}

static void start_server(const char *program, char **words, int nothing, const char *library)
{
    int orders[2], news[2], text[2];
    if (pipe2(orders, O_CLOEXEC) || pipe2(news, O_CLOEXEC) || pipe2(text, O_CLOEXEC)) fail("spawning: pipe");
    posix_spawn_file_actions_t actions;
    posix_spawn_file_actions_init(&actions);
    posix_spawn_file_actions_adddup2(&actions, nothing, 0);
    posix_spawn_file_actions_adddup2(&actions, text[1], 1);
    posix_spawn_file_actions_adddup2(&actions, nothing, 2);
    posix_spawn_file_actions_adddup2(&actions, orders[0], ORDERS);
    posix_spawn_file_actions_adddup2(&actions, news[1], NEWS);
    setenv("LD_PRELOAD", library, 1);
    int wrong = posix_spawn(&server.number, program, &actions, 0, words, environ);
    unsetenv("LD_PRELOAD");
    posix_spawn_file_actions_destroy(&actions);
    if (wrong) {
        errno = wrong;
        fail(program);
    }
    close(orders[0]);
    close(news[1]);
    close(text[1]);
    server.orders = orders[1], server.news = news[0], server.text = text[0];
    fcntl(server.text, F_SETFL, O_NONBLOCK);
    int i = 0;
    for (; words[i]; i++)
        if (!(server.words[i] = strdup(words[i]))) fail("spawning: memory");
    server.words[i] = 0;
}

/* What the copy has written so far. */
static void take_written(struct buffer *text)
{
    char piece[PIECE];
    for (ssize_t count; (count = read(server.text, piece, sizeof piece)) > 0;) append(text, piece, (size_t)count);
}

/* As `run`, by a copy of the process. */
static int32_t run_copy(long seconds, struct buffer *text)
{
    uint32_t copy, status;
    write_all(server.orders, "r", 1);
    if (!read_all(server.news, &copy, 4)) fail("spawning: no copy");
    struct timespec end;
    clock_gettime(CLOCK_MONOTONIC, &end);
    end.tv_sec += seconds;
    int in_time = 1;
    for (;;) {
        struct pollfd ready[2] = { { server.news, POLLIN, 0 }, { server.text, POLLIN, 0 } };
        in_time = poll(ready, 2, left(&end)) > 0;
        if (!in_time) kill((pid_t)copy, SIGKILL);
        take_written(text);
        if (!in_time || ready[0].revents & POLLIN) break;
    }
    if (!read_all(server.news, &status, 4)) fail("spawning: no status");
    take_written(text);
    if (!in_time) return UNENDED;
    return WIFSIGNALED(status) ? -WTERMSIG(status) : WEXITSTATUS(status);
}

/* Takes a file away; what it holds is appended unless it is what it held before. Says whether it was. */
static int take_away(const char *name, const struct file *files, uint32_t count, struct buffer *to, struct buffer *room)
{
    int from = open(name, O_RDONLY | O_CLOEXEC);
    struct stat about;
    if (from < 0 || fstat(from, &about)) fail(name);
    size_t length = (size_t)about.st_size;
    room->length = 0;
    append(room, "", 0);
    if (room->room < length) {
        room->at = realloc(room->at, length);
        if (!room->at) fail("spawning: memory");
        room->room = length;
    }
    if (!read_all(from, room->at, length)) fail(name);
    close(from);
    unlink(name);
    for (uint32_t i = 0; i < count; i++)
        if (!strcmp(files[i].name, name) && files[i].data.length == length && !memcmp(files[i].data.at, room->at, length)) return 0;
    append_bytes(to, name, strlen(name));
    append_bytes(to, room->at, length);
    return 1;
}

static void take_files(DIR *folder, const struct file *files, uint32_t count, struct buffer *to)
{
    static struct buffer room;
    size_t place = to->length;
    uint32_t found = 0;
    append_number(to, 0);
    rewinddir(folder);
    for (struct dirent *entry; (entry = readdir(folder));)
        if (strcmp(entry->d_name, ".") && strcmp(entry->d_name, "..")) found += take_away(entry->d_name, files, count, to, &room);
    memcpy(to->at + place, &found, 4);
}

static void one_run(char **at, char **own, long seconds, int nothing, DIR *folder, struct buffer *to)
{
    static struct buffer text;
    const char *program = own[1], *library = own[3];
    char *words[MOST_WORDS + 2] = { own[1] };
    struct file files[MOST_FILES];
    uint32_t word_count = take_number(at);
    if (word_count > MOST_WORDS) exit(2);
    for (uint32_t i = 0; i < word_count; i++) words[i + 1] = take_name(at);
    uint32_t file_count = take_number(at);
    if (file_count > MOST_FILES) exit(2);
    for (uint32_t i = 0; i < file_count; i++) {
        files[i].name = take_name(at);
        files[i].data = take_bytes(at);
        write_file(&files[i]);
    }
    text.length = 0;
    if (library && !(server.number && has_words(words))) {
        end_server();
        start_server(program, words, nothing, library);
    }
    int32_t status = library ? run_copy(seconds, &text) : run(program, words, seconds, nothing, &text);
    append_number(to, (uint32_t)status);
    append_bytes(to, text.at, text.length);
    take_files(folder, files, file_count, to);
    for (uint32_t i = 0; i < word_count; i++) free(words[i + 1]);
    for (uint32_t i = 0; i < file_count; i++) free(files[i].name);
}

int main(int count, char **words)
{
    if (count != 3 && count != 4) return 2;
    long seconds = atol(words[2]);
    int nothing = open("/dev/null", O_RDWR | O_CLOEXEC);
    DIR *folder = opendir(".");
    if (nothing < 0 || !folder) fail("spawning");
    struct buffer batch = { 0 }, results = { 0 };
    uint32_t length;
    while (read_all(0, &length, 4)) {
        batch.length = 0;
        if (batch.room < length) {
            batch.at = realloc(batch.at, length);
            if (!batch.at) fail("spawning: memory");
            batch.room = length;
        }
        if (!read_all(0, batch.at, length)) return 1;
        results.length = 0;
        for (char *at = batch.at; at < batch.at + length;) one_run(&at, words, seconds, nothing, folder, &results);
        uint32_t written = (uint32_t)results.length;
        write_all(1, (char *)&written, 4);
        write_all(1, results.at, results.length);
    }
    end_server();
    return 0;
}
