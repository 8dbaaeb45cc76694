/* A client that sends ahead: it writes requests in pieces of 64 KiB to a server over a unix socket, or to a program over pipes, and
   reads the replies as they come. It sends those that prepare, waits for their replies, and then takes the time of those that are
   measured, from the first byte sent to the last one read.

   usage: client PREPARED MEASURED socket PATH PID
          client PREPARED MEASURED program PATH [WORDS..]

   It prints the seconds, a digest of all replies, the resident memory of the server or program in KiB between the two, and the seconds of
   processor time that it took for the measured ones. Behind each part the client sends an ECHO whose reply tells that all others are
   there. */
#include <errno.h>
#include <fcntl.h>
#include <poll.h>
#include <stdint.h>
#include <stdio.h>
#include <stdlib.h>
#include <string.h>
#include <sys/mman.h>
#include <sys/socket.h>
#include <sys/stat.h>
#include <sys/un.h>
#include <sys/wait.h>
#include <time.h>
#include <unistd.h>

#define PIECE 65536
#define ROOM (1 << 20)

static const char ASKED[] = "*2\r\n$4\r\nECHO\r\n$12\r\nall-is-there\r\n";
static const char TOLD[] = "$12\r\nall-is-there\r\n";

static int to, from;
static uint64_t digest = 14695981039346656037u;
/* the reply's last bytes, to see whether it ends as the ECHO's does */
static char tail[sizeof TOLD - 1];

static void stop(const char *what) {
  perror(what);
  exit(1);
}

/* Takes bytes of replies into the digest, eight at once: a piece's end doesn't matter, since all wait for eight. */
static void take(const char *bytes, size_t count) {
  static uint64_t word;
  static unsigned have;
  for (size_t i = 0; i < count; i++) {
    word = word << 8 | (unsigned char)bytes[i];
    if (++have == 8) {
      digest = (digest ^ word) * 1099511628211u;
      have = 0;
    }
  }
  if (count >= sizeof tail) {
    memcpy(tail, bytes + count - sizeof tail, sizeof tail);
  } else {
    memmove(tail, tail + count, sizeof tail - count);
    memcpy(tail + sizeof tail - count, bytes, count);
  }
}

static double now(clockid_t clock) {
  struct timespec t;
  if (clock_gettime(clock, &t) < 0) stop("clock_gettime");
  return t.tv_sec + t.tv_nsec / 1e9;
}

/* Sends bytes and then the ECHO, and reads until its reply has come. */
static void talk(const char *bytes, size_t count) {
  static char room[ROOM];
  const char *parts[] = {bytes, ASKED};
  size_t lengths[] = {count, sizeof ASKED - 1};
  size_t part = 0, at = 0;
  memset(tail, 0, sizeof tail);
  while (memcmp(tail, TOLD, sizeof tail) != 0) {
    struct pollfd ends[] = {{from, POLLIN, 0}, {part < 2 ? to : -1, POLLOUT, 0}};
    if (poll(ends, 2, -1) < 0) stop("poll");
    if (ends[0].revents) {
      ssize_t got = read(from, room, sizeof room);
      if (got == 0) { fprintf(stderr, "the replies ended early\n"); exit(1); }
      if (got < 0 && errno != EAGAIN) stop("read");
      if (got > 0) take(room, got);
    }
    if (part < 2 && ends[1].revents) {
      size_t left = lengths[part] - at;
      ssize_t put = left ? write(to, parts[part] + at, left < PIECE ? left : PIECE) : 0;
      if (put < 0 && errno != EAGAIN) stop("write");
      if (put > 0) at += put;
      if (at == lengths[part]) { part++; at = 0; }
    }
  }
}

static const char *file(const char *path, size_t *count) {
  struct stat about;
  int handle = open(path, O_RDONLY);
  if (handle < 0 || fstat(handle, &about) < 0) stop(path);
  *count = about.st_size;
  if (*count == 0) return "";
  char *bytes = mmap(0, *count, PROT_READ, MAP_PRIVATE | MAP_POPULATE, handle, 0);
  if (bytes == MAP_FAILED) stop(path);
  return bytes;
}

static long resident(long pid) {
  char path[64], line[256];
  long kib = 0;
  snprintf(path, sizeof path, "/proc/%ld/status", pid);
  FILE *about = fopen(path, "r");
  while (about && fgets(line, sizeof line, about)) sscanf(line, "VmRSS: %ld", &kib);
  if (about) fclose(about);
  return kib;
}

static long connect_to(const char *path) {
  struct sockaddr_un name = {.sun_family = AF_UNIX};
  strncpy(name.sun_path, path, sizeof name.sun_path - 1);
  to = from = socket(AF_UNIX, SOCK_STREAM, 0);
  if (to < 0 || connect(to, (struct sockaddr *)&name, sizeof name) < 0) stop(path);
  return 0;
}

static long start(char **words) {
  int input[2], output[2];
  if (pipe(input) < 0 || pipe(output) < 0) stop("pipe");
  pid_t pid = fork();
  if (pid < 0) stop("fork");
  if (pid == 0) {
    dup2(input[0], 0);
    dup2(output[1], 1);
    close(input[1]);
    close(output[0]);
    execv(words[0], words);
    stop(words[0]);
  }
  close(input[0]);
  close(output[1]);
  to = input[1];
  from = output[0];
  return pid;
}

int main(int count, char **words) {
  if (count < 5 || (strcmp(words[3], "socket") == 0 && count < 6)) {
    fprintf(stderr, "usage: client PREPARED MEASURED socket PATH PID | program PATH [WORDS..]\n");
    return 2;
  }
  size_t first_len, second_len;
  const char *first = file(words[1], &first_len);
  const char *second = file(words[2], &second_len);
  int child = strcmp(words[3], "program") == 0;
  long pid = child ? start(words + 4) : (connect_to(words[4]), atol(words[5]));
  fcntl(to, F_SETFL, O_NONBLOCK);
  fcntl(from, F_SETFL, O_NONBLOCK);
  talk(first, first_len);
  long kib = resident(pid);
  clockid_t spent;
  if (clock_getcpuclockid(pid, &spent) != 0) stop("clock_getcpuclockid");
  double begun = now(CLOCK_MONOTONIC), spent_before = now(spent);
  talk(second, second_len);
  double seconds = now(CLOCK_MONOTONIC) - begun, processor = now(spent) - spent_before;
  close(to);
  if (child) {
    int status;
    close(from);
    waitpid(pid, &status, 0);
  }
  printf("%.6f %016llx %ld %.6f\n", seconds, (unsigned long long)digest, kib, processor);
  return 0;
}
