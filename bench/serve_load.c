/* Sends calls over the connections of a Unix socket, and times the answers:

     serve_load SOCKET UID CONNECTIONS CALLS CALL ANSWER [PAUSE]

   CALL is a file with one call, whose serial is set anew for each. Each connection has a thread, which sends a call when the one before
   it is answered, and PAUSE microseconds have gone by. The last answer is written to the file ANSWER. Printed are the seconds of all, and the 50th and the 99th percentile of
   the time of a call in microseconds. */
#include <errno.h>
#include <pthread.h>
#include <stdint.h>
#include <stdio.h>
#include <stdlib.h>
#include <string.h>
#include <sys/socket.h>
#include <sys/un.h>
#include <time.h>
#include <unistd.h>

enum { ROOM = 1 << 16 };

static const char *path;
static int uid, calls, pause_us;
static unsigned char call[ROOM], answer[ROOM];
static size_t call_size, answer_size;
static pthread_mutex_t answered = PTHREAD_MUTEX_INITIALIZER;

static double now(void) {
  struct timespec t;
  clock_gettime(CLOCK_MONOTONIC, &t);
  return t.tv_sec + t.tv_nsec / 1e9;
}

static void fail(const char *what) {
  perror(what);
  exit(1);
}

static void send_all(int fd, const void *data, size_t size) {
  for (const char *at = data; size;) {
    ssize_t n = write(fd, at, size);
    if (n < 0 && errno == EINTR) continue;
    if (n <= 0) fail("serve_load: write");
    at += n;
    size -= n;
  }
}

static void receive_all(int fd, void *data, size_t size) {
  for (char *at = data; size;) {
    ssize_t n = read(fd, at, size);
    if (n < 0 && errno == EINTR) continue;
    if (n <= 0) {
      fprintf(stderr, "serve_load: the server closed the connection\n");
      exit(1);
    }
    at += n;
    size -= n;
  }
}

/* A connection whose messages have begun. */
static int connected(void) {
  int fd = socket(AF_UNIX, SOCK_STREAM, 0);
  struct sockaddr_un to = {.sun_family = AF_UNIX};
  strncpy(to.sun_path, path, sizeof to.sun_path - 1);
  if (fd < 0 || connect(fd, (struct sockaddr *)&to, sizeof to)) fail("serve_load: connect");
  char digits[16], line[64] = "", end;
  snprintf(digits, sizeof digits, "%d", uid);
  size_t n = 1 + sprintf(line + 1, "AUTH EXTERNAL ");
  for (char *d = digits; *d; d++) n += sprintf(line + n, "%02x", *d);
  n += sprintf(line + n, "\r\n");
  send_all(fd, line, n);
  do receive_all(fd, &end, 1); while (end != '\n');
  send_all(fd, "BEGIN\r\n", 7);
  return fd;
}

/* Reads one answer, and returns its size. */
static size_t receive_answer(int fd, unsigned char *data) {
  uint32_t body, fields;
  receive_all(fd, data, 16);
  memcpy(&body, data + 4, 4);
  memcpy(&fields, data + 12, 4);
  size_t rest = fields + (8 - fields % 8) % 8 + body;
  if (rest > ROOM - 16) {
    fprintf(stderr, "serve_load: an answer of %zu bytes\n", rest + 16);
    exit(1);
  }
  receive_all(fd, data + 16, rest);
  return rest + 16;
}

/* One connection with its calls, whose times are written behind the pointer. */
static void *talk(void *mine) {
  double *took = mine;
  unsigned char *text = malloc(ROOM), *reply = malloc(ROOM);
  size_t size = 0;
  if (!text || !reply) fail("serve_load: malloc");
  memcpy(text, call, call_size);
  int fd = connected();
  for (int k = 0; k < calls; k++) {
    uint32_t serial = k + 1;
    memcpy(text + 8, &serial, 4);
    double from = now();
    send_all(fd, text, call_size);
    size = receive_answer(fd, reply);
    took[k] = now() - from;
    if (pause_us) usleep(pause_us);
  }
  close(fd);
  pthread_mutex_lock(&answered);
  memcpy(answer, reply, answer_size = size);
  pthread_mutex_unlock(&answered);
  free(text);
  free(reply);
  return 0;
}

static int order(const void *a, const void *b) {
  double x = *(const double *)a, y = *(const double *)b;
  return (x > y) - (x < y);
}

int main(int n, char **words) {
  if (n != 7 && n != 8) {
    fprintf(stderr, "usage: serve_load SOCKET UID CONNECTIONS CALLS CALL ANSWER [PAUSE]\n");
    return 2;
  }
  path = words[1];
  uid = atoi(words[2]);
  calls = atoi(words[4]);
  pause_us = n == 8 ? atoi(words[7]) : 0;
  int connections = atoi(words[3]);
  FILE *file = fopen(words[5], "rb");
  if (!file) fail(words[5]);
  call_size = fread(call, 1, sizeof call, file);
  size_t all = (size_t)connections * calls;
  double *times = malloc(all * sizeof *times);
  pthread_t *threads = malloc(connections * sizeof *threads);
  if (!times || !threads) fail("serve_load: malloc");
  double from = now();
  for (int k = 0; k < connections; k++) pthread_create(&threads[k], 0, talk, times + (size_t)k * calls);
  for (int k = 0; k < connections; k++) pthread_join(threads[k], 0);
  double seconds = now() - from;
  file = fopen(words[6], "wb");
  if (!file || fwrite(answer, 1, answer_size, file) != answer_size || fclose(file)) fail(words[6]);
  qsort(times, all, sizeof *times, order);
  printf("%.6f %.1f %.1f\n", seconds, times[all / 2] * 1e6, times[all * 99 / 100] * 1e6);
}
