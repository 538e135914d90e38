/* A plain server to compare a daemon with:  serve_echo SOCKET CONNECTIONS ANSWER

   It takes so many connections, each with a thread of its own, accepts any user, reads each message whole, and answers it with the bytes
   of the file ANSWER. It ends when all are gone. */
#include <errno.h>
#include <pthread.h>
#include <stdint.h>
#include <stdio.h>
#include <stdlib.h>
#include <string.h>
#include <sys/socket.h>
#include <sys/un.h>
#include <unistd.h>

enum { ROOM = 1 << 16 };

static unsigned char answer[ROOM];
static size_t answer_size;

/* The bytes that were read and not taken: a read takes what is there. */
struct buffer {
  int fd;
  size_t from, to;
  unsigned char bytes[ROOM];
};

/* Whether so many bytes came. */
static int want(struct buffer *b, size_t size) {
  while (b->to - b->from < size) {
    memmove(b->bytes, b->bytes + b->from, b->to - b->from);
    b->to -= b->from;
    b->from = 0;
    ssize_t n = read(b->fd, b->bytes + b->to, ROOM - b->to);
    if (n < 0 && errno == EINTR) continue;
    if (n <= 0) return 0;
    b->to += n;
  }
  return 1;
}

/* Takes a line, and returns whether it came. */
static int want_line(struct buffer *b) {
  do
    if (!want(b, 1)) return 0;
  while (b->bytes[b->from++] != '\n');
  return 1;
}

static int send_all(int fd, const void *data, size_t size) {
  for (const char *at = data; size;) {
    ssize_t n = send(fd, at, size, MSG_NOSIGNAL);
    if (n < 0 && errno == EINTR) continue;
    if (n <= 0) return 0;
    at += n;
    size -= n;
  }
  return 1;
}

/* Takes a message, and answers it. */
static int serve_message(struct buffer *b) {
  uint32_t body, fields;
  if (!want(b, 16)) return 0;
  memcpy(&body, b->bytes + b->from + 4, 4);
  memcpy(&fields, b->bytes + b->from + 12, 4);
  size_t size = 16 + fields + (8 - fields % 8) % 8 + body;
  if (size > ROOM || !want(b, size)) return 0;
  b->from += size;
  return send_all(b->fd, answer, answer_size);
}

static void *serve(void *link) {
  struct buffer *b = malloc(sizeof *b);
  if (!b) return 0;
  b->fd = (int)(intptr_t)link;
  b->from = b->to = 0;
  if (want_line(b) && send_all(b->fd, "OK 00000000000000000000000000000000\r\n", 37) && want_line(b))
    while (serve_message(b)) {}
  close(b->fd);
  free(b);
  return 0;
}

int main(int n, char **words) {
  if (n != 4) {
    fprintf(stderr, "usage: serve_echo SOCKET CONNECTIONS ANSWER\n");
    return 2;
  }
  int connections = atoi(words[2]), door = socket(AF_UNIX, SOCK_STREAM, 0);
  struct sockaddr_un at = {.sun_family = AF_UNIX};
  strncpy(at.sun_path, words[1], sizeof at.sun_path - 1);
  FILE *file = fopen(words[3], "rb");
  pthread_t *threads = malloc(connections * sizeof *threads);
  if (!threads || !file || door < 0 || bind(door, (struct sockaddr *)&at, sizeof at) || listen(door, 128)) {
    perror("serve_echo");
    return 1;
  }
  answer_size = fread(answer, 1, sizeof answer, file);
  for (int k = 0; k < connections; k++) pthread_create(&threads[k], 0, serve, (void *)(intptr_t)accept(door, 0, 0));
  for (int k = 0; k < connections; k++) pthread_join(threads[k], 0);
  unlink(words[1]);
  return 0;
}
