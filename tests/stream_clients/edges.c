// edges HOW PIPE: shows what a pipe has, and waits for more by edges of epoll, as programs do that never poll by level. HOW is what they take for 'there
// is no more, so wait': `again`, a read that fails with EAGAIN (Go's runtime), or `short`, also one that gives less than was asked for (tokio).
// At the end of the pipe it tells on standard error how many waits and reads there were.
#define _GNU_SOURCE
#include <errno.h>
#include <fcntl.h>
#include <stdbool.h>
#include <stdio.h>
#include <string.h>
#include <sys/epoll.h>
#include <unistd.h>

static int waits, reads;

static void fail(const char *what) {
  perror(what);
  _exit(3);
}

static bool wait_for_an_edge(int edges) {
  struct epoll_event event;
  int count = epoll_wait(edges, &event, 1, 20 * 1000);
  if (count < 0)
    fail("epoll_wait");
  waits++;
  return count == 1;
}

// Reads until what this kind of program takes for the last. Has whether the pipe goes on.
static bool drain(int pipe, bool is_short) {
  char data[65536];
  for (;;) {
    ssize_t count = read(pipe, data, sizeof data);
    reads++;
    if (count == 0)
      return false;
    if (count < 0 && errno != EAGAIN)
      fail("read");
    if (count < 0)
      return true;
    if (write(1, data, count) != count)
      fail("write");
    if (is_short && count < (ssize_t)sizeof data)
      return true;
  }
}

int main(int count, char **words) {
  if (count != 3)
    return 2;
  int pipe = open(words[2], O_RDONLY | O_NONBLOCK | O_CLOEXEC), edges = epoll_create1(EPOLL_CLOEXEC);
  struct epoll_event event = {.events = EPOLLIN | EPOLLOUT | EPOLLRDHUP | EPOLLET};
  if (pipe < 0 || edges < 0 || epoll_ctl(edges, EPOLL_CTL_ADD, pipe, &event))
    fail(words[2]);
  while (drain(pipe, !strcmp(words[1], "short")))
    if (!wait_for_an_edge(edges)) {
      fprintf(stderr, "no edge came\n");
      return 4;
    }
  fprintf(stderr, "%d waits, %d reads\n", waits, reads);
  return 0;
}
