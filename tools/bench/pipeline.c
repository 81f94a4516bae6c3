/* The matrix product as a pipeline of threads over bounded channels, written by hand: the peer of `compaan load N`.
 *
 * usage: pipeline N CAPACITY
 *
 * Five threads: the two sources, the zeros that C begins with, the products, and the sink. They exchange what the processes of
 * the network exchange: each value of A and of B once (the products keep them), the sums that go from one product to the next
 * by way of a channel of its own, and the cells of C. A channel is a ring under a mutex with two conditions. Prints the sum of
 * the cells and the number of events: gets, products or values, and puts.
 */
#include <pthread.h>
#include <stdint.h>
#include <stdio.h>
#include <stdlib.h>

struct channel {
  pthread_mutex_t lock;
  pthread_cond_t filled, emptied;
  int64_t *ring;
  size_t capacity, first, count;
};

static size_t N, room;
static struct channel of_a, of_b, of_zero, of_sum, of_c;
static int64_t total;

static void make(struct channel *c, size_t capacity) {
  pthread_mutex_init(&c->lock, NULL);
  pthread_cond_init(&c->filled, NULL);
  pthread_cond_init(&c->emptied, NULL);
  c->ring = malloc(capacity * sizeof *c->ring);
  c->capacity = capacity;
  c->first = c->count = 0;
}

static void put(struct channel *c, int64_t value) {
  pthread_mutex_lock(&c->lock);
  while (c->count == c->capacity) pthread_cond_wait(&c->emptied, &c->lock);
  c->ring[(c->first + c->count++) % c->capacity] = value;
  pthread_cond_signal(&c->filled);
  pthread_mutex_unlock(&c->lock);
}

static int64_t get(struct channel *c) {
  pthread_mutex_lock(&c->lock);
  while (c->count == 0) pthread_cond_wait(&c->filled, &c->lock);
  int64_t value = c->ring[c->first];
  c->first = (c->first + 1) % c->capacity;
  c->count--;
  pthread_cond_signal(&c->emptied);
  pthread_mutex_unlock(&c->lock);
  return value;
}

/* the cells that `load` gives */
static void *give_a(void *none) {
  for (size_t n = 0; n < N * N; n++) put(&of_a, (int64_t)((7 * n + 3) % 11) - 5);
  return none;
}

static void *give_b(void *none) {
  for (size_t n = 0; n < N * N; n++) put(&of_b, (int64_t)((5 * n + 1) % 13) - 6);
  return none;
}

static void *give_zero(void *none) {
  for (size_t n = 0; n < N * N; n++) put(&of_zero, 0);
  return none;
}

static void *multiply(void *none) {
  int64_t *row = malloc(N * sizeof *row), *b = malloc(N * N * sizeof *b);
  for (size_t n = 0; n < N * N; n++) b[n] = get(&of_b);
  for (size_t i = 0; i < N; i++)
    for (size_t j = 0; j < N; j++)
      for (size_t k = 0; k < N; k++) {
        if (j == 0) row[k] = get(&of_a);
        int64_t sum = k == 0 ? get(&of_zero) : get(&of_sum);
        sum = (int64_t)((uint64_t)sum + (uint64_t)row[k] * (uint64_t)b[k * N + j]);
        put(k + 1 < N ? &of_sum : &of_c, sum);
      }
  return none;
}

static void *keep(void *none) {
  for (size_t n = 0; n < N * N; n++) total = (int64_t)((uint64_t)total + (uint64_t)get(&of_c));
  return none;
}

int main(int count, char **words) {
  if (count != 3) return 2;
  N = strtoul(words[1], NULL, 10);
  room = strtoul(words[2], NULL, 10);
  struct channel *all[] = {&of_a, &of_b, &of_zero, &of_sum, &of_c};
  for (size_t c = 0; c < 5; c++) make(all[c], room);
  void *(*bodies[])(void *) = {give_a, give_b, give_zero, multiply, keep};
  pthread_t threads[5];
  for (size_t t = 0; t < 5; t++) pthread_create(&threads[t], NULL, bodies[t], NULL);
  for (size_t t = 0; t < 5; t++) pthread_join(threads[t], NULL);
  size_t squares = N * N, cubes = N * N * N;
  /* value and put of three sources, the gets of A and B, get, product and put of each sum, get and value of the sink */
  printf("events %zu\nsum %lld\n", squares * 6 + squares * 2 + cubes * 3 + squares * 2, (long long)total);
  return 0;
}
