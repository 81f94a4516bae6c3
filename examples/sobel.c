// The Sobel filter in C, on an image of 5 rows and 6 columns: reads its pixels and prints the edges.
#include <stdio.h>
#include <stdlib.h>

static void sobel(int H, int W, int image[H][W], int edges[H][W]) {
  for (int y = 1; y < H - 1; y++)
    for (int x = 1; x < W - 1; x++) {
      int gx = image[y - 1][x + 1] + 2 * image[y][x + 1] + image[y + 1][x + 1]
             - image[y - 1][x - 1] - 2 * image[y][x - 1] - image[y + 1][x - 1];
      int gy = image[y + 1][x - 1] + 2 * image[y + 1][x] + image[y + 1][x + 1]
             - image[y - 1][x - 1] - 2 * image[y - 1][x] - image[y - 1][x + 1];
      int strength = abs(gx) + abs(gy);
      edges[y][x] = strength > 255 ? 255 : strength;
    }
}

int main(void) {
  static int image[5][6], edges[5][6];
  for (int i = 0; i < 5 * 6; i++)
    if (scanf("%d", &image[i / 6][i % 6]) != 1) return 1;
  sobel(5, 6, image, edges);
  printf("edges");
  for (int i = 0; i < 5 * 6; i++) printf(",%d", edges[i / 6][i % 6]);
  printf("\n");
}
