#define H 6
#define W 7
#define MAX(a, b) ((a) > (b) ? (a) : (b))
#define MIN(a, b) ((a) < (b) ? (a) : (b))
#define ABS(a) MAX(a, -(a))
// Edges of an image by two sums, clipped to a byte.
void sobel(int image[H][W], int edges[H][W]) {
  int gx, gy;
  for (int y = 1; y < H - 1; y++) {
    for (int x = 1; x < W - 1; x++) {
      gx = image[y - 1][x + 1] + 2 * image[y][x + 1] + image[y + 1][x + 1]
         - image[y - 1][x - 1] - 2 * image[y][x - 1] - image[y + 1][x - 1];
      gy = image[y + 1][x - 1] + (image[y + 1][x] << 1) + image[y + 1][x + 1]
         - image[y - 1][x - 1] - (image[y - 1][x] << 1) - image[y - 1][x + 1];
      edges[y][x] = MIN(255, ABS(gx) + ABS(gy));
    }
  }
}
