#define H 6
#define W 7
// A convolution with a window of three by three: eighteen reads.
void conv3x3(int in_[H][W], int k[3][3], int out_[H][W]) {
  for (int y = 1; y < H - 1; y++)
    for (int x = 1; x < W - 1; x++)
      out_[y][x] = k[0][0] * in_[y - 1][x - 1] + k[0][1] * in_[y - 1][x] + k[0][2] * in_[y - 1][x + 1]
                 + k[1][0] * in_[y][x - 1] + k[1][1] * in_[y][x] + k[1][2] * in_[y][x + 1]
                 + k[2][0] * in_[y + 1][x - 1] + k[2][1] * in_[y + 1][x] + k[2][2] * in_[y + 1][x + 1];
}
