/* Run-length encoding: a count from 1 to 255 and a byte, for each run. */
unsigned rle_pack(const unsigned char *from, unsigned size, unsigned char *to);
unsigned rle_unpack(const unsigned char *from, unsigned size, unsigned char *to);
