/* The Tube's registers, 1 to 4, for a program that talks through them itself; para.cfg and host.cfg tell where they are. */
extern volatile unsigned char tube[8];

/* A byte waits in register N. */
#define TUBE_HAS(n) (tube[2 * (n) - 2] & 0x80)

/* There is room for a byte in register N. */
#define TUBE_ROOM(n) (tube[2 * (n) - 2] & 0x40)

/* The byte of register N: to be read where one waits, and written where there is room. */
#define TUBE_BYTE(n) (tube[2 * (n) - 1])

/* Waits for a byte; waits for room, and gives one. */
#define TUBE_WAIT(n) while (!TUBE_HAS(n))
#define TUBE_GIVE(n, byte) do { while (!TUBE_ROOM(n)); TUBE_BYTE(n) = (byte); } while (0)
