/* Names of conio.h and time.h that cc65 leaves to each machine, for programs of `build --disc`. */
#define CLOCKS_PER_SEC  100
#define CLK_TCK         100

#define COLOR_BLACK     0
#define COLOR_RED       1
#define COLOR_GREEN     2
#define COLOR_YELLOW    3
#define COLOR_BLUE      4
#define COLOR_MAGENTA   5
#define COLOR_CYAN      6
#define COLOR_WHITE     7

/* What chline and cvline draw, and where these meet. */
#define CH_HLINE        '-'
#define CH_VLINE        '|'
#define CH_ULCORNER     '+'
#define CH_URCORNER     '+'
#define CH_LLCORNER     '+'
#define CH_LRCORNER     '+'
#define CH_TTEE         '+'
#define CH_BTEE         '+'
#define CH_LTEE         '+'
#define CH_RTEE         '+'
#define CH_CROSS        '+'

/* Keys: those of the cursor give these after OSBYTE 4 with X = 1. */
#define CH_ENTER        13
#define CH_ESC          27
#define CH_DEL          127
#define CH_CURS_LEFT    136
#define CH_CURS_RIGHT   137
#define CH_CURS_DOWN    138
#define CH_CURS_UP      139
