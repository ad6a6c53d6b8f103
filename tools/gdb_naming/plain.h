/* What both C files see. */
struct point { int x, y; };
union word { unsigned long whole; unsigned char part[8]; };
enum colour { RED, GREEN = 5, BLUE };
typedef struct { short first; unsigned short second; } pair;
typedef int (*reducer)(int, int);
struct unseen;
extern int shared_count;
extern struct unseen *hidden_away;
extern const char *const greeting;
int folded(reducer reduce, const int *from, int count);
static inline int square(int n) { return n * n; }
static inline int cube(int n) { return n * square(n); }
