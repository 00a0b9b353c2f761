/* The descriptor that requests a call of the program, and the one that reports how the call ended. */

enum { ORDERS = 198, REPORTED = 199 };

struct end { int status; long memory; double time; };
