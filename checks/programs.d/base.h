/* What each program needs of Linux: text on standard output, and bytes of standard input. */
typedef unsigned char byte;
typedef unsigned int word;
typedef unsigned long long wide;

int run(int count, char **words);
void put(const char *text);
void put_char(char c);
void put_number(int n);
void put_hex(word n);
word get(char *to, word size);
